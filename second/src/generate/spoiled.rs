//! Decks with one faulty line, of one refusal or of two at once.

use super::parts::*;
use super::Made;
use crate::draw::Draw;
use crate::hour::*;
use crate::label;
use crate::write::{self, Card};

/// Where among the lines the faulty one stands.
#[derive(Clone, Copy, Debug, PartialEq)]
pub enum Where {
    First,
    Middle,
    Last,
}

pub const PLACES: [Where; 3] = [Where::First, Where::Middle, Where::Last];

/// The pairs of refusals one line can meet.
pub const PAIRS: &[(u8, u8)] = &[
    (2, 3),
    (2, 4),
    (2, 5),
    (2, 6),
    (2, 7),
    (2, 8),
    (2, 9),
    (3, 4),
    (3, 5),
    (3, 6),
    (3, 7),
    (3, 8),
    (3, 9),
    (4, 5),
    (4, 6),
    (4, 7),
    (4, 8),
    (4, 9),
    (5, 6),
    (7, 8),
    (7, 9),
    (8, 9),
];

/// What a pair with a broken form is called, by the other number from 3 on.
pub const FORM_WITH: [&str; 7] = [
    "form, 3", "form, 4", "form, 5", "form, 6", "form, 7", "form, 8", "form, 9",
];

/// The letters whose lines can meet a refusal.
fn letters(number: u8) -> &'static [u8] {
    match number {
        2 => b"HUPFTDE",
        3 => b"HUPFTD",
        4 => b"UPFTD",
        5 => b"UPFT",
        6 => b"U",
        _ => b"D",
    }
}

fn section(letter: u8) -> usize {
    match letter {
        b'H' => 0,
        b'U' | b'P' | b'F' => 1,
        b'T' => 2,
        b'D' => 3,
        _ => 4,
    }
}

/// The lines of a valid hour by section: H, sources, T, D, E.
struct Sections([Vec<Card>; 5]);

impl Sections {
    fn of(hour: &Hour) -> Sections {
        let mut sections: [Vec<Card>; 5] = Default::default();
        for card in write::cards(hour) {
            sections[section(card.letter)].push(card);
        }
        Sections(sections)
    }

    fn cards(self) -> Vec<Card> {
        self.0.into_iter().flatten().collect()
    }
}

/// A valid hour with a unit, deliveries, and two D lines on the unit.
fn base(draw: &mut Draw, letter: u8, at: Where) -> Hour {
    let size = Size {
        sources: (2, 4),
        deliveries: (2, 4),
        directs: (0, 0),
        ..SMALL
    };
    let mut made = hour(draw, size);
    let mut unit = unit(draw, name('U', 0), 50);
    if let Nature::Unit(levels) = &mut unit.nature {
        levels.h = draw.between(unit.g.max(2), 60);
    }
    made.sources[0] = unit;
    made.sources[1] = match draw.below(2) {
        0 => purchase(draw, name('P', 0), 50),
        _ => firm(draw, name('F', 0), 50),
    };
    for percent in [30, 30] {
        let delivery = draw.below(made.deliveries.len());
        made.directs.push(Direct {
            basis: Basis::Low,
            percent,
            unit: 0,
            delivery,
        });
    }
    if at == Where::First {
        made.sources.truncate(1);
        made.deliveries.truncate(1);
        made.directs = vec![Direct {
            percent: 60,
            delivery: 0,
            ..made.directs[0].clone()
        }];
    }
    if at == Where::Last {
        cut_after(&mut made, section(letter));
    }
    made
}

fn cut_after(hour: &mut Hour, section: usize) {
    if section < 3 {
        hour.directs.clear();
    }
    if section < 2 {
        hour.deliveries.clear();
    }
    if section < 1 {
        hour.sources.clear();
    }
}

/// A line that would be accepted where lines of its letter stand.
fn good(draw: &mut Draw, hour: &Hour, letter: u8) -> Card {
    let mut other = Hour {
        directs: Vec::new(),
        ..hour.clone()
    };
    match letter {
        b'U' => other.sources = vec![unit(draw, name('N', 0), 60)],
        b'P' => other.sources = vec![purchase(draw, name('N', 0), 60)],
        b'F' => other.sources = vec![firm(draw, name('N', 0), 60)],
        b'T' => other.deliveries = vec![delivery(draw, name('N', 0), 4)],
        b'D' => {
            let delivery = draw.below(hour.deliveries.len());
            other.directs = vec![Direct {
                basis: Basis::Low,
                percent: 10,
                unit: 0,
                delivery,
            }];
        }
        _ => {}
    }
    let mut cards = write::cards(&other)
        .into_iter()
        .filter(|card| card.letter == letter);
    cards.next().unwrap_or(Card {
        letter,
        fields: Vec::new(),
    })
}

fn set(card: &mut Card, place: usize, number: i64) {
    card.fields[place] = number.to_string().into_bytes();
}

/// Makes the line meet a refusal; 4 is met by the lines before it.
fn spoil(draw: &mut Draw, card: &mut Card, number: u8, hour: &Hour) {
    match number {
        2 => break_form(draw, card),
        3 => out_of_range(draw, card),
        5 => {
            let used = if card.letter == b'T' {
                &hour.deliveries[0].label
            } else {
                &hour.sources[0].label
            };
            if let Some(last) = card.fields.last_mut() {
                *last = label::written(used);
            }
        }
        6 => swap_levels(draw, card),
        7 => name_wrongly(draw, card, hour),
        8 => {
            let (low, high) = hour.sources[0]
                .unit()
                .map_or((1, 1), |unit| (unit.n, unit.h));
            let other = if hour.directs.is_empty() { high } else { low };
            set(
                card,
                0,
                draw.pick(&[high, high, high + 1, 1_999, other, other]),
            );
        }
        9 => set(card, 1, draw.pick(&[41, 41, 100])),
        _ => {}
    }
}

/// The D line names a source that is no unit, nobody for a unit, or nobody for
/// a delivery.
fn name_wrongly(draw: &mut Draw, card: &mut Card, hour: &Hour) {
    let others = hour.sources.iter().filter(|source| source.unit().is_none());
    let mut names: Vec<(usize, Label)> = others.map(|source| (2, source.label.clone())).collect();
    names.extend([
        (2, b"nobody".to_vec()),
        (3, b"nobody".to_vec()),
        (3, b"nobody".to_vec()),
    ]);
    let (place, name) = draw.pick(&names);
    card.fields[place] = label::written(&name);
}

fn break_form(draw: &mut Draw, card: &mut Card) {
    let spaced = |card: &mut Card| match card.fields.last_mut() {
        Some(last) => last.push(b' '),
        None => card.fields.push(Vec::new()),
    };
    match draw.below(5) {
        0 => card.letter = card.letter.to_ascii_lowercase(),
        1 => card.fields.push(b"0".to_vec()),
        2 if !card.fields.is_empty() => drop(card.fields.pop()),
        3 if card.fields.len() > 1 => card.fields[1].insert(0, b' '),
        _ => spaced(card),
    }
}

fn out_of_range(draw: &mut Draw, card: &mut Card) {
    let (place, number) = match card.letter {
        b'H' => (0, 64_001),
        b'U' => draw.pick(&[
            (0, 0),
            (1, 2_001),
            (5, 2_001),
            (6, 1_000_000),
            (7, 100_000),
            (8, 100),
            (9, 39_997),
        ]),
        b'P' => draw.pick(&[(0, 2_001), (1, 1_000_000)]),
        b'F' => (0, 2_001),
        b'T' => draw.pick(&[(0, 100), (1, 10), (1, 0), (2, 10), (2, 0), (3, 2_001)]),
        _ => draw.pick(&[(0, 0), (0, 2_000), (1, 101), (1, 0)]),
    };
    set(card, place, number);
}

fn swap_levels(draw: &mut Draw, card: &mut Card) {
    let at = draw.below(5);
    for (step, &place) in FALLING.iter().enumerate() {
        let lifted = i64::from(step == at + 1);
        set(card, place, 30 - 3 * (step as i64) + 4 * lifted);
    }
}

/// Fills a section with valid lines up to 32.
fn fill(draw: &mut Draw, hour: &mut Hour, section: usize) {
    for at in 0..MOST_OF_A_CLASS {
        match section {
            1 if hour.sources.len() < MOST_OF_A_CLASS => {
                hour.sources.push(purchase(draw, name('Q', at), 20));
            }
            2 if hour.deliveries.len() < MOST_OF_A_CLASS => {
                hour.deliveries.push(delivery(draw, name('V', at), 9));
            }
            3 if hour.directs.len() < MOST_OF_A_CLASS => {
                let delivery = draw.below(hour.deliveries.len());
                hour.directs.push(Direct {
                    basis: Basis::Low,
                    percent: 1,
                    unit: 0,
                    delivery,
                });
            }
            _ => {}
        }
    }
}

/// The hour that makes a refusal's earliest line possible.
fn shorten(hour: &mut Hour, numbers: &[u8], section: usize) {
    let alone = numbers.iter().all(|number| ![5, 8, 9].contains(number));
    hour.directs
        .retain(|_| section == 3 && numbers.contains(&9));
    if section == 2 || numbers == [7] {
        hour.sources.clear();
    }
    if numbers == [7] {
        hour.deliveries.clear();
    }
    if alone && section < 3 {
        hour.deliveries
            .retain(|_| section == 2 && numbers.contains(&5));
        hour.sources
            .retain(|_| section == 1 && numbers.contains(&5));
    }
}

/// A letter whose lines can meet all the refusals given.
fn letter(draw: &mut Draw, numbers: &[u8], at: Where) -> u8 {
    let fits = |letter: &u8| {
        numbers
            .iter()
            .all(|&number| letters(number).contains(letter))
    };
    let mut possible: Vec<u8> = b"HUPFTDE".iter().copied().filter(fits).collect();
    if at == Where::Last {
        possible.retain(|&letter| letter != b'E');
    }
    match (at, numbers) {
        (Where::First, [2] | [3]) => b'H',
        _ => draw.pick(&possible),
    }
}

/// A deck with one line that meets all the refusals given.
pub fn spoiled(draw: &mut Draw, numbers: &[u8], at: Where) -> Made {
    let letter = letter(draw, numbers, at);
    let section = section(letter);
    let mut hour = base(draw, letter, at);
    let mut card = good(draw, &hour, letter);
    if at == Where::First {
        shorten(&mut hour, numbers, section);
    }
    if numbers.contains(&4) {
        fill(draw, &mut hour, section);
    }
    for &number in numbers.iter().rev() {
        if number != 2 || numbers.len() == 1 || draw.chance(50) {
            spoil(draw, &mut card, number, &hour);
        } else {
            return out_of_order(draw, &hour, card);
        }
    }
    let mut sections = Sections::of(&hour);
    let follower = (section == 3 && at == Where::Middle).then(|| good(draw, &hour, b'D'));
    put(draw, &mut sections.0[section], card, numbers, at);
    sections.0[3].extend(follower);
    let tag = match numbers {
        [2, other] => FORM_WITH.get(usize::from(*other) - 3).copied(),
        _ => None,
    };
    Made {
        deck: write::bytes(&sections.cards()),
        tag,
    }
}

/// The line past the lines of a later class.
fn out_of_order(draw: &mut Draw, hour: &Hour, card: Card) -> Made {
    let section = section(card.letter);
    let mut cards = write::cards(hour);
    let lines = cards.iter().enumerate();
    let later = lines.filter(|(_, other)| self::section(other.letter) > section);
    let later: Vec<usize> = later.map(|(at, _)| at + 1).collect();
    let at = if later.is_empty() {
        cards.len()
    } else {
        draw.pick(&later)
    };
    cards.insert(at, card);
    Made::plain(write::bytes(&cards))
}

fn put(draw: &mut Draw, section: &mut Vec<Card>, card: Card, numbers: &[u8], at: Where) {
    if card.letter.eq_ignore_ascii_case(&b'H') || card.letter.eq_ignore_ascii_case(&b'E') {
        *section = vec![card];
        return;
    }
    let leaning = numbers.iter().any(|number| [4, 5, 8, 9].contains(number));
    let least = if leaning { section.len() } else { 0 };
    match at {
        Where::First if !leaning => section.insert(0, card),
        Where::First | Where::Last => section.push(card),
        Where::Middle => section.insert(
            draw.between(least as i64, section.len() as i64) as usize,
            card,
        ),
    }
}

pub fn single(draw: &mut Draw) -> Made {
    let number = 2 + draw.variant(8) as u8;
    let at = PLACES[draw.variant(3)];
    spoiled(draw, &[number], at)
}

pub fn pair(draw: &mut Draw) -> Made {
    let (one, other) = PAIRS[draw.variant(PAIRS.len())];
    spoiled(draw, &[one, other], Where::Middle)
}

/// A faulty line and a later one, often of a lesser number.
pub fn two_lines(draw: &mut Draw) -> Made {
    let number = 3 + draw.variant(7) as u8;
    let mut made = spoiled(draw, &[number], Where::Middle);
    let tail: &[u8] = match draw.below(4) {
        0 => b"",
        1 => b"E\n",
        2 => b"H 0\n",
        _ => b"x",
    };
    if tail.is_empty() {
        made.deck.truncate(made.deck.len() - 2);
    }
    made.deck.extend(tail);
    made
}

/// A faulty line in a deck whose losses pass its generation too.
pub fn with_ten(draw: &mut Draw) -> Made {
    let number = 2 + draw.variant(8) as u8;
    let mut made = spoiled(draw, &[number], Where::Middle);
    if let Some(rest) = made.deck.iter().position(|&byte| byte == b'\n') {
        if made.deck.starts_with(b"H ") && number > 3 {
            made.deck.splice(..rest, *b"H 64000");
        }
    }
    made
}

/// 10, 11, both, and each by itself at one MWh.
pub fn balance(draw: &mut Draw) -> Hour {
    let mut made = plain_hour(draw);
    let spare = made.generation() - made.losses - made.delivered();
    let variant = draw.variant(6);
    if variant < 4 {
        made.losses += spare + [0, 1, 1, 5][variant];
        made.losses = made.losses.clamp(0, 64_000);
    }
    if variant >= 2 {
        made.deliveries
            .iter_mut()
            .for_each(|delivery| delivery.sequence = 0);
    }
    made
}

fn plain_hour(draw: &mut Draw) -> Hour {
    let size = match draw.below(4) {
        0 => Size {
            sources: (0, 0),
            ..TINY
        },
        1 => Size {
            deliveries: (1, 1),
            directs: (0, 0),
            ..SMALL
        },
        _ => SMALL,
    };
    let mut made = hour(draw, size);
    repair(&mut made);
    made
}
