//! Every field at each end of its range and one past it; largest hours.

use super::parts::*;
use super::Made;
use crate::draw::Draw;
use crate::hour::*;
use crate::lines::{shapes, Shape};
use crate::write::{self, Card};

#[derive(Clone, Copy, Debug, PartialEq)]
pub enum End {
    Least,
    Most,
    Above,
    Below,
}

pub const ENDS: [End; 4] = [End::Least, End::Most, End::Above, End::Below];

/// Every number field: letter, place in its line, range.
pub fn fields() -> Vec<(u8, usize, (i64, i64))> {
    let mut fields = Vec::new();
    for letter in *b"HUPFTD" {
        for (place, shape) in shapes(letter).unwrap_or(&[]).iter().enumerate() {
            if let Shape::Number(least, most) | Shape::Basis(least, most) = *shape {
                fields.push((letter, place, (least, most)));
            }
        }
    }
    fields
}

pub fn value(end: End, (least, most): (i64, i64)) -> i64 {
    match end {
        End::Least => least,
        End::Most => most,
        End::Above => most + 1,
        End::Below => least - 1,
    }
}

fn base(draw: &mut Draw) -> Hour {
    let mut made = Hour {
        losses: draw.between(0, 9),
        ..Hour::default()
    };
    let mut unit = unit(draw, name('U', 0), 60);
    if let Nature::Unit(levels) = &mut unit.nature {
        levels.h = 2_000;
    }
    made.sources.push(unit);
    made.sources.push(Source {
        g: 2_000,
        ..purchase(draw, name('P', 0), 50)
    });
    made.sources.push(firm(draw, name('F', 0), 50));
    for at in 0..2 {
        let delivery = delivery(draw, name('T', at), 3);
        made.deliveries.push(Delivery {
            mwh: draw.between(0, 5),
            ..delivery
        });
    }
    made.deliveries[0].sequence = 9;
    made.directs.push(Direct {
        basis: Basis::Low,
        percent: 50,
        unit: 0,
        delivery: 1,
    });
    made
}

/// Keeps the six levels in order around the one just set.
fn keep_levels(card: &mut Card, place: usize, end: End) {
    let Some(at) = FALLING.iter().position(|&known| known == place) else {
        return;
    };
    let text = card.fields[place].clone();
    let touched = match end {
        End::Most => &FALLING[..at],
        End::Least => &FALLING[at..],
        _ => &[],
    };
    for &other in touched {
        card.fields[other] = text.clone();
    }
}

pub fn at_ends(draw: &mut Draw) -> Made {
    let fields = fields();
    let (letter, place, range) = fields[draw.variant(fields.len())];
    let end = ENDS[draw.variant(4)];
    let mut made = base(draw);
    if letter == b'H' && end == End::Most {
        made = largest_losses();
    }
    if letter == b'U' {
        made.deliveries.pop();
        made.directs.clear();
    }
    let mut cards = write::cards(&made);
    if let Some(card) = cards.iter_mut().find(|card| card.letter == letter) {
        card.fields[place] = value(end, range).max(0).to_string().into_bytes();
        if letter == b'U' {
            keep_levels(card, place, end);
        }
    }
    Made::plain(write::bytes(&cards))
}

fn largest_losses() -> Hour {
    let source = |at| Source {
        label: name('S', at),
        g: 2_000,
        nature: Nature::Purchase { rate: 1 },
    };
    Hour {
        losses: 64_000,
        sources: (0..32).map(source).collect(),
        ..Hour::default()
    }
}

fn largest_unit(at: usize, g: i64) -> Source {
    let (h, n) = (2_000, if g == 2_000 { 1_000 } else { 1 });
    let unit = Unit {
        h,
        n,
        o: n,
        e: n,
        k: n,
        a: 999_999,
        b: 99_999,
        c: 99,
        r: 39_996,
    };
    Source {
        label: vec![b'"' + (at % 2) as u8 * 58; 16 - at / 2],
        g,
        nature: Nature::Unit(unit),
    }
}

/// Largest numbers everywhere: few entries, or all 32 of each class.
pub fn largest(draw: &mut Draw) -> Hour {
    let count = if draw.variant(8) == 7 {
        32
    } else {
        draw.between(1, 4)
    };
    let mut made = Hour::default();
    for at in 0..count as usize {
        made.sources
            .push(largest_unit(at, draw.pick(&[2_000, 2_000, 1_999])));
        let label = largest_unit(31 - at, 1).label;
        let sequence = 99 - at as i64 * draw.between(0, 1);
        made.deliveries.push(Delivery {
            sequence,
            sort: 9,
            block: 9,
            mwh: 0,
            label,
        });
    }
    let budget = made.generation().min(4_000);
    for delivery in made.deliveries.iter_mut().take(3) {
        delivery.mwh = (budget / 3).min(2_000);
    }
    for at in 0..count as usize {
        let basis = draw.pick(&[Basis::Number(1_999), Basis::Generation]);
        made.directs.push(Direct {
            basis,
            percent: 100,
            unit: at,
            delivery: at,
        });
    }
    made
}

/// None of anything, or all of everything.
pub fn counts(draw: &mut Draw) -> Hour {
    match draw.variant(6) {
        0 => Hour::default(),
        1 => Hour {
            deliveries: vec![Delivery {
                sequence: 1,
                ..delivery(draw, name('T', 0), 1)
            }],
            ..Hour::default()
        },
        2 => Hour {
            sources: vec![purchase(draw, name('P', 0), 9)],
            ..Hour::default()
        },
        3 => longest(),
        _ => full(draw),
    }
}

/// Sixteen characters, all escaped.
fn escaped(number: usize) -> Label {
    (0..16)
        .map(|bit| if number >> bit & 1 == 1 { b'"' } else { b'\\' })
        .collect()
}

/// An accepted hour whose deck no other is longer than: a first group lowers
/// most units to 0, so that the D lines take little.
pub fn longest() -> Hour {
    let mut made = Hour {
        losses: 10_000,
        ..Hour::default()
    };
    for at in 0..MOST_OF_A_CLASS {
        let unit = Unit {
            h: 2_000,
            n: 1_000,
            o: 1_000,
            e: 1_000,
            k: 1_000,
            a: 999_999,
            b: 99_999,
            c: 99,
            r: 39_996,
        };
        made.sources.push(Source {
            label: escaped(at),
            g: 2_000,
            nature: Nature::Unit(unit),
        });
        let (sequence, mwh) = if at == 31 { (98, 1_703) } else { (99, 1_687) };
        made.deliveries.push(Delivery {
            sequence,
            sort: 9,
            block: 9,
            mwh,
            label: escaped(at),
        });
        made.directs.push(Direct {
            basis: Basis::Number(1_999),
            percent: 100,
            unit: at,
            delivery: 31,
        });
    }
    made
}

/// All three classes full, about sixteen groups.
pub fn full(draw: &mut Draw) -> Hour {
    let mut made = hour(draw, FULL);
    for _ in 0..200 {
        if made.directs.len() == MOST_OF_A_CLASS {
            break;
        }
        made.directs.extend(direct(draw, &made));
    }
    let mut repaired = made.clone();
    repair(&mut repaired);
    if draw.chance(30) {
        made
    } else {
        repaired
    }
}
