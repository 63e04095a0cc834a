//! Decks made smaller while they still do what they were found for.

use crate::faults::Fault;
use crate::lines::{form, split};

/// Deliveries of more MWh in all make a deck heavy.
const HEAVY: i64 = 60;

/// How small a deck is: whether it is heavy, sources and deliveries and D
/// lines, bytes, MWh.
#[derive(Clone, Copy, PartialEq, PartialOrd)]
pub struct Size {
    pub heavy: bool,
    pub entries: usize,
    bytes: usize,
    mwh: i64,
}

pub fn size(deck: &[u8]) -> Size {
    let letters = split(deck).filter_map(|line| line.first());
    let mwh = split(deck).map(delivered).sum();
    Size {
        heavy: mwh > HEAVY,
        entries: letters.filter(|letter| b"UPFTD".contains(letter)).count(),
        bytes: deck.len(),
        mwh,
    }
}

/// The MWh of a T line.
fn delivered(line: &[u8]) -> i64 {
    let bare = line.strip_suffix(b"\n").unwrap_or(line);
    match form(bare, Fault::None) {
        Ok(line) if line.letter == b'T' => line.number(3),
        _ => 0,
    }
}

/// Drops lines and lessens numbers as long as this holds of the deck.
pub fn shrink(deck: Vec<u8>, holds: impl Fn(&[u8]) -> bool) -> Vec<u8> {
    let mut deck = deck;
    loop {
        let before = deck.clone();
        deck = with_lesser_numbers(without_needless_lines(deck, &holds), &holds);
        if deck == before {
            return deck;
        }
    }
}

fn without_needless_lines(mut deck: Vec<u8>, holds: impl Fn(&[u8]) -> bool) -> Vec<u8> {
    let mut at = 0;
    while at < split(&deck).count() {
        let kept = split(&deck).enumerate().filter(|&(line, _)| line != at);
        let fewer = kept.map(|(_, line)| line).collect::<Vec<_>>().concat();
        if holds(&fewer) {
            deck = fewer;
            at = 0;
        } else {
            at += 1;
        }
    }
    deck
}

/// A deck's words by line.
type Words = Vec<Vec<Vec<u8>>>;

fn words(deck: &[u8]) -> Words {
    let line = |line: &[u8]| {
        line.split(|&byte| byte == b' ')
            .map(<[u8]>::to_vec)
            .collect()
    };
    deck.split(|&byte| byte == b'\n').map(line).collect()
}

fn joined(words: &Words) -> Vec<u8> {
    let lines: Vec<Vec<u8>> = words.iter().map(|line| line.join(&b' ')).collect();
    lines.join(&b'\n')
}

fn with_lesser_numbers(deck: Vec<u8>, holds: impl Fn(&[u8]) -> bool) -> Vec<u8> {
    let mut words = words(&deck);
    for line in 0..words.len() {
        for at in 0..words[line].len() {
            let lesser = |words: &Words| {
                let mut lessened = lessened(words, line, at).into_iter();
                lessened.find(|words| holds(&joined(words)))
            };
            while let Some(lesser) = lesser(&words) {
                words = lesser;
            }
        }
    }
    joined(&words)
}

/// Some lesser numbers for one word, by itself or with the equal words after
/// it in its line: a unit's equal levels sink together.
fn lessened(words: &Words, line: usize, at: usize) -> Vec<Words> {
    let old = &words[line][at];
    let number = std::str::from_utf8(old).map(str::parse::<u64>);
    let Ok(Ok(number)) = number else {
        return Vec::new();
    };
    let mut lessened = Vec::new();
    for lesser in [0, 1, number / 2, number / 10 * 9, number.saturating_sub(1)] {
        for together in [false, true] {
            let mut words = words.clone();
            for (place, word) in words[line].iter_mut().enumerate().skip(at) {
                if place == at || (together && word == old) {
                    *word = lesser.to_string().into_bytes();
                }
            }
            lessened.extend((lesser < number).then_some(words));
        }
    }
    lessened
}
