//! Decks from a seed: the kinds and how often each comes.

pub mod damage;
pub mod files;
pub mod hours;
pub mod labels;
pub mod limits;
pub mod parts;
pub mod spoiled;

use crate::draw::Draw;
use crate::hour::Hour;
use crate::write;
use parts::{FULL, HEAVY, HUGE, MIDDLE, SMALL, TINY};

/// A deck, with the name of what was done to it where its bytes cannot tell.
pub struct Made {
    pub deck: Vec<u8>,
    pub tag: Option<&'static str>,
}

impl Made {
    pub fn plain(deck: Vec<u8>) -> Made {
        Made { deck, tag: None }
    }

    pub fn tagged(deck: Vec<u8>, tag: &'static str) -> Made {
        Made {
            deck,
            tag: Some(tag),
        }
    }

    fn hour(hour: Hour) -> Made {
        Made::plain(write::deck(&hour))
    }
}

type Maker = fn(&mut Draw) -> Made;

/// How many of a cycle's decks each kind makes.
const KINDS: &[(u64, Maker)] = &[
    (6, |draw| Made::hour(hours::plain(draw, TINY))),
    (16, |draw| Made::hour(hours::plain(draw, SMALL))),
    (6, |draw| Made::hour(hours::plain(draw, MIDDLE))),
    (6, |draw| Made::hour(hours::plain(draw, HEAVY))),
    (1, |draw| Made::hour(hours::plain(draw, HUGE))),
    (3, |draw| Made::hour(hours::plain(draw, FULL))),
    (4, |draw| Made::hour(hours::at_rung(draw, TINY))),
    (8, |draw| Made::hour(hours::at_rung(draw, SMALL))),
    (2, |draw| Made::hour(hours::at_rung(draw, MIDDLE))),
    (3, |draw| Made::hour(hours::at_rung(draw, HEAVY))),
    (3, |draw| Made::hour(hours::at_headroom(draw, TINY))),
    (4, |draw| Made::hour(hours::at_headroom(draw, SMALL))),
    (1, |draw| Made::hour(hours::at_headroom(draw, HEAVY))),
    (7, |draw| Made::hour(hours::sunk(draw, TINY))),
    (3, |draw| Made::hour(hours::sunk(draw, SMALL))),
    (1, |draw| Made::hour(hours::sunk(draw, HEAVY))),
    (5, |draw| Made::hour(hours::raised(draw, TINY))),
    (2, |draw| Made::hour(hours::raised(draw, SMALL))),
    (1, |draw| Made::hour(hours::raised(draw, HEAVY))),
    (4, |draw| Made::hour(hours::refilled(draw, TINY))),
    (1, |draw| Made::hour(hours::refilled(draw, HEAVY))),
    (4, |draw| Made::hour(hours::members(draw, TINY))),
    (2, |draw| Made::hour(hours::members(draw, SMALL))),
    (6, |draw| Made::hour(hours::averages(draw, TINY))),
    (8, |draw| Made::hour(hours::placing(draw, TINY))),
    (2, |draw| Made::hour(hours::placing(draw, SMALL))),
    (4, |draw| Made::hour(labels::twins(draw))),
    (2, |draw| Made::hour(labels::odd(draw))),
    (4, labels::none),
    (3, labels::missing_twin),
    (12, limits::at_ends),
    (1, |draw| Made::hour(limits::largest(draw))),
    (2, |draw| Made::hour(limits::counts(draw))),
    (3, |draw| Made::hour(spoiled::balance(draw))),
    (10, spoiled::single),
    (12, spoiled::pair),
    (3, spoiled::two_lines),
    (3, spoiled::with_ten),
    (14, damage::wounded),
];

/// The deck of a number, from 0; it depends on nothing else but the seed.
pub fn deck(seed: u64, index: u64) -> Made {
    in_turn(KINDS, seed, index)
}

/// What is made by the kind whose turn in the cycle a number is.
fn in_turn<T>(kinds: &[(u64, fn(&mut Draw) -> T)], seed: u64, index: u64) -> T {
    let cycle: u64 = kinds.iter().map(|&(weight, _)| weight).sum();
    let mut place = index % cycle;
    let mut at = 0;
    while place >= kinds[at].0 {
        place -= kinds[at].0;
        at += 1;
    }
    let (weight, maker) = kinds[at];
    let turn = index / cycle * weight + place;
    maker(&mut Draw::new(seed, index, turn))
}

/// Small hours of every kind, for finding the shortest deck that tells a fault.
pub fn tiny(seed: u64, index: u64) -> Made {
    const MAKERS: &[fn(&mut Draw) -> Hour] = &[
        |draw| hours::plain(draw, TINY),
        |draw| hours::at_rung(draw, TINY),
        |draw| hours::at_headroom(draw, TINY),
        |draw| hours::sunk(draw, TINY),
        |draw| hours::raised(draw, TINY),
        |draw| hours::refilled(draw, TINY),
        |draw| hours::members(draw, TINY),
        |draw| hours::averages(draw, TINY),
        |draw| hours::placing(draw, TINY),
    ];
    let count = MAKERS.len() as u64;
    let maker = MAKERS[(index % count) as usize];
    Made::hour(maker(&mut Draw::new(seed, index, index / count)))
}
