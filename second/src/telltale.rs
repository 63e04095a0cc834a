//! The smallest deck found that tells a fault.

use crate::faults::{named, Fault, Step};
use crate::generate;
use crate::shrink::{shrink, size, Size};
use crate::stats::Right;
use std::io::{self, Write};

const SEED: u64 = 1;
const TINY_DECKS: u64 = 60_000;
const DECKS: u64 = 20_000;

pub fn tiny_decks(count: u64) -> impl Iterator<Item = Vec<u8>> {
    (0..count).map(|index| generate::tiny(SEED, index).deck)
}

pub fn decks(count: u64) -> impl Iterator<Item = Vec<u8>> {
    (0..count).map(|index| generate::deck(SEED, index).deck)
}

/// The smallest deck found, which keeps its refusals as it is made smaller. A
/// fault of reckoning is told on hours that are accepted, where it can be.
pub fn smallest(fault: Fault, step: Step) -> Option<Vec<u8>> {
    let told = |deck: &[u8]| Right::of(deck).is_told(fault, step);
    let told_of_accepted = |deck: &[u8]| {
        let right = Right::of(deck);
        right.is_accepted() && right.is_told(fault, step)
    };
    let found = match step {
        Step::Reading => smallest_of(tiny_decks(TINY_DECKS).chain(decks(DECKS)), told),
        Step::Reckoning => smallest_of(tiny_decks(TINY_DECKS), told_of_accepted)
            .or_else(|| smallest_of(tiny_decks(TINY_DECKS), told)),
    }?;
    let refusals = |deck: &[u8]| Right::of(deck).refusals(fault, step);
    let wanted = refusals(&found);
    Some(shrink(found, |deck| refusals(deck) == wanted))
}

fn smallest_of(
    decks: impl Iterator<Item = Vec<u8>>,
    tells: impl Fn(&[u8]) -> bool,
) -> Option<Vec<u8>> {
    let mut best: Option<(Size, Vec<u8>)> = None;
    for deck in decks {
        let size = size(&deck);
        let smaller = best.as_ref().map_or(true, |(least, _)| size < *least);
        if smaller && tells(&deck) {
            best = Some((size, deck));
        }
    }
    best.map(|(_, deck)| deck)
}

/// Prints the deck; false where the name is unknown or no deck tells.
pub fn print(name: &str) -> io::Result<bool> {
    let found = named(name).and_then(|(fault, step)| smallest(fault, step));
    match found {
        Some(deck) => io::stdout().write_all(&deck).map(|()| true),
        None => Ok(false),
    }
}
