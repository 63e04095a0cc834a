//! Few small decks that tell what the decks read do not.

use crate::faults::ALL;
use crate::frames;
use crate::shrink::{shrink, size, Size};
use crate::stats::{Right, Tellers};
use crate::telltale::{decks, smallest, tiny_decks};
use std::cmp::Ordering;
use std::io::{self, BufRead, Write};

const TINY_DECKS: u64 = 6_000;
const DECKS: u64 = 8_000;
const MOST_ENTRIES: usize = 8;

/// A deck and the places in `ALL` of the faults it may be taken for.
pub struct Teller {
    pub deck: Vec<u8>,
    size: Size,
    pub faults: Vec<usize>,
}

impl Teller {
    fn of(deck: Vec<u8>, untold: &[usize]) -> Teller {
        let faults = Right::of(&deck).told(untold.iter().copied());
        Teller {
            size: size(&deck),
            deck,
            faults,
        }
    }

    /// More faults are better, then a smaller deck.
    fn compare(&self, other: &Teller) -> Ordering {
        let count = self.faults.len().cmp(&other.faults.len());
        let smaller = other.size.partial_cmp(&self.size);
        count.then(smaller.unwrap_or(Ordering::Equal))
    }

    /// As small as it can be with the same refusals under all its faults.
    fn shrunk(self) -> Teller {
        let refusals = |deck: &[u8]| -> Vec<_> {
            let right = Right::of(deck);
            let faults = self.faults.iter().map(|&at| ALL[at]);
            faults
                .map(|(fault, step, _)| right.refusals(fault, step))
                .collect()
        };
        let wanted = refusals(&self.deck);
        let deck = shrink(self.deck, |deck| refusals(deck) == wanted);
        Teller {
            size: size(&deck),
            deck,
            ..self
        }
    }
}

fn is_small(deck: &[u8]) -> bool {
    let size = size(deck);
    !size.heavy && size.entries <= MOST_ENTRIES
}

/// The small ones of the decks that tell some of the faults, with the smallest
/// deck to be found for each fault that none of them tells.
fn tellers(untold: &[usize], decks: impl Iterator<Item = Vec<u8>>) -> Vec<Teller> {
    let small = decks.filter(|deck| is_small(deck));
    let mut tellers: Vec<Teller> = small.map(|deck| Teller::of(deck, untold)).collect();
    tellers.retain(|teller| !teller.faults.is_empty());
    for at in untold {
        if tellers.iter().all(|teller| !teller.faults.contains(at)) {
            let (fault, step, _) = ALL[*at];
            tellers.extend(smallest(fault, step).map(|deck| Teller::of(deck, untold)));
        }
    }
    tellers
}

/// Takes the best deck again and again until none tells anything untold; each
/// keeps the faults it was taken for.
pub fn choose(untold: &[usize], decks: impl Iterator<Item = Vec<u8>>) -> Vec<Teller> {
    let mut tellers = tellers(untold, decks);
    let mut chosen = Vec::new();
    while let Some(best) = (0..tellers.len()).max_by(|&a, &b| tellers[a].compare(&tellers[b])) {
        let best = tellers.swap_remove(best);
        for teller in &mut tellers {
            teller.faults.retain(|at| !best.faults.contains(at));
        }
        tellers.retain(|teller| !teller.faults.is_empty());
        chosen.push(best.shrunk());
    }
    chosen
}

/// Prints the further decks as frames and on the other output what each was
/// taken for; false where a fault stays untold or no decks are read.
pub fn cover(
    input: &mut impl BufRead,
    output: &mut impl Write,
    beside: &mut impl Write,
) -> io::Result<bool> {
    let read = match frames::decks(input)? {
        Ok(decks) => decks,
        Err(line) => return writeln!(output, "{line}").map(|()| false),
    };
    let mut untold = Tellers::of(&read).untold();
    if untold.is_empty() {
        return Ok(true);
    }
    let chosen = choose(&untold, tiny_decks(TINY_DECKS).chain(decks(DECKS)));
    for (teller, number) in chosen.iter().zip(1..) {
        frames::put(output, "deck", &teller.deck)?;
        writeln!(beside, "deck {number} for {}", names(&teller.faults))?;
        untold.retain(|at| !teller.faults.contains(at));
    }
    if !untold.is_empty() {
        writeln!(beside, "no deck for {}", names(&untold))?;
    }
    Ok(untold.is_empty())
}

fn names(faults: &[usize]) -> String {
    let names: Vec<&str> = faults.iter().map(|&at| ALL[at].2).collect();
    names.join(" ")
}
