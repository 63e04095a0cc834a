//! How often files reach each situation, and files and decks tell each fault.

use super::faults::{FileFault, Step, ALL};
use super::situations::{all, Exam};
use super::{lines_of_deck, read, write};
use crate::generate::deck;
use crate::generate::files::file;
use std::io::{self, Write};

/// From this many files and decks on, every fault is to be told.
const ENOUGH: u64 = 3_000;

/// By fault, how many files or decks tell it.
struct Told(Vec<u64>);

impl Told {
    /// Counts the faults of reading that a file tells.
    fn add_file(&mut self, file: &[u8]) {
        let right = read::file(file, FileFault::None);
        self.add(Step::Reading, |fault| read::file(file, fault) != right);
    }

    /// Counts the faults of writing that a deck tells.
    fn add_deck(&mut self, deck: &[u8]) {
        let Ok(lines) = lines_of_deck(deck) else {
            return;
        };
        let right = write::file(&lines, FileFault::None);
        self.add(Step::Writing, |fault| write::file(&lines, fault) != right);
    }

    fn add(&mut self, step: Step, tells: impl Fn(FileFault) -> bool) {
        for (count, &(fault, of, _)) in self.0.iter_mut().zip(ALL) {
            *count += u64::from(of == step && tells(fault));
        }
    }
}

/// Prints both tables; false where a line that must not be 0 is.
pub fn stats(seed: u64, count: u64) -> io::Result<bool> {
    let situations = all();
    let mut reached = vec![0; situations.len()];
    let mut told = Told(vec![0; ALL.len()]);
    for index in 0..count {
        let made = file(seed, index);
        let exam = Exam::of(&made);
        for (situation, count) in situations.iter().zip(&mut reached) {
            *count += u64::from((situation.holds)(&exam));
        }
        told.add_file(&made.file);
        told.add_deck(&deck(seed, index).deck);
    }
    let mut output = io::stdout().lock();
    for (situation, count) in situations.iter().zip(&reached) {
        writeln!(output, "{count:>8}  {}", situation.name)?;
    }
    for ((_, _, name), count) in ALL.iter().zip(&told.0) {
        writeln!(output, "{count:>8}  tells {name}")?;
    }
    Ok(!reached.contains(&0) && (count < ENOUGH || !told.0.contains(&0)))
}
