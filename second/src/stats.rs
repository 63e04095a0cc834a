//! How often decks reach each situation and tell each fault.

use crate::deck::read;
use crate::faults::{Fault, Step, ALL};
use crate::frames;
use crate::generate;
use crate::hour::*;
use crate::report::{of_hour, report};
use crate::situations;
use std::io::{self, BufRead, Write};

/// From this many decks on, every fault is to be told.
const ENOUGH: u64 = 3_000;

/// A deck with what it gives by the right rules.
pub struct Right<'a> {
    deck: &'a [u8],
    read: Result<Hour, Refusal>,
    report: Vec<u8>,
}

impl Right<'_> {
    pub fn of(deck: &[u8]) -> Right<'_> {
        Right {
            deck,
            read: read(deck, Fault::None),
            report: report(deck, Fault::None),
        }
    }

    /// The report under a fault, where it is another.
    fn other_report(&self, fault: Fault, step: Step) -> Option<Vec<u8>> {
        let other = match (step, &self.read) {
            (Step::Reading, right) if read(self.deck, fault) == *right => return None,
            (Step::Reading, _) => report(self.deck, fault),
            (Step::Reckoning, Ok(hour)) => of_hour(hour, fault),
            (Step::Reckoning, Err(_)) => return None,
        };
        (other != self.report).then_some(other)
    }

    pub fn is_told(&self, fault: Fault, step: Step) -> bool {
        self.other_report(fault, step).is_some()
    }

    /// What refuses the deck, rightly and under a fault it tells.
    pub fn refusals(&self, fault: Fault, step: Step) -> Option<[u8; 2]> {
        let other = self.other_report(fault, step)?;
        Some([refusal(&self.report), refusal(&other)])
    }

    /// The places in `ALL` of the faults the deck tells, of those asked about.
    pub fn told(&self, asked: impl Iterator<Item = usize>) -> Vec<usize> {
        let is_told = |&at: &usize| self.is_told(ALL[at].0, ALL[at].1);
        asked.filter(is_told).collect()
    }

    pub fn is_accepted(&self) -> bool {
        refusal(&self.report) == 0
    }
}

/// The number of the refusal a report tells, 0 where it tells none.
fn refusal(report: &[u8]) -> u8 {
    let text = report.strip_prefix(b"refused ").unwrap_or(&[]);
    let digits = text.iter().take_while(|byte| byte.is_ascii_digit());
    digits.fold(0, |number, digit| 10 * number + (digit - b'0'))
}

/// By fault, the numbers from 1 of the decks that tell it.
pub struct Tellers(Vec<Vec<u64>>);

impl Tellers {
    fn none() -> Tellers {
        Tellers(vec![Vec::new(); ALL.len()])
    }

    pub fn of(decks: &[Vec<u8>]) -> Tellers {
        let mut tellers = Tellers::none();
        for (deck, number) in decks.iter().zip(1..) {
            tellers.add(deck, number);
        }
        tellers
    }

    fn add(&mut self, deck: &[u8], number: u64) {
        for at in Right::of(deck).told(0..ALL.len()) {
            self.0[at].push(number);
        }
    }

    /// The places in `ALL` of the faults no deck tells.
    pub fn untold(&self) -> Vec<usize> {
        (0..ALL.len()).filter(|&at| self.0[at].is_empty()).collect()
    }
}

/// Prints both tables; false where a line that must not be 0 is.
pub fn stats(seed: u64, count: u64) -> io::Result<bool> {
    let situations = situations::all();
    let mut reached = vec![0; situations.len()];
    let mut tellers = Tellers::none();
    for index in 0..count {
        let made = generate::deck(seed, index);
        situations::count(&made, &situations, &mut reached);
        tellers.add(&made.deck, index + 1);
    }
    let mut output = io::stdout().lock();
    for (situation, count) in situations.iter().zip(&reached) {
        writeln!(output, "{count:>8}  {}", situation.name)?;
    }
    for ((_, _, name), numbers) in ALL.iter().zip(&tellers.0) {
        writeln!(output, "{:>8}  tells {name}", numbers.len())?;
    }
    Ok(!reached.contains(&0) && (count < ENOUGH || tellers.untold().is_empty()))
}

/// Prints how many of the decks read tell each fault, and which where all is
/// asked for; false where a fault is told by none, or where no decks are read.
pub fn faults(input: &mut impl BufRead, output: &mut impl Write, all: bool) -> io::Result<bool> {
    let decks = match frames::decks(input)? {
        Ok(decks) => decks,
        Err(line) => return writeln!(output, "{line}").map(|()| false),
    };
    let tellers = Tellers::of(&decks);
    for ((_, _, name), numbers) in ALL.iter().zip(&tellers.0) {
        if !numbers.is_empty() {
            let which = if all { numbers.as_slice() } else { &[] };
            let which: String = which.iter().map(|number| format!(" {number}")).collect();
            writeln!(output, "fault {name} {}{which}", numbers.len())?;
        }
    }
    let untold = tellers.untold();
    for &at in &untold {
        writeln!(output, "fault {} 0", ALL[at].2)?;
    }
    if untold.is_empty() {
        let (faults, decks) = (ALL.len(), decks.len());
        writeln!(
            output,
            "every fault is told: {faults} faults, {decks} decks"
        )?;
    }
    Ok(untold.is_empty())
}
