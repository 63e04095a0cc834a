//! The program's own tests.

mod deck;
mod examples;
mod file;
mod generated;
mod reckoning;
mod short;
mod told;

use crate::deck::read;
use crate::faults::Fault;
use crate::report::report;
use std::io;

/// A named deck, or lines of one, with the refusal wanted and its place.
type Case = (&'static str, &'static str, u8, i64);

/// Counts named checks and prints those that fail.
#[derive(Default)]
pub struct Checks {
    passed: u64,
    failed: u64,
}

impl Checks {
    fn check(&mut self, name: &str, holds: bool) {
        if holds {
            self.passed += 1;
        } else {
            self.failed += 1;
            println!("failed: {name}");
        }
    }

    fn equal<T: PartialEq + std::fmt::Debug>(&mut self, name: &str, found: T, wanted: T) {
        if found != wanted {
            println!("found  {found:?}\nwanted {wanted:?}");
        }
        self.check(name, found == wanted);
    }

    fn report(&mut self, name: &str, deck: impl AsRef<[u8]>, wanted: &str) {
        let found = report(deck.as_ref(), Fault::None);
        self.equal(name, String::from_utf8_lossy(&found).as_ref(), wanted);
    }

    fn refused(&mut self, name: &str, deck: impl AsRef<[u8]>, number: u8, place: i64) {
        self.report(name, deck, &format!("refused {number} {place}\n"));
    }

    fn all(&mut self, cases: &[Case], deck: fn(&str) -> String) {
        for &(name, text, number, place) in cases {
            self.refused(name, deck(text), number, place);
        }
    }

    fn read(&mut self, name: &str, deck: impl AsRef<[u8]>) {
        self.check(name, read(deck.as_ref(), Fault::None).is_ok());
    }

    fn accepted(&mut self, name: &str, deck: impl AsRef<[u8]>) {
        let found = report(deck.as_ref(), Fault::None);
        self.check(name, found.starts_with(b"hour "));
    }
}

pub fn run() -> io::Result<bool> {
    let mut checks = Checks::default();
    examples::run(&mut checks);
    deck::run(&mut checks);
    reckoning::run(&mut checks);
    short::run(&mut checks);
    file::run(&mut checks);
    generated::run(&mut checks);
    told::run(&mut checks);
    println!("{} passed, {} failed", checks.passed, checks.failed);
    Ok(checks.failed == 0)
}
