//! The spreadsheet file of an hour: a header, then a record for each line of
//! the report.

pub mod faults;
mod fields;
mod label;
mod number;
pub mod read;
pub mod situations;
pub mod stats;
pub mod write;

use crate::allocations::{Allocations, DeliveryLine, InternalLine};
use crate::deck;
use crate::faults::Fault;
use crate::hour::Refusal;
use crate::report::allocations;
use faults::FileFault;

pub const HEADER: &[u8] = b"kind,delivery,number,source,n1,n2,n3,n4";
pub const RECORD_END: &[u8] = b"\r\n";

#[derive(Clone, Debug, PartialEq)]
pub enum Record {
    Hour([i64; 4]),
    Delivery(DeliveryLine),
    Internal(InternalLine),
    End,
}

/// The kinds in the order of their records.
#[derive(Clone, Copy, Debug, PartialEq, PartialOrd)]
pub enum Kind {
    Hour,
    Delivery,
    Internal,
    End,
}

pub const KINDS: [Kind; 4] = [Kind::Hour, Kind::Delivery, Kind::Internal, Kind::End];

impl Kind {
    pub fn name(self) -> &'static [u8] {
        match self {
            Kind::Hour => b"hour",
            Kind::Delivery => b"delivery",
            Kind::Internal => b"internal",
            Kind::End => b"end",
        }
    }
}

impl Record {
    pub fn kind(&self) -> Kind {
        match self {
            Record::Hour(_) => Kind::Hour,
            Record::Delivery(_) => Kind::Delivery,
            Record::Internal(_) => Kind::Internal,
            Record::End => Kind::End,
        }
    }
}

/// The lines of a deck's report, or what refuses the deck or its hour.
pub fn lines_of_deck(deck: &[u8]) -> Result<Allocations, Refusal> {
    allocations(&deck::read(deck, Fault::None)?, Fault::None)
}

/// A deck's file with its name, or that of a report with the refusal's line.
pub fn spreadsheet(deck: &[u8]) -> (&'static str, Vec<u8>) {
    match lines_of_deck(deck) {
        Ok(lines) => ("spreadsheet", write::file(&lines, FileFault::None)),
        Err(refusal) => ("report", refusal.text().into_bytes()),
    }
}

/// A file's lines as the report prints them, or the refusal.
pub fn lines(file: &[u8]) -> (&'static str, Vec<u8>) {
    let text = match read::file(file, FileFault::None) {
        Ok(lines) => lines.text(),
        Err(refusal) => refusal.text().into_bytes(),
    };
    ("report", text)
}
