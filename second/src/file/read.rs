//! The reader of the file: records in order, the first faulty one refused.

use super::faults::FileFault;
use super::fields::Fields;
use super::{Kind, Record};
use crate::allocations::Allocations;
use crate::hour::{Refusal, MOST_OF_A_CLASS};

pub fn file(file: &[u8], fault: FileFault) -> Result<Allocations, Refusal> {
    if fault == FileFault::FormBeforeOrder {
        forms(file, fault)?;
    }
    let mut reader = Reader::new(file, fault);
    reader.read_header()?;
    while !reader.is_done() {
        reader.read_record()?;
    }
    if reader.accepts_rest() {
        Ok(reader.lines)
    } else {
        Err(reader.refusal())
    }
}

/// The form of every record, in whatever order.
fn forms(file: &[u8], fault: FileFault) -> Result<(), Refusal> {
    let mut reader = Reader::new(file, fault);
    reader.read_header()?;
    while !reader.fields.rest.is_empty() {
        let refusal = reader.refusal();
        reader.fields.record().ok_or(refusal)?;
        reader.number += 1;
    }
    Ok(())
}

struct Reader<'a> {
    fields: Fields<'a>,
    /// The number of the record read next.
    number: i64,
    /// The last record's kind; none before the hour.
    reached: Option<Kind>,
    lines: Allocations,
    fault: FileFault,
}

impl<'a> Reader<'a> {
    fn new(file: &'a [u8], fault: FileFault) -> Reader<'a> {
        Reader {
            fields: Fields::of(file, fault),
            number: 1,
            reached: None,
            lines: Allocations::default(),
            fault,
        }
    }

    fn read_header(&mut self) -> Result<(), Refusal> {
        let mut after = self.fields;
        match after.header() {
            Some(()) => {
                self.fields = after;
                self.number += 1;
                Ok(())
            }
            None if self.fault == FileFault::HeaderOptional => Ok(()),
            None => Err(self.refusal()),
        }
    }

    fn read_record(&mut self) -> Result<(), Refusal> {
        let mut after = self.fields;
        let record = after
            .record()
            .filter(|record| self.in_order(record.kind()) && !self.wrongly_refused(record));
        let record = record.ok_or_else(|| self.refusal())?;
        self.fields = after;
        self.number += 1;
        self.take(record);
        Ok(())
    }

    fn is_done(&self) -> bool {
        let at_end = self.fields.rest.is_empty();
        match self.fault {
            FileFault::EndMissing if self.reached.is_some() => at_end || self.has_ended(),
            FileFault::TailRead => self.has_ended() && at_end,
            FileFault::EndTwice => self.has_ended() && !self.fields.rest.starts_with(b"end"),
            _ => self.has_ended(),
        }
    }

    fn has_ended(&self) -> bool {
        self.reached == Some(Kind::End)
    }

    /// Whether nothing is left, or what a fault does not look at.
    fn accepts_rest(&self) -> bool {
        match self.fault {
            FileFault::TailIgnored => true,
            FileFault::TailByteIgnored => self.fields.rest.len() <= 1,
            _ => self.fields.rest.is_empty(),
        }
    }

    fn in_order(&self, next: Kind) -> bool {
        match (self.reached, next) {
            (None, Kind::Hour) => true,
            (None, _) => self.fault == FileFault::HourMissing,
            (Some(Kind::End), _) => true,
            (Some(Kind::Hour), Kind::Hour) => self.fault == FileFault::HourTwice,
            (Some(Kind::Internal), Kind::Delivery) => self.fault == FileFault::DeliveryLate,
            (Some(reached), next) => next >= reached,
        }
    }

    /// What only a fault asks of lines.
    fn wrongly_refused(&self, record: &Record) -> bool {
        let Allocations {
            deliveries,
            internals,
            ..
        } = &self.lines;
        match (self.fault, record) {
            (FileFault::NoDeliveryRefused, Record::Internal(_) | Record::End) => {
                deliveries.is_empty()
            }
            (FileFault::NoInternalRefused, Record::End) => internals.is_empty(),
            (FileFault::Internal33Refused, Record::Internal(_)) => {
                internals.len() == MOST_OF_A_CLASS
            }
            (FileFault::Delivery1025Refused, Record::Delivery(_)) => {
                deliveries.len() == MOST_OF_A_CLASS.pow(2)
            }
            (FileFault::LabelsUsedRefused, Record::Delivery(line)) => deliveries
                .iter()
                .any(|used| used.delivery == line.delivery && used.source == line.source),
            (FileFault::LabelsUsedRefused, Record::Internal(line)) => {
                internals.iter().any(|used| used.source == line.source)
            }
            (FileFault::HourMustAddUp, Record::Hour(amounts)) => {
                let [generation, losses, delivered, internal] = amounts.map(i128::from);
                generation != losses + delivered + internal
            }
            _ => false,
        }
    }

    fn take(&mut self, record: Record) {
        self.reached = Some(record.kind());
        match record {
            Record::Hour(amounts) => self.lines.hour = amounts,
            Record::Delivery(line) => self.lines.deliveries.push(line),
            Record::Internal(line) => self.lines.internals.push(line),
            Record::End => {}
        }
    }

    /// The refusal of the record that is not the one due.
    fn refusal(&self) -> Refusal {
        let rest = self.fields.rest;
        let cut = !rest.is_empty() && !rest.contains(&b'\n');
        let moved = match self.fault {
            FileFault::HeaderNotCounted => -1,
            FileFault::MissingAtLast if rest.is_empty() && self.number > 1 => -1,
            FileFault::CutOnePast if cut => 1,
            FileFault::TailAtEnd if self.has_ended() => -1,
            _ => 0,
        };
        Refusal {
            number: 16,
            place: self.number + moved,
        }
    }
}
