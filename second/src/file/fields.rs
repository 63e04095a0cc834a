//! The fields of one record after another, each after its comma.

use super::faults::FileFault;
use super::label::{self, plain_length};
use super::number;
use super::{Kind, Record, HEADER, KINDS, RECORD_END};
use crate::allocations::{DeliveryLine, InternalLine};
use crate::hour::Label;

const BYTE_ORDER_MARK: &[u8] = b"\xef\xbb\xbf";

/// The bytes not yet read.
#[derive(Clone, Copy)]
pub struct Fields<'a> {
    pub rest: &'a [u8],
    fault: FileFault,
}

impl<'a> Fields<'a> {
    pub fn of(file: &'a [u8], fault: FileFault) -> Fields<'a> {
        Fields { rest: file, fault }
    }

    pub fn header(&mut self) -> Option<()> {
        if self.fault == FileFault::HeaderMarked {
            self.rest = self.rest.strip_prefix(BYTE_ORDER_MARK).unwrap_or(self.rest);
        }
        let length = self.rest.iter().position(|byte| b"\r\n".contains(byte));
        let text = self.take(length.unwrap_or(self.rest.len()));
        let known = match self.fault {
            FileFault::HeaderUnchecked => true,
            FileFault::HeaderAnyCase => text.eq_ignore_ascii_case(HEADER),
            _ => text == HEADER,
        };
        known.then_some(())?;
        self.record_end()
    }

    pub fn record(&mut self) -> Option<Record> {
        let record = match self.kind()? {
            Kind::Hour => {
                self.unused(3)?;
                Record::Hour(self.numbers()?)
            }
            Kind::Delivery => Record::Delivery(self.delivery()?),
            Kind::Internal => Record::Internal(self.internal()?),
            Kind::End => {
                self.unused(7)?;
                Record::End
            }
        };
        self.record_end()?;
        Some(record)
    }

    fn kind(&mut self) -> Option<Kind> {
        let text = self.plain();
        let inside = || text.strip_prefix(b"\"")?.strip_suffix(b"\"");
        let is = |kind: &Kind| match self.fault {
            FileFault::KindsAnyCase => text.eq_ignore_ascii_case(kind.name()),
            FileFault::KindsByLetter => text.first() == kind.name().first(),
            FileFault::KindsUnquoted => inside().unwrap_or(text) == kind.name(),
            _ => text == kind.name(),
        };
        KINDS.into_iter().find(is)
    }

    fn delivery(&mut self) -> Option<DeliveryLine> {
        let line = DeliveryLine {
            delivery: self.label()?,
            number: self.number()?,
            source: self.label()?,
            amounts: self.numbers()?,
        };
        if self.fault == FileFault::NegativeNumberRefused && line.number < 0 {
            return None;
        }
        if self.fault == FileFault::FourthIgnored {
            self.comma()?;
            self.plain();
        } else {
            self.unused(1)?;
        }
        Some(line)
    }

    fn internal(&mut self) -> Option<InternalLine> {
        let early = self.fault == FileFault::InternalEitherLabel && self.rest.starts_with(b",\"");
        let source = if early {
            let source = self.label()?;
            self.unused(2)?;
            source
        } else {
            self.unused(2)?;
            self.label()?
        };
        let amounts = self.numbers()?;
        self.unused(2)?;
        Some(InternalLine { source, amounts })
    }

    fn label(&mut self) -> Option<Label> {
        self.comma()?;
        let (label, rest) = label::read(self.rest, self.fault)?;
        self.rest = rest;
        Some(label)
    }

    fn number(&mut self) -> Option<i64> {
        self.comma()?;
        number::read(self.plain(), self.fault)
    }

    fn numbers<const N: usize>(&mut self) -> Option<[i64; N]> {
        let mut numbers = [0; N];
        for number in &mut numbers {
            *number = self.number()?;
        }
        Some(numbers)
    }

    fn unused(&mut self, count: usize) -> Option<()> {
        for _ in 0..count {
            if self.fault == FileFault::FewerFields && !self.rest.starts_with(b",") {
                return Some(());
            }
            self.comma()?;
            let text = self.plain();
            let empty = match self.fault {
                FileFault::UnusedUnquoted => text.is_empty() || text == b"\"\"",
                FileFault::UnusedIgnored => true,
                _ => text.is_empty(),
            };
            empty.then_some(())?;
        }
        Some(())
    }

    fn record_end(&mut self) -> Option<()> {
        if self.fault == FileFault::MoreFields && self.rest.starts_with(b",") {
            let length = self.rest.iter().position(|byte| b"\r\n".contains(byte));
            self.take(length.unwrap_or(self.rest.len()));
        }
        let right = self.rest.strip_prefix(RECORD_END);
        self.rest = right.or_else(|| self.wrong_end())?;
        if self.fault == FileFault::BlankSkipped {
            while let Some(after) = self.rest.strip_prefix(RECORD_END) {
                self.rest = after;
            }
        }
        Some(())
    }

    /// The rest after an end that only a fault accepts.
    fn wrong_end(&self) -> Option<&'a [u8]> {
        match self.fault {
            FileFault::FeedAlone => self.rest.strip_prefix(b"\n"),
            FileFault::ReturnAlone => self.rest.strip_prefix(b"\r"),
            FileFault::LastEndOptional if self.rest.is_empty() => Some(self.rest),
            _ => None,
        }
    }

    fn comma(&mut self) -> Option<()> {
        self.rest = self.rest.strip_prefix(b",")?;
        Some(())
    }

    /// A field without quotes.
    fn plain(&mut self) -> &'a [u8] {
        self.take(plain_length(self.rest))
    }

    fn take(&mut self, length: usize) -> &'a [u8] {
        let (text, rest) = self.rest.split_at(length);
        self.rest = rest;
        text
    }
}
