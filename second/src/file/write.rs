//! The writer of the file: lines as records, records as fields, fields as
//! bytes.

use super::faults::FileFault;
use super::{Record, HEADER, RECORD_END};
use crate::allocations::{Allocations, DeliveryLine, InternalLine};
use crate::label::written;

const FIELDS: usize = 8;

pub fn file(lines: &Allocations, fault: FileFault) -> Vec<u8> {
    let mut records: Vec<_> = records(lines, fault)
        .iter()
        .map(|record| fields(record, fault))
        .collect();
    if fault != FileFault::HeaderNotWritten {
        records.insert(0, header(fault));
    }
    let mut file = bytes(&records, fault);
    if fault == FileFault::LastEndNotWritten {
        file.truncate(file.len() - RECORD_END.len());
    }
    file
}

pub fn records(lines: &Allocations, fault: FileFault) -> Vec<Record> {
    let deliveries = deliveries(lines, fault).into_iter().map(Record::Delivery);
    let internals = lines.internals.iter().cloned().map(Record::Internal);
    let mut records = vec![Record::Hour(lines.hour)];
    match fault {
        FileFault::InternalsFirst => records.extend(internals.chain(deliveries)),
        _ => records.extend(deliveries.chain(internals)),
    }
    if fault != FileFault::EndNotWritten {
        records.push(Record::End);
    }
    records
}

fn deliveries(lines: &Allocations, fault: FileFault) -> Vec<DeliveryLine> {
    let mut deliveries = lines.deliveries.clone();
    match fault {
        FileFault::ZeroNotWritten => deliveries.retain(|line| line.amounts != [0; 3]),
        FileFault::DeliveriesBySource => deliveries.sort_by_key(|line| {
            let mut internals = lines.internals.iter();
            internals.position(|internal| internal.source == line.source)
        }),
        _ => {}
    }
    deliveries
}

/// Records of field texts as bytes.
pub fn bytes(records: &[Vec<Vec<u8>>], fault: FileFault) -> Vec<u8> {
    let (comma, end) = match fault {
        FileFault::SpaceAfterComma => (&b", "[..], RECORD_END),
        FileFault::FeedAloneWritten => (&b","[..], &b"\n"[..]),
        _ => (&b","[..], RECORD_END),
    };
    let mut file = Vec::new();
    for fields in records {
        file.extend(fields.join(comma));
        file.extend(end);
    }
    file
}

pub fn header(fault: FileFault) -> Vec<Vec<u8>> {
    let names = HEADER.split(|&byte| byte == b',');
    names
        .map(|name| match fault {
            FileFault::HeaderQuoted => quoted(name),
            _ => name.to_vec(),
        })
        .collect()
}

/// The texts of a record's fields, its kind first.
pub fn fields(record: &Record, fault: FileFault) -> Vec<Vec<u8>> {
    let kind = record.kind().name();
    let mut fields = vec![match fault {
        FileFault::KindsQuoted => quoted(kind),
        _ => kind.to_vec(),
    }];
    match record {
        Record::Hour(amounts) => {
            let from = if fault == FileFault::HourFromNumber {
                2
            } else {
                4
            };
            fields.resize(from, unused(fault));
            fields.extend(amounts.map(|amount| number(amount, fault)));
        }
        Record::Delivery(line) => fields.extend(delivery_fields(line, fault)),
        Record::Internal(InternalLine { source, amounts }) => {
            let mut labels = [unused(fault), unused(fault), label(source, fault)];
            if fault == FileFault::InternalByDelivery {
                labels.reverse();
            }
            fields.extend(labels);
            fields.extend(amounts.map(|amount| number(amount, fault)));
        }
        Record::End => {}
    }
    if fault != FileFault::UnusedNotWritten {
        fields.resize(FIELDS, unused(fault));
    }
    fields
}

fn delivery_fields(line: &DeliveryLine, fault: FileFault) -> Vec<Vec<u8>> {
    let (mut first, mut second) = (&line.delivery, &line.source);
    let mut internal = line.number;
    let mut amounts = line.amounts;
    match fault {
        FileFault::LabelsExchanged => (first, second) = (second, first),
        FileFault::NumberOverTen => internal /= 10,
        FileFault::MwhExchanged => amounts.swap(0, 1),
        _ => {}
    }
    let mut fields = vec![
        label(first, fault),
        number(internal, fault),
        label(second, fault),
    ];
    fields.extend(amounts.map(|amount| number(amount, fault)));
    if fault == FileFault::FourthOfDelivery {
        fields.push(b"0".to_vec());
    }
    fields
}

fn unused(fault: FileFault) -> Vec<u8> {
    match fault {
        FileFault::UnusedQuoted => quoted(b""),
        FileFault::UnusedZero => b"0".to_vec(),
        _ => Vec::new(),
    }
}

fn number(number: i64, fault: FileFault) -> Vec<u8> {
    match fault {
        FileFault::NumbersQuoted => quoted(number.to_string().as_bytes()),
        FileFault::MinusNotWritten => number.unsigned_abs().to_string().into_bytes(),
        _ => number.to_string().into_bytes(),
    }
}

/// A label's characters between quotes, each quote among them twice.
pub fn label(label: &[u8], fault: FileFault) -> Vec<u8> {
    let label = match fault {
        FileFault::LeadingNotWritten => label.trim_ascii_start(),
        FileFault::TrailingNotWritten => label.trim_ascii_end(),
        _ => label,
    };
    let needs_quotes = label.iter().any(|byte| b",\"".contains(byte));
    match fault {
        FileFault::LabelsAsInDeck => return written(label),
        FileFault::LabelsBare => return label.to_vec(),
        FileFault::LabelsQuotedAtNeed if !needs_quotes => return label.to_vec(),
        _ => {}
    }
    let mut text = Vec::new();
    for &byte in label {
        match (byte, fault) {
            (b'"', FileFault::QuotesNotDoubled) => {}
            (b'"', FileFault::QuotesEscaped) => text.push(b'\\'),
            (b'"', _) => text.push(b'"'),
            (b'\\', FileFault::BackslashesDoubled) => text.push(b'\\'),
            _ => {}
        }
        text.push(byte);
    }
    quoted(&text)
}

fn quoted(text: &[u8]) -> Vec<u8> {
    [b"\"", text, b"\""].concat()
}
