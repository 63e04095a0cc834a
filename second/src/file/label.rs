//! A label's field: characters between quotes, each quote among them twice.

use super::faults::FileFault;
use crate::hour::Label;

const LONGEST: usize = 16;

/// Reads a label from its opening quote on; gives its characters and the rest
/// after the closing quote.
pub fn read(text: &[u8], fault: FileFault) -> Option<(Label, &[u8])> {
    let text = match fault {
        FileFault::SpaceBeforeQuote => text.strip_prefix(b" ").unwrap_or(text),
        _ => text,
    };
    let Some(inside) = text.strip_prefix(b"\"") else {
        return unquoted(text, fault);
    };
    let (label, rest) = quoted(inside, fault)?;
    let length = match fault {
        FileFault::LabelInBytes => inside.len() - rest.len() - 1,
        _ => label.len(),
    };
    let rest = match fault {
        FileFault::TextAfterQuote => &rest[plain_length(rest)..],
        _ => rest,
    };
    let label = trimmed(&label, fault).to_vec();
    is_length(length, fault).then_some((label, rest))
}

fn quoted(text: &[u8], fault: FileFault) -> Option<(Label, &[u8])> {
    let mut rest = text;
    let mut label = Label::new();
    loop {
        let (&byte, after) = rest.split_first()?;
        rest = after;
        let follows = rest.first().copied();
        match byte {
            b'"' if follows == Some(b'"') => {
                label.push(byte);
                rest = &rest[1..];
            }
            b'"' if follows != Some(b',') && fault == FileFault::QuoteAlone => label.push(byte),
            b'"' => break,
            b'\\' if fault == FileFault::EscapesRead && is_escaped(follows) => {
                label.extend(follows);
                rest = &rest[1..];
            }
            _ if is_character(byte, fault) => label.push(byte),
            _ => return None,
        }
    }
    let blank = label.iter().all(|&byte| byte == b' ') && !label.is_empty();
    let refused = blank && fault == FileFault::BlankLabelRefused;
    (!refused).then_some((label, rest))
}

fn is_escaped(byte: Option<u8>) -> bool {
    matches!(byte, Some(b'"' | b'\\'))
}

fn is_character(byte: u8, fault: FileFault) -> bool {
    match byte {
        0..=31 => fault == FileFault::Below32,
        b',' => fault != FileFault::CommaEndsLabel,
        b'\\' => fault != FileFault::BackslashRefused,
        126 => fault != FileFault::Character126Refused,
        127 => fault == FileFault::Character127,
        128..=255 => fault == FileFault::Above127,
        _ => true,
    }
}

fn is_length(length: usize, fault: FileFault) -> bool {
    match fault {
        FileFault::LabelEmpty => length <= LONGEST,
        FileFault::LabelOf17 => (1..=LONGEST + 1).contains(&length),
        FileFault::LabelOf16Refused => (1..LONGEST).contains(&length),
        _ => (1..=LONGEST).contains(&length),
    }
}

fn trimmed(label: &[u8], fault: FileFault) -> &[u8] {
    match fault {
        FileFault::LeadingTrimmed => label.trim_ascii_start(),
        FileFault::TrailingTrimmed => label.trim_ascii_end(),
        _ => label,
    }
}

/// A label without quotes is none.
fn unquoted(text: &[u8], fault: FileFault) -> Option<(Label, &[u8])> {
    let (label, rest) = text.split_at(plain_length(text));
    let characters = label.iter().all(|&byte| is_character(byte, fault));
    let accepted = fault == FileFault::LabelUnquoted && characters;
    (accepted && is_length(label.len(), fault)).then(|| (label.to_vec(), rest))
}

/// The bytes before the next comma, CR or LF.
pub fn plain_length(text: &[u8]) -> usize {
    let end = text.iter().position(|byte| b",\r\n".contains(byte));
    end.unwrap_or(text.len())
}
