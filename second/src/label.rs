//! Labels: their form between quotes, their equality, their writing.

use crate::faults::Fault;
use crate::hour::Label;

const LONGEST: usize = 16;

fn is_character(byte: u8, fault: Fault) -> bool {
    match byte {
        32 => fault != Fault::SpaceNoCharacter,
        127 => fault == Fault::DeleteIsCharacter,
        _ => (33..=126).contains(&byte),
    }
}

/// Reads a label from its opening quote on; gives its characters and the rest
/// after the closing quote.
pub fn read(text: &[u8], fault: Fault) -> Option<(Label, &[u8])> {
    let mut rest = text.strip_prefix(b"\"")?;
    let start = rest.len();
    let mut label = Label::new();
    loop {
        let (&byte, after) = rest.split_first()?;
        rest = after;
        match byte {
            b'"' => break,
            b'\\' => {
                let (&escaped, after) = rest.split_first()?;
                if !is_escaped(escaped, fault) {
                    return None;
                }
                label.push(escaped);
                rest = after;
            }
            _ if is_character(byte, fault) => label.push(byte),
            _ => return None,
        }
    }
    let length = match fault {
        Fault::LabelLengthInBytes => start - rest.len() - 1,
        _ => label.len(),
    };
    (1..=LONGEST).contains(&length).then_some((label, rest))
}

fn is_escaped(byte: u8, fault: Fault) -> bool {
    match byte {
        b'"' | b'\\' => true,
        b'n' if fault == Fault::EscapedN => true,
        _ => fault == Fault::AnyEscape && is_character(byte, fault),
    }
}

pub fn same(one: &[u8], other: &[u8], fault: Fault) -> bool {
    match fault {
        Fault::LabelsTrimmed => one.trim_ascii_end() == other.trim_ascii_end(),
        Fault::LabelsTrimmedInFront => one.trim_ascii_start() == other.trim_ascii_start(),
        Fault::LabelsFolded => one.eq_ignore_ascii_case(other),
        Fault::LabelsCut => one.iter().zip(other).all(|(a, b)| a == b),
        Fault::LabelsCutAtEight => one.iter().take(8).eq(other.iter().take(8)),
        _ => one == other,
    }
}

/// The label as a deck has it, quotes and escapes included.
pub fn written(label: &[u8]) -> Vec<u8> {
    let mut text = vec![b'"'];
    for &byte in label {
        if byte == b'"' || byte == b'\\' {
            text.push(b'\\');
        }
        text.push(byte);
    }
    text.push(b'"');
    text
}
