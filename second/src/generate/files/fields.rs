//! Damage to one field of a record after the header.

use super::lists::label;
use super::Texts;
use crate::draw::Draw;
use crate::file::faults::FileFault;
use crate::file::write;
use crate::hour::Label;

/// What the damaged field holds.
#[derive(Clone, Copy, PartialEq)]
pub enum Class {
    Label,
    Number,
    Unused,
}

use Class::{Number, Unused};

/// The field's new text, from its old one.
type Damage = fn(&mut Draw, &[u8]) -> Vec<u8>;

fn class(text: &[u8]) -> Class {
    match text.first() {
        None => Unused,
        Some(b'"') => Class::Label,
        Some(_) => Number,
    }
}

/// Replaces a random field of the class.
pub fn replace(draw: &mut Draw, texts: &mut Texts, wanted: Class, damage: Damage) {
    let mut places = Vec::new();
    for (record, fields) in texts.iter().enumerate().skip(1) {
        for (field, text) in fields.iter().enumerate().skip(1) {
            if class(text) == wanted {
                places.push((record, field));
            }
        }
    }
    let (record, field) = draw.pick(&places);
    texts[record][field] = damage(draw, &texts[record][field]);
}

/// The label's text with a byte put in at a random place between its quotes.
fn with_byte(draw: &mut Draw, text: &[u8], byte: u8) -> Vec<u8> {
    let at = draw.between(1, text.len() as i64 - 1) as usize;
    [&text[..at], &[byte], &text[at..]].concat()
}

/// A number's digits without its minus.
fn digits(text: &[u8]) -> &[u8] {
    text.strip_prefix(b"-").unwrap_or(text)
}

fn any_digits(draw: &mut Draw, count: usize) -> Vec<u8> {
    (0..count).map(|_| b'1' + draw.below(9) as u8).collect()
}

/// A number past 64 bits, as text with or without a minus.
fn past(draw: &mut Draw, size: u128) -> Vec<u8> {
    let minus = draw.pick(&["", "-"]);
    format!("{minus}{size}").into_bytes()
}

pub const DAMAGES: &[(&str, Class, Damage)] = &[
    ("label unquoted", Class::Label, |_, text| {
        let bare: Vec<u8> = text.iter().copied().filter(|&byte| byte != b'"').collect();
        if bare.is_empty() {
            b"X".to_vec()
        } else {
            bare
        }
    }),
    ("label empty", Class::Label, |_, _| b"\"\"".to_vec()),
    ("label missing", Class::Label, |_, _| Vec::new()),
    ("label of 17 characters", Class::Label, |draw, _| {
        let long: Label = (0..17).map(|_| draw.between(32, 126) as u8).collect();
        write::label(&long, FileFault::None)
    }),
    ("label of 17 quotes", Class::Label, |_, _| {
        write::label(&[b'"'; 17], FileFault::None)
    }),
    ("label with a byte below 32", Class::Label, |draw, text| {
        let byte = draw.between(0, 31) as u8;
        with_byte(draw, text, byte)
    }),
    ("label with CR", Class::Label, |draw, text| {
        with_byte(draw, text, b'\r')
    }),
    ("label with LF", Class::Label, |draw, text| {
        with_byte(draw, text, b'\n')
    }),
    ("label with byte 127", Class::Label, |draw, text| {
        with_byte(draw, text, 127)
    }),
    ("label with a byte above 127", Class::Label, |draw, text| {
        let byte = draw.between(128, 255) as u8;
        with_byte(draw, text, byte)
    }),
    ("quote not doubled", Class::Label, |draw, text| {
        with_byte(draw, text, b'"')
    }),
    (
        "quote not doubled, between letters",
        Class::Label,
        |_, _| b"\"A\"B\"".to_vec(),
    ),
    ("quote escaped", Class::Label, |draw, _| {
        let letters = draw.pick(&["A", "AB", " "]);
        format!("\"{letters}\\\"{letters}\"").into_bytes()
    }),
    ("label as in a deck", Class::Label, |draw, _| {
        let mut label = label(draw);
        label.truncate(15);
        label.push(b'"');
        crate::label::written(&label)
    }),
    (
        "text after the closing quote",
        Class::Label,
        |draw, text| [text, draw.pick(&[b"x", b" ", b"7", b"'"])].concat(),
    ),
    (
        "text before the opening quote",
        Class::Label,
        |draw, text| [draw.pick(&[b"x", b"7", b"\\"]), text].concat(),
    ),
    ("space before the opening quote", Class::Label, |_, text| {
        [b" ", text].concat()
    }),
    ("closing quote missing", Class::Label, |_, text| {
        text[..text.len() - 1].to_vec()
    }),
    ("opening quote missing", Class::Label, |_, text| {
        text[1..].to_vec()
    }),
    ("single quotes", Class::Label, |_, _| b"'X'".to_vec()),
    ("number for a label", Class::Label, |_, _| b"7".to_vec()),
    ("minus zero", Number, |_, _| b"-0".to_vec()),
    ("plus sign", Number, |_, text| [b"+", digits(text)].concat()),
    ("leading zero", Number, |_, text| {
        [b"0", digits(text)].concat()
    }),
    ("leading zero after a minus", Number, |_, text| {
        [b"-0", digits(text)].concat()
    }),
    ("minus alone", Number, |_, _| b"-".to_vec()),
    ("minus twice", Number, |_, text| {
        [b"--", digits(text)].concat()
    }),
    ("2^63", Number, |_, _| b"9223372036854775808".to_vec()),
    ("-2^63 - 1", Number, |_, _| b"-9223372036854775809".to_vec()),
    ("just past 2^64", Number, |draw, _| {
        let more = draw.below(3_000) as u128;
        past(draw, (1 << 64) + more)
    }),
    ("number of 20 digits", Number, |draw, _| {
        let text = any_digits(draw, 20);
        [draw.pick(&[&b""[..], b"-"]), &text].concat()
    }),
    ("number of 30 digits", Number, |draw, _| {
        any_digits(draw, 30)
    }),
    ("space before a number", Number, |_, text| {
        [b" ", text].concat()
    }),
    ("space after a number", Number, |_, text| {
        [text, b" "].concat()
    }),
    ("number missing", Number, |_, _| Vec::new()),
    ("number quoted", Number, |_, text| {
        [b"\"", text, b"\""].concat()
    }),
    ("number with a fraction", Number, |_, text| {
        [text, b".0"].concat()
    }),
    ("number with a letter", Number, |draw, text| {
        [text, draw.pick(&[b"x", b"e", b"-"])].concat()
    }),
    ("number with a comma", Number, |_, text| {
        [text, b",000"].concat()
    }),
    ("label for a number", Number, |_, _| b"\"X\"".to_vec()),
    ("unused field quoted", Unused, |_, _| b"\"\"".to_vec()),
    ("unused field filled by a number", Unused, |draw, _| {
        draw.pick(&[b"0", b"7"]).to_vec()
    }),
    ("unused field filled by a label", Unused, |_, _| {
        b"\"X\"".to_vec()
    }),
    ("unused field filled by a space", Unused, |_, _| {
        b" ".to_vec()
    }),
];
