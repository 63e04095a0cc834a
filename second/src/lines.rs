//! The form of one deck line: its letter and fields, before any range.

use crate::faults::Fault;
use crate::hour::Label;
use crate::label;

#[derive(Clone, Copy, PartialEq, Eq)]
pub enum Shape {
    Number(i64, i64),
    Basis(i64, i64),
    Label,
}

#[derive(Clone, Debug, PartialEq)]
pub enum Field {
    Number(i64),
    Letter(u8),
    Label(Label),
}

#[derive(Clone, Debug)]
pub struct Line {
    pub letter: u8,
    pub fields: Vec<Field>,
}

use Shape::{Basis, Number};

const LEVEL: Shape = Number(1, 2000);
const MWH: Shape = Number(0, 2000);
const PERCENT: Shape = Number(1, 100);

const H: &[Shape] = &[Number(0, 64_000)];
const U: &[Shape] = &[
    LEVEL,
    LEVEL,
    LEVEL,
    LEVEL,
    LEVEL,
    LEVEL,
    Number(0, 999_999),
    Number(0, 99_999),
    Number(0, 99),
    Number(0, 39_996),
    Shape::Label,
];
const P: &[Shape] = &[MWH, Number(0, 999_999), Shape::Label];
const F: &[Shape] = &[MWH, Shape::Label];
const T: &[Shape] = &[Number(0, 99), Number(1, 9), Number(1, 9), MWH, Shape::Label];
const D: &[Shape] = &[Basis(1, 1999), PERCENT, Shape::Label, Shape::Label];

pub fn shapes(letter: u8) -> Option<&'static [Shape]> {
    match letter {
        b'H' => Some(H),
        b'U' => Some(U),
        b'P' => Some(P),
        b'F' => Some(F),
        b'T' => Some(T),
        b'D' => Some(D),
        b'E' => Some(&[]),
        _ => None,
    }
}

/// Larger than any range and any product of the deck's numbers needs.
const HUGE: i64 = 1_000_000_000_000;

impl Line {
    pub fn number(&self, place: usize) -> i64 {
        match self.fields.get(place) {
            Some(Field::Number(number)) => *number,
            _ => 0,
        }
    }

    pub fn label(&self, place: usize) -> &[u8] {
        match self.fields.get(place) {
            Some(Field::Label(label)) => label,
            _ => &[],
        }
    }
}

/// A deck's lines, each with its LF where it has one.
pub fn split(deck: &[u8]) -> impl Iterator<Item = &[u8]> {
    deck.split_inclusive(|&byte| byte == b'\n')
}

/// The line's form; without it the refusal that judging its form gives.
pub fn form(bytes: &[u8], fault: Fault) -> Result<Line, u8> {
    let bytes = match fault {
        Fault::ReturnBeforeFeed => bytes.strip_suffix(b"\r").unwrap_or(bytes),
        Fault::SpaceBeforeFeed => bytes.strip_suffix(b" ").unwrap_or(bytes),
        _ => bytes,
    };
    let (&letter, mut rest) = bytes.split_first().ok_or(2)?;
    let shapes = shapes(letter).ok_or(2)?;
    let mut fields = Vec::new();
    for &shape in shapes {
        rest = rest.strip_prefix(b" ").ok_or(2)?;
        let (field, after) = read_field(rest, shape, fault).ok_or(2)?;
        if fault == Fault::RangeBeforeForm && !in_range(&field, shape, fault) {
            return Err(3);
        }
        fields.push(field);
        rest = after;
    }
    if rest.is_empty() {
        Ok(Line { letter, fields })
    } else {
        Err(2)
    }
}

fn read_field(text: &[u8], shape: Shape, fault: Fault) -> Option<(Field, &[u8])> {
    if let Shape::Label = shape {
        let (label, rest) = label::read(text, fault)?;
        return Some((Field::Label(label), rest));
    }
    let (&first, rest) = text.split_first()?;
    if matches!(shape, Basis(..)) && (first == b'L' || first == b'G') {
        return Some((Field::Letter(first), rest));
    }
    let (number, rest) = read_number(text, fault)?;
    Some((Field::Number(number), rest))
}

fn read_number(text: &[u8], fault: Fault) -> Option<(i64, &[u8])> {
    let length = text.iter().take_while(|byte| byte.is_ascii_digit()).count();
    let (digits, rest) = text.split_at(length);
    let leading = length > 1 && digits[0] == b'0' && fault != Fault::LeadingZeros;
    if length == 0 || leading {
        return None;
    }
    if length > 9 && fault == Fault::LongDigitsAreForm {
        return None;
    }
    let number = digits.iter().fold(0i64, |number, &digit| {
        let next = number * 10 + i64::from(digit - b'0');
        match fault {
            Fault::DigitsWrap => next % (1 << 32),
            _ => next.min(HUGE),
        }
    });
    Some((number, rest))
}

pub fn in_range(field: &Field, shape: Shape, fault: Fault) -> bool {
    match (field, shape) {
        (Field::Number(101), PERCENT) if fault == Fault::PercentFieldPastHundred => true,
        (Field::Number(number), Number(least, most) | Basis(least, most)) => {
            (least..=most).contains(number)
        }
        _ => true,
    }
}

pub fn ranges_hold(line: &Line, fault: Fault) -> bool {
    let shapes = shapes(line.letter).unwrap_or(&[]);
    let mut pairs = line.fields.iter().zip(shapes);
    pairs.all(|(field, &shape)| in_range(field, shape, fault))
}
