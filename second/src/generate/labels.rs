//! Hours with labels that are easily confused, and labels that are none.

use super::parts::*;
use super::Made;
use crate::draw::Draw;
use crate::hour::*;
use crate::write;

const TWINS: &[(&str, &str)] = &[
    ("X", "X "),
    (" X", "X"),
    ("x", "X"),
    ("X", "XY"),
    (" ", "  "),
    ("ABCDEFGH1", "ABCDEFGH2"),
    ("\"", "\\"),
    ("\\\"", "\""),
    ("Unit a", "UNIT A"),
    ("ABCDEFGHIJKLMNOP", "ABCDEFGHIJKLMNO"),
    ("~", "~ ~"),
    ("a b", "a  b"),
];

const ODD: &[&str] = &[
    " ",
    "   ",
    " lead",
    "trail ",
    "\"\"\"\"\"\"\"\"\"\"\"\"\"\"\"\"",
    "\\\\\\\\\\\\\\\\\\\\\\\\\\\\\\\\",
    "\"quoted\"",
    "back\\slash",
    "1 2 \"3\" 4",
    "                ",
    "!\"#$%&'()*+,-./",
    "E",
    "0",
    "~",
];

/// Two entries of one class get labels that differ in little; a D line names
/// the second.
pub fn twins(draw: &mut Draw) -> Hour {
    let (one, other) = TWINS[draw.variant(TWINS.len())];
    let size = Size {
        sources: (2, 3),
        deliveries: (2, 3),
        ..TINY
    };
    let mut made = hour(draw, size);
    made.sources[1] = unit(draw, name('U', 1), size.level);
    made.directs.clear();
    let sources = draw.below(3);
    if sources != 1 {
        (made.sources[0].label, made.sources[1].label) = (one.into(), other.into());
    }
    if sources != 0 {
        (made.deliveries[0].label, made.deliveries[1].label) = (one.into(), other.into());
    }
    let percent = draw.between(1, 100);
    made.directs.push(Direct {
        basis: Basis::Low,
        percent,
        unit: 1,
        delivery: 1,
    });
    cover(draw, &mut made);
    repair(&mut made);
    made
}

/// A D line names one twin where the deck has only the other.
pub fn missing_twin(draw: &mut Draw) -> Made {
    let (one, other) = TWINS[draw.variant(TWINS.len())];
    let mut hour = twins(draw);
    hour.sources[0].label = name('S', 0);
    hour.sources[1].label = one.into();
    hour.directs.truncate(1);
    let mut cards = write::cards(&hour);
    let d = cards.len() - 2;
    if cards[d].letter == b'D' {
        cards[d].fields[2] = crate::label::written(other.as_bytes());
    }
    Made::plain(write::bytes(&cards))
}

pub fn odd(draw: &mut Draw) -> Hour {
    let mut made = hour(draw, SMALL);
    let from = draw.below(ODD.len());
    let shift = draw.pick(&[0, 0, 5]);
    let label = |at: usize| -> Label { ODD[(from + at) % ODD.len()].into() };
    for (at, source) in made.sources.iter_mut().enumerate() {
        source.label = label(at);
    }
    for (at, delivery) in made.deliveries.iter_mut().enumerate() {
        delivery.label = label(at + shift);
    }
    repair(&mut made);
    made
}

const NONE: &[(&str, &[u8])] = &[
    ("label of 17 characters", b"\"ABCDEFGHIJKLMNOPQ\""),
    (
        "label of 17 escaped characters",
        b"\"\\\"\\\"\\\"\\\"\\\"\\\"\\\"\\\"\\\"\\\"\\\"\\\"\\\"\\\"\\\"\\\"\\\"\"",
    ),
    ("empty label", b"\"\""),
    ("label \"X\\\"", b"\"X\\\""),
    ("bad escape", b"\"X\\n\""),
    ("escaped space", b"\"\\ \""),
    ("character 31", b"\"X\x1f\""),
    ("character 127", b"\"X\x7f\""),
    ("character 128", b"\"X\x80\""),
    ("character 255", b"\"\xff\""),
    ("quote unescaped", b"\"X\"Y\""),
    ("label without quotes", b"X"),
    ("label without closing quote", b"\"X"),
    ("label without opening quote", b"X\""),
    ("label of one quote", b"\""),
    ("single quotes", b"'X'"),
];

pub fn none_tags() -> Vec<&'static str> {
    NONE.iter().map(|&(tag, _)| tag).collect()
}

pub fn none(draw: &mut Draw) -> Made {
    let (tag, text) = NONE[draw.variant(NONE.len())];
    let mut cards = write::cards(&twins(draw));
    let bearers: Vec<usize> = (1..cards.len() - 1).collect();
    let at = draw.pick(&bearers);
    let last = cards[at].fields.len() - 1;
    cards[at].fields[last] = text.to_vec();
    Made::tagged(write::bytes(&cards), tag)
}
