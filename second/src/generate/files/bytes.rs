//! Damage to the bytes of a file: record ends, cuts, single bytes.

use crate::draw::Draw;
use crate::file::{HEADER, RECORD_END};

/// A damage with its name.
pub type Damage = (&'static str, fn(&mut Draw, &mut Vec<u8>));

/// The place of a random record's CRLF.
fn an_end(draw: &mut Draw, file: &[u8]) -> usize {
    let ends: Vec<usize> = (1..file.len()).filter(|&at| file[at] == b'\n').collect();
    draw.pick(&ends) - 1
}

/// Puts other bytes for a random CRLF.
fn replace_end(draw: &mut Draw, file: &mut Vec<u8>, end: &[u8]) {
    let at = an_end(draw, file);
    file.splice(at..at + RECORD_END.len(), end.iter().copied());
}

fn cut_last(file: &mut Vec<u8>, count: usize) {
    file.truncate(file.len() - count);
}

/// Any place, or that of a digit.
fn spot(draw: &mut Draw, file: &[u8]) -> usize {
    let digits: Vec<usize> = (0..file.len())
        .filter(|&at| file[at].is_ascii_digit())
        .collect();
    if draw.chance(50) {
        draw.pick(&digits)
    } else {
        draw.below(file.len())
    }
}

/// Any byte, or one that files are made of.
fn any_byte(draw: &mut Draw) -> u8 {
    if draw.chance(50) {
        draw.between(0, 255) as u8
    } else {
        draw.pick(b"0123456789-,\"\\ axX~")
    }
}

pub const DAMAGES: &[Damage] = &[
    ("CR missing", |draw, file| replace_end(draw, file, b"\n")),
    ("LF missing", |draw, file| replace_end(draw, file, b"\r")),
    ("CRLF missing", |draw, file| replace_end(draw, file, b"")),
    ("LF before CR", |draw, file| {
        replace_end(draw, file, b"\n\r")
    }),
    ("CR twice", |draw, file| replace_end(draw, file, b"\r\r\n")),
    ("LF twice", |draw, file| replace_end(draw, file, b"\r\n\n")),
    ("space before CR", |draw, file| {
        replace_end(draw, file, b" \r\n")
    }),
    ("blank line", |draw, file| {
        replace_end(draw, file, b"\r\n\r\n")
    }),
    ("LF alone everywhere", |_, file| {
        file.retain(|&byte| byte != b'\r')
    }),
    ("CR alone everywhere", |_, file| {
        file.retain(|&byte| byte != b'\n')
    }),
    ("cut off", |draw, file| {
        file.truncate(draw.below(file.len()))
    }),
    ("cut off at a record's end", |draw, file| {
        let at = an_end(draw, &file[..file.len() - 1]);
        file.truncate(at + RECORD_END.len());
    }),
    ("empty file", |_, file| file.clear()),
    ("header alone", |_, file| {
        file.truncate(HEADER.len() + RECORD_END.len())
    }),
    ("header alone without CRLF", |_, file| {
        file.truncate(HEADER.len())
    }),
    ("one byte", |draw, file| {
        *file = vec![draw.between(0, 255) as u8]
    }),
    ("any bytes", |draw, file| {
        file.iter_mut()
            .for_each(|byte| *byte = draw.between(0, 255) as u8);
    }),
    ("NUL", |draw, file| file.insert(draw.below(file.len()), 0)),
];

/// Damage at the end of the file.
pub const TAILS: &[Damage] = &[
    ("last LF missing", |_, file| cut_last(file, 1)),
    ("last CRLF missing", |_, file| cut_last(file, 2)),
    ("last CR missing", |_, file| {
        cut_last(file, 2);
        file.push(b'\n');
    }),
    ("one byte after the end", |draw, file| {
        file.push(draw.between(0, 255) as u8);
    }),
    ("blank line after the end", |_, file| file.extend(b"\r\n")),
    ("text after the end", |_, file| file.extend(b"more")),
    ("file twice", |_, file| file.extend(file.clone())),
];

/// Single bytes, which may leave a good file.
pub const SINGLE: &[Damage] = &[
    ("byte changed", |draw, file| {
        let at = spot(draw, file);
        file[at] = any_byte(draw);
    }),
    ("byte removed", |draw, file| {
        file.remove(spot(draw, file));
    }),
    ("byte inserted", |draw, file| {
        file.insert(spot(draw, file), any_byte(draw));
    }),
    ("byte doubled", |draw, file| {
        let at = spot(draw, file);
        file.insert(at, file[at]);
    }),
];
