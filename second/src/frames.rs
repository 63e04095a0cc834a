//! Frames: a line with a name and a length, then that many bytes.

use crate::hour::MOST_BYTES;
use std::io::{self, BufRead, Read, Write};

enum Frame {
    Bytes(Vec<u8>),
    Broken,
    End,
}

/// What frames hold: the name in their lines, and how much of the bytes is
/// kept.
#[derive(Clone, Copy)]
pub struct Held {
    name: &'static str,
    kept: u64,
}

/// Of a deck too long to be read only its start is kept.
pub const DECK: Held = Held {
    name: "deck",
    kept: MOST_BYTES as u64 + 1,
};

pub const FILE: Held = Held {
    name: "file",
    kept: u64::MAX,
};

/// No line of a name and an N that fits is longer.
const LONGEST_LINE: u64 = 32;

fn next(input: &mut impl BufRead, held: Held) -> io::Result<Frame> {
    let mut line = Vec::new();
    input.take(LONGEST_LINE).read_until(b'\n', &mut line)?;
    if line.is_empty() {
        return Ok(Frame::End);
    }
    let Some(length) = length(&line, held.name) else {
        return Ok(Frame::Broken);
    };
    let kept = length.min(held.kept);
    let mut bytes = Vec::new();
    input.take(kept).read_to_end(&mut bytes)?;
    let rest = io::copy(&mut input.take(length - kept), &mut io::sink())?;
    if bytes.len() as u64 + rest < length {
        return Ok(Frame::Broken);
    }
    Ok(Frame::Bytes(bytes))
}

fn length(line: &[u8], name: &str) -> Option<u64> {
    let digits = line.strip_prefix(name.as_bytes())?;
    let digits = digits.strip_prefix(b" ")?.strip_suffix(b"\n")?;
    let leading = digits.len() > 1 && digits[0] == b'0';
    if leading || digits.is_empty() || !digits.iter().all(u8::is_ascii_digit) {
        return None;
    }
    std::str::from_utf8(digits).ok()?.parse().ok()
}

pub fn put(output: &mut impl Write, name: &str, bytes: &[u8]) -> io::Result<()> {
    writeln!(output, "{name} {}", bytes.len())?;
    output.write_all(bytes)
}

/// Hands on the bytes of every frame; gives the number of the broken frame that
/// ended the run, if one did.
fn each(
    input: &mut impl BufRead,
    held: Held,
    mut take: impl FnMut(Vec<u8>) -> io::Result<()>,
) -> io::Result<Option<u64>> {
    let mut number = 0;
    loop {
        number += 1;
        match next(input, held)? {
            Frame::Bytes(bytes) => take(bytes)?,
            Frame::Broken => return Ok(Some(number)),
            Frame::End => return Ok(None),
        }
    }
}

/// All decks; without them the line that says why there are none.
pub fn decks(input: &mut impl BufRead) -> io::Result<Result<Vec<Vec<u8>>, String>> {
    let mut decks = Vec::new();
    let broken = each(input, DECK, |deck| {
        decks.push(deck);
        Ok(())
    })?;
    Ok(match broken {
        Some(number) => Err(format!("frame {number}")),
        None if decks.is_empty() => Err("no frames".to_string()),
        None => Ok(decks),
    })
}

/// Answers every frame by one of a name and its bytes; false where a broken one
/// ended the run.
pub fn answer_all<'a>(
    input: &mut impl BufRead,
    output: &mut impl Write,
    held: Held,
    answer: impl Fn(&[u8]) -> (&'a str, Vec<u8>),
) -> io::Result<bool> {
    let broken = each(input, held, |bytes| {
        let (name, bytes) = answer(&bytes);
        put(output, name, &bytes)
    })?;
    if let Some(number) = broken {
        writeln!(output, "frame {number}")?;
    }
    Ok(broken.is_none())
}
