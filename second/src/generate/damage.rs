//! Damaged bytes: an accepted deck with one wound, and decks of one byte kind.

use super::hours;
use super::parts::*;
use super::Made;
use crate::draw::Draw;
use crate::hour::MOST_BYTES;
use crate::lines::split;
use crate::write;

type Wound = fn(&mut Draw, &mut Vec<u8>);

fn anywhere(draw: &mut Draw, deck: &[u8]) -> usize {
    draw.below(deck.len().max(1))
}

fn lines(deck: &[u8]) -> Vec<Vec<u8>> {
    split(deck).map(<[u8]>::to_vec).collect()
}

fn insert(draw: &mut Draw, deck: &mut Vec<u8>, byte: u8) {
    let at = anywhere(draw, deck);
    deck.insert(at, byte);
}

/// The place of a random one of the bytes of this value; 0 where there is none.
fn one_of(draw: &mut Draw, deck: &[u8], byte: u8) -> usize {
    let places: Vec<usize> = (0..deck.len()).filter(|&at| deck[at] == byte).collect();
    if places.is_empty() {
        return 0;
    }
    draw.pick(&places)
}

/// Puts text before the first byte of a random field.
fn before_field(draw: &mut Draw, deck: &mut Vec<u8>, text: &[u8]) {
    let at = one_of(draw, deck, b' ') + 1;
    deck.splice(at..at, text.iter().copied());
}

/// Puts text before the LF of a random line.
fn before_feed(draw: &mut Draw, deck: &mut Vec<u8>, text: &[u8]) {
    let at = one_of(draw, deck, b'\n');
    deck.splice(at..at, text.iter().copied());
}

fn digits(draw: &mut Draw, deck: &mut Vec<u8>, count: usize) {
    let text: Vec<u8> = (0..count).map(|_| b'1' + draw.below(9) as u8).collect();
    before_field(draw, deck, &text);
}

/// A number that is its old self past a power of two.
fn wrapped(draw: &mut Draw, deck: &mut Vec<u8>, bits: u32) {
    let at = one_of(draw, deck, b' ') + 1;
    let length = deck[at..]
        .iter()
        .take_while(|byte| byte.is_ascii_digit())
        .count();
    let number = deck[at..at + length]
        .iter()
        .fold(0u128, |number, byte| number * 10 + u128::from(byte - b'0'));
    let text = (number % (1 << 20) + (1u128 << bits)).to_string();
    deck.splice(at..at + length, text.bytes());
}

fn pad(deck: &mut Vec<u8>, byte: u8, length: usize) {
    let at = deck
        .iter()
        .position(|&byte| byte == b' ')
        .map_or(0, |at| at + 1);
    let missing = length.saturating_sub(deck.len());
    deck.splice(at..at, std::iter::repeat(byte).take(missing));
}

const WOUNDS: &[(&str, Wound)] = &[
    ("NUL", |draw, deck| insert(draw, deck, 0)),
    ("CR before LF", |draw, deck| before_feed(draw, deck, b"\r")),
    ("CR at every LF", |_, deck| {
        *deck = lines(deck)
            .iter()
            .flat_map(|line| [&line[..line.len() - 1], b"\r\n"].concat())
            .collect();
    }),
    ("byte above 126", |draw, deck| {
        let byte = draw.between(127, 255) as u8;
        insert(draw, deck, byte);
    }),
    ("tab for a space", |draw, deck| {
        let at = one_of(draw, deck, b' ');
        deck[at] = b'\t';
    }),
    ("last LF missing", |_, deck| deck.truncate(deck.len() - 1)),
    ("some LF missing", |draw, deck| {
        let at = one_of(draw, deck, b'\n');
        deck.remove(at);
    }),
    ("leading zero", |draw, deck| before_field(draw, deck, b"0")),
    ("minus sign", |draw, deck| before_field(draw, deck, b"-")),
    ("plus sign", |draw, deck| before_field(draw, deck, b"+")),
    ("30 digits", |draw, deck| digits(draw, deck, 30)),
    ("5,000 digits", |draw, deck| digits(draw, deck, 5_000)),
    ("past 2^32", |draw, deck| wrapped(draw, deck, 32)),
    ("past 2^64", |draw, deck| wrapped(draw, deck, 64)),
    ("past 2^16", |draw, deck| wrapped(draw, deck, 16)),
    ("cut short", |draw, deck| {
        let at = anywhere(draw, deck);
        deck.truncate(at);
    }),
    ("cut at a line's end", |draw, deck| {
        let count = draw.below(lines(deck).len());
        *deck = lines(deck).into_iter().take(count).flatten().collect();
    }),
    ("one byte changed", |draw, deck| {
        let at = anywhere(draw, deck);
        deck[at] = draw.between(0, 255) as u8;
    }),
    ("one byte inserted", |draw, deck| {
        let byte = draw.between(32, 126) as u8;
        insert(draw, deck, byte);
    }),
    ("one byte removed", |draw, deck| {
        let at = anywhere(draw, deck);
        deck.remove(at);
    }),
    ("lines swapped", |draw, deck| {
        let mut all = lines(deck);
        let (one, other) = (draw.below(all.len()), draw.below(all.len()));
        all.swap(one, other);
        *deck = all.concat();
    }),
    ("line doubled", |draw, deck| {
        let mut all = lines(deck);
        let at = draw.below(all.len());
        all.insert(at, all[at].clone());
        *deck = all.concat();
    }),
    ("line removed", |draw, deck| {
        let mut all = lines(deck);
        all.remove(draw.below(all.len()));
        *deck = all.concat();
    }),
    ("empty line", |draw, deck| {
        let mut all = lines(deck);
        all.insert(draw.below(all.len() + 1), vec![b'\n']);
        *deck = all.concat();
    }),
    ("two spaces", |draw, deck| before_field(draw, deck, b" ")),
    ("trailing space", |draw, deck| before_feed(draw, deck, b" ")),
    ("space at a line's start", |draw, deck| {
        let mut all = lines(deck);
        let at = draw.below(all.len());
        all[at].insert(0, b' ');
        *deck = all.concat();
    }),
    ("bytes after E", |_, deck| deck.extend(b"more\n")),
    ("one byte after E", |draw, deck| {
        deck.push(draw.pick(&[b'\n', b' ', b'E', 0]))
    }),
    ("E malformed", |draw, deck| {
        deck.truncate(deck.len() - 2);
        deck.extend(draw.pick(&[&b"E \n"[..], b"E 0\n", b"e\n", b"EE\n"]));
    }),
    ("E missing", |_, deck| deck.truncate(deck.len() - 2)),
    ("E doubled", |_, deck| deck.extend(b"E\n")),
    ("H missing", |_, deck| *deck = lines(deck)[1..].concat()),
    ("lower-case letter", |draw, deck| {
        let mut all = lines(deck);
        let at = draw.below(all.len());
        all[at][0] = all[at][0].to_ascii_lowercase();
        *deck = all.concat();
    }),
    ("all lower-case", |_, deck| deck.make_ascii_lowercase()),
    ("byte order mark", |_, deck| {
        drop(deck.splice(0..0, *b"\xef\xbb\xbf"))
    }),
    ("8,192 bytes", |draw, deck| {
        pad(deck, draw.pick(b"19 \""), MOST_BYTES)
    }),
    ("8,193 bytes", |draw, deck| {
        pad(deck, draw.pick(b"19 \""), MOST_BYTES + 1)
    }),
    ("8,193 bytes with its tail", |_, deck| {
        deck.resize(MOST_BYTES + 1, b'\n')
    }),
    ("20,000 bytes", |draw, deck| {
        pad(deck, draw.pick(b"19 \""), 20_000)
    }),
    ("no byte", |_, deck| deck.clear()),
    ("one byte", |draw, deck| {
        *deck = vec![draw.between(0, 255) as u8]
    }),
    ("all digits", |draw, deck| {
        *deck = vec![draw.between(48, 57) as u8; deck.len()]
    }),
    ("all quotes", |_, deck| *deck = vec![b'"'; deck.len()]),
    ("all backslashes", |_, deck| *deck = vec![b'\\'; deck.len()]),
    ("all LF", |_, deck| *deck = vec![b'\n'; deck.len()]),
    ("all spaces", |_, deck| *deck = vec![b' '; deck.len()]),
    ("any bytes", |draw, deck| {
        *deck = (0..deck.len())
            .map(|_| draw.between(0, 255) as u8)
            .collect();
    }),
];

pub fn tags() -> Vec<&'static str> {
    WOUNDS.iter().map(|&(tag, _)| tag).collect()
}

pub fn wounded(draw: &mut Draw) -> Made {
    let (tag, wound) = WOUNDS[draw.variant(WOUNDS.len())];
    let mut deck = write::deck(&hours::plain(draw, SMALL));
    wound(draw, &mut deck);
    Made::tagged(deck, tag)
}
