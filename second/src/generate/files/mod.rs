//! Spreadsheet files from a seed: good ones and damaged ones.

mod bytes;
mod fields;
pub mod lists;
mod records;

use super::hours;
use super::in_turn;
use super::labels;
use super::limits;
use super::parts::*;
use crate::allocations::Allocations;
use crate::course::answer;
use crate::draw::Draw;
use crate::faults::Fault;
use crate::file::faults::FileFault;
use crate::file::write;
use crate::hour::Hour;
use crate::report::allocations;

/// A file, with the name of what was done to it where something was.
pub struct MadeFile {
    pub file: Vec<u8>,
    pub tag: Option<&'static str>,
}

/// Records as the texts of their fields, the header first.
type Texts = Vec<Vec<Vec<u8>>>;

type Maker = fn(&mut Draw) -> MadeFile;

/// How many of a cycle's files each kind makes.
const KINDS: &[(u64, Maker)] = &[
    (4, |draw| good(of_hour(hours::plain(draw, TINY)))),
    (4, |draw| good(of_hour(hours::plain(draw, SMALL)))),
    (2, |draw| good(of_hour(hours::plain(draw, MIDDLE)))),
    (1, |draw| good(of_hour(hours::plain(draw, FULL)))),
    (2, |draw| good(of_hour(hours::at_headroom(draw, SMALL)))),
    (3, |draw| good(of_hour(labels::odd(draw)))),
    (2, |draw| good(of_hour(labels::twins(draw)))),
    (1, |draw| good(of_hour(limits::largest(draw)))),
    (1, |_| good(Allocations::default())),
    (9, |draw| good(lists::list(draw, (0, 6), (0, 4)))),
    (3, |draw| good(lists::list(draw, (0, 0), (1, 6)))),
    (3, |draw| good(lists::list(draw, (1, 6), (0, 0)))),
    (2, |draw| good(lists::list(draw, (0, 0), (0, 0)))),
    (2, |draw| good(lists::list(draw, (33, 200), (33, 100)))),
    (1, |draw| good(lists::list(draw, (1_025, 1_400), (0, 40)))),
    (2, |draw| good(lists::extreme(draw))),
    (14, in_field),
    (14, |draw| in_records(draw, records::DAMAGES)),
    (2, |draw| in_records(draw, records::HARMLESS)),
    (6, |draw| in_bytes(draw, some_lines, bytes::DAMAGES)),
    (2, |draw| in_bytes(draw, some_lines, bytes::TAILS)),
    (1, |draw| in_bytes(draw, many_lines, bytes::TAILS)),
    (8, |draw| in_bytes(draw, some_lines, bytes::SINGLE)),
];

/// The file of a number, from 0; it depends on nothing else but the seed.
pub fn file(seed: u64, index: u64) -> MadeFile {
    in_turn(KINDS, seed, index)
}

fn good(lines: Allocations) -> MadeFile {
    MadeFile {
        file: write::file(&lines, FileFault::None),
        tag: None,
    }
}

/// The lines of the hour with nothing left in it that refuses it.
fn of_hour(mut hour: Hour) -> Allocations {
    repair(&mut hour);
    if answer(&hour, Fault::None).is_err() {
        hour.directs.clear();
        hour.deliveries
            .iter_mut()
            .for_each(|delivery| delivery.mwh = 0);
    }
    allocations(&hour, Fault::None).unwrap_or_default()
}

/// Few lines of an hour or of any list, a delivery and an internal among them.
fn some_lines(draw: &mut Draw) -> Allocations {
    if draw.chance(50) {
        of_hour(hours::plain(draw, TINY))
    } else {
        lists::list(draw, (2, 4), (2, 3))
    }
}

fn many_lines(draw: &mut Draw) -> Allocations {
    lists::list(draw, (1_025, 1_100), (1, 3))
}

fn in_field(draw: &mut Draw) -> MadeFile {
    let (tag, class, damage) = fields::DAMAGES[draw.variant(fields::DAMAGES.len())];
    let mut texts = texts(some_lines(draw));
    fields::replace(draw, &mut texts, class, damage);
    tagged(tag, write::bytes(&texts, FileFault::None))
}

fn in_records(draw: &mut Draw, damages: &[records::Damage]) -> MadeFile {
    let (tag, damage) = damages[draw.variant(damages.len())];
    let mut texts = texts(some_lines(draw));
    damage(draw, &mut texts);
    tagged(tag, write::bytes(&texts, FileFault::None))
}

fn in_bytes(
    draw: &mut Draw,
    lines: fn(&mut Draw) -> Allocations,
    damages: &[bytes::Damage],
) -> MadeFile {
    let (tag, damage) = damages[draw.variant(damages.len())];
    let mut file = write::file(&lines(draw), FileFault::None);
    damage(draw, &mut file);
    tagged(tag, file)
}

fn tagged(tag: &'static str, file: Vec<u8>) -> MadeFile {
    MadeFile {
        file,
        tag: Some(tag),
    }
}

fn texts(lines: Allocations) -> Texts {
    let mut texts = vec![write::header(FileFault::None)];
    let records = write::records(&lines, FileFault::None);
    let fields = records
        .iter()
        .map(|record| write::fields(record, FileFault::None));
    texts.extend(fields);
    texts
}

/// What damage does to a good file.
#[derive(Clone, Copy, Debug, PartialEq)]
pub enum Outcome {
    Refused,
    OtherLines,
    Either,
}

/// The names of all damages with what they do.
pub fn damages() -> Vec<(&'static str, Outcome)> {
    let fields = fields::DAMAGES.iter().map(|&(tag, _, _)| tag);
    let records = records::DAMAGES.iter().map(|&(tag, _)| tag);
    let bytes = bytes::DAMAGES.iter().chain(bytes::TAILS);
    let refused = fields.chain(records).chain(bytes.map(|&(tag, _)| tag));
    let harmless = records::HARMLESS.iter().map(|&(tag, _)| tag);
    let single = bytes::SINGLE.iter().map(|&(tag, _)| tag);
    refused
        .map(|tag| (tag, Outcome::Refused))
        .chain(harmless.map(|tag| (tag, Outcome::OtherLines)))
        .chain(single.map(|tag| (tag, Outcome::Either)))
        .collect()
}
