//! Faults of the file told by decks and files made by hand.

use super::super::examples::DECK;
use super::examples::RECORDS;
use super::refusals::damaged;
use super::{with_header, Checks};
use crate::file::faults::{FileFault, Step, ALL};
use crate::file::{lines_of_deck, read, write};

pub fn run(checks: &mut Checks) {
    let (decks, files) = (decks(), files());
    for &(fault, step, name) in ALL {
        let told = match step {
            Step::Writing => decks.iter().any(|deck| deck_tells(deck, fault)),
            Step::Reading => files.iter().any(|file| file_tells(file, fault)),
        };
        checks.check(&format!("{name} is told"), told);
        let named = ALL.iter().filter(|(_, _, other)| *other == name);
        checks.equal(&format!("{name} once"), named.count(), 1);
    }
    shown(checks, WRITTEN, |deck, fault| {
        lines_of_deck(deck.as_bytes()).map_or(Vec::new(), |lines| write::file(&lines, fault))
    });
    shown(checks, READ, |records, fault| {
        match read::file(with_header(records).as_bytes(), fault) {
            Ok(lines) => lines.text(),
            Err(refusal) => refusal.text().into_bytes(),
        }
    });
}

fn deck_tells(deck: &str, fault: FileFault) -> bool {
    let changed = |lines| write::file(&lines, fault) != write::file(&lines, FileFault::None);
    lines_of_deck(deck.as_bytes()).is_ok_and(changed)
}

fn file_tells(file: &str, fault: FileFault) -> bool {
    let read = |fault| read::file(file.as_bytes(), fault);
    read(fault) != read(FileFault::None)
}

fn decks() -> Vec<String> {
    let odd = "H 0\nF 5 \"a\\\"b\\\\\"\nT 1 1 1 0 \"X\"\nE\n".to_string();
    let spaces = DECK.replace("\"P1\"", "\" P1\"");
    let credit = DECK.replace("30 50", "30 100").replace("1 20", "1 10");
    vec![odd, spaces, credit]
}

fn files() -> Vec<String> {
    let mut files = damaged();
    let records = [
        "hour,,,,1,2,3,4\nend,,,,,,,\n".to_string(),
        "hour,,,,0,0,0,0\ndelivery,\"\\\\\",-7,\",\",0,0,0,\nend,,,,,,,\n".to_string(),
        "hour,,,,0,0,0,0\ninternal,,,\" ~ \",0,0,,\nend,,,,,,,\n".to_string(),
        "hour,,,,0,0,0,0\ninternal,,,\" \",0,9007199254740993,,\nend,,,,,,,\n".to_string(),
        RECORDS.replace("\"U1\"", "\"\"\"\"\"ABCDEFGHIJKLMN\""),
        RECORDS.replace("\"U1\"", "\"\"\"BCDEFGHIJKLMNOP\""),
        RECORDS.replace(",40\n", ",-9223372036854775808\n"),
        RECORDS.replace(",40\n", ",9223372036854775807\n"),
        format!(
            "hour,,,,0,0,0,0\n{}end,,,,,,,\n",
            "internal,,,\"S\",0,0,,\n".repeat(33)
        ),
        format!(
            "hour,,,,0,0,0,0\n{}end,,,,,,,\n",
            "delivery,\"D\",1,\"S\",0,0,0,\n".repeat(1_025)
        ),
    ];
    files.extend(records.iter().map(|records| with_header(records)));
    files
}

/// A fault, a deck or records, and a piece of what they give under it alone.
type Shown = (FileFault, &'static str, &'static str);

const WRITTEN: &[Shown] = &[
    (
        FileFault::QuotesNotDoubled,
        "H 0\nF 5 \"a\\\"\"\nE\n",
        "\"a\"\",",
    ),
    (
        FileFault::LabelsAsInDeck,
        "H 0\nF 5 \"a\\\"\\\\\"\nE\n",
        "\"a\\\"\\\\\",",
    ),
    (FileFault::TrailingNotWritten, DECK, "\"X\",280"),
    (FileFault::LabelsBare, DECK, "delivery,X ,280,U1,"),
    (FileFault::FeedAloneWritten, DECK, "40\n"),
    (FileFault::FourthOfDelivery, DECK, "9750000000,0\r\n"),
    (FileFault::InternalByDelivery, DECK, "internal,\"U1\",,,35,"),
    (FileFault::HourFromNumber, DECK, "hour,,130,10,80,40,,\r\n"),
    (FileFault::UnusedNotWritten, DECK, "\r\nend\r\n"),
    (FileFault::NumberOverTen, DECK, "\"X\",30,"),
];

const READ: &[Shown] = &[
    (
        FileFault::EscapesRead,
        "hour,,,,0,0,0,0\ninternal,,,\"\\\\\",5,6,,\nend,,,,,,,\n",
        "internal \"\\\\\" 5 6\n",
    ),
    (
        FileFault::TrailingTrimmed,
        "hour,,,,0,0,0,0\ninternal,,,\" a \",5,6,,\nend,,,,,,,\n",
        "internal \" a\" 5 6\n",
    ),
    (
        FileFault::MinusZero,
        "hour,,,,-0,0,0,0\nend,,,,,,,\n",
        "hour 0 0 0 0\n",
    ),
    (
        FileFault::LeadingZero,
        "hour,,,,-07,0,0,0\nend,,,,,,,\n",
        "hour -7 0 0 0\n",
    ),
    (
        FileFault::BitsWrap,
        "hour,,,,18446744073709551621,-9223372036854775809,0,0\nend,,,,,,,\n",
        "hour 5 9223372036854775807 0 0\n",
    ),
    (
        FileFault::BitsCapped,
        "hour,,,,9223372036854775808,0,0,0\nend,,,,,,,\n",
        "hour 9223372036854775807 0 0 0\n",
    ),
    (
        FileFault::ThroughFloats,
        "hour,,,,9007199254740993,0,0,0\nend,,,,,,,\n",
        "hour 9007199254740992 0 0 0\n",
    ),
    (
        FileFault::EndMissing,
        "hour,,,,1,0,0,0\n",
        "hour 1 0 0 0\nend\n",
    ),
    (
        FileFault::HourMissing,
        "end,,,,,,,\n",
        "hour 0 0 0 0\nend\n",
    ),
    (
        FileFault::MissingAtLast,
        "hour,,,,0,0,0,0\n",
        "refused 16 2\n",
    ),
    (
        FileFault::HeaderNotCounted,
        "hour,,,,0,0,0,0\n",
        "refused 16 2\n",
    ),
    (FileFault::CutOnePast, "hour,,,,0,0,0,", "refused 16 3\n"),
    (
        FileFault::TailAtEnd,
        "hour,,,,0,0,0,0\nend,,,,,,,\nend,,,,,,,\n",
        "refused 16 3\n",
    ),
    (
        FileFault::TailRead,
        "hour,,,,0,0,0,0\nend,,,,,,,\ninternal,,,\"S\",5,6,,\nend,,,,,,,\n",
        "internal \"S\" 5 6\nend\n",
    ),
    (
        FileFault::FormBeforeOrder,
        "end,,,,,,,\nhour,,,,0,0,0,0\nx\n",
        "refused 16 4\n",
    ),
];

fn shown(checks: &mut Checks, shown: &[Shown], text: fn(&str, FileFault) -> Vec<u8>) {
    for &(fault, given, piece) in shown {
        let contains = |fault| String::from_utf8_lossy(&text(given, fault)).contains(piece);
        checks.check(
            &format!("{fault:?} shows as expected"),
            contains(fault) && !contains(FileFault::None),
        );
    }
}
