//! Faults told by a deck each, and the commands that look for such decks.

use super::deck::{after_32, after_32_deliveries, after_32_directs};
use super::examples::{DECK, U1};
use super::Checks;
use crate::cover::{choose, cover};
use crate::faults::{named, Fault, ALL};
use crate::report::report;
use crate::shrink::{shrink, size};
use crate::stats::{faults, Right};
use crate::telltale::tiny_decks;

pub fn run(checks: &mut Checks) {
    each(checks, SHOWN);
    built(checks);
    near_misses(checks);
    counted(checks);
    without_frames(checks);
    made_smaller(checks);
    chosen(checks);
}

/// A fault, a deck, and a piece of its report under the fault alone.
type Shown<'a> = (&'a str, &'a str, &'a str);

const SHOWN: &[Shown] = &[
    (
        "escaped-n",
        "H 0\nF 0 \"a\\n\"\nE\n",
        "internal \"an\" 0 0\n",
    ),
    ("32-is-no-character", "H 0\nF 0 \" \"\nE\n", "refused 2 2\n"),
    ("one-byte-after-e-ignored", "H 0\nE\n ", "hour 0 0 0 0\nend"),
    (
        "g-equal-to-n-is-6",
        "H 0\nU 2 3 2 1 1 1 0 0 0 0 \"U\"\nE\n",
        "refused 6 2\n",
    ),
    (
        "tens-left-out",
        "H 0\nF 0 \"F\"\nT 7 1 1 0 \"X\"\nT 0 1 1 0 \"Z\"\nE\n",
        "\"X\" 7 \"F\" 0 0 0\n\"Z\" 6 ",
    ),
    (
        "b-any-higher-block",
        "H 0\nF 0 \"F\"\nT 30 1 1 0 \"X\"\nT 20 1 4 0 \"Y\"\nT 0 1 2 0 \"Z\"\nE\n",
        "\"Z\" 199 ",
    ),
    (
        "e-same-type",
        "H 0\nF 0 \"F\"\nT 30 1 1 0 \"X\"\nT 0 2 1 0 \"Z\"\nE\n",
        "\"Z\" 0 ",
    ),
    (
        "first-group-only",
        "H 0\nP 9 0 \"P\"\nT 2 1 1 3 \"X\"\nT 1 1 1 4 \"Y\"\nE\n",
        "internal \"P\" 6 0\n",
    ),
    ("d-lines-in-first-group", DECK, "\"X\" 300 \"U1\" 15 "),
    (
        "normal-floor-without-b",
        "H 0\nU 2 2 1 1 1 1 0 0 0 0 \"U\"\nP 1 0 \"P\"\nT 1 1 1 1 \"X\"\nD G 1 \"U\" \"X\"\nE\n",
        "\"X\" 10 \"U\" 0 1 ",
    ),
    ("oil-floor-without-b", ABOVE_BASIC, "\"X\" 10 \"U\" 0 5 "),
    (
        "emergency-floor-without-b",
        ABOVE_BASIC,
        "\"X\" 10 \"U\" 0 5 ",
    ),
    (
        "12-13-exchanged",
        "H 0\nF 1 \"F\"\nT 1 1 1 1 \"X\"\nE\n",
        "refused 13 10\n",
    ),
    (
        "direct-incremental-mwh-exchanged",
        DECK,
        "\"X\" 300 \"U1\" 50 0 ",
    ),
    ("delivery-label-for-source", DECK, "\"X\" 300 \"X\" 0 50 "),
];

/// One MWh more than b leaves, with b between the oil and the normal low.
const ABOVE_BASIC: &str =
    "H 0\nU 10 10 8 2 1 1 0 0 0 0 \"U\"\nT 1 1 1 5 \"X\"\nD 6 1 \"U\" \"X\"\nE\n";

fn text(deck: &str, fault: Fault) -> String {
    String::from_utf8_lossy(&report(deck.as_bytes(), fault)).into_owned()
}

fn each(checks: &mut Checks, shown: &[Shown]) {
    for &(name, deck, piece) in shown {
        let under = named(name).map(|(fault, _)| text(deck, fault));
        let right = text(deck, Fault::None);
        let told = under.is_some_and(|under| under.contains(piece)) && !right.contains(piece);
        checks.check(&format!("{name} shows as expected"), told);
        let counted = named(name).is_some_and(|(fault, step)| {
            let right = Right::of(deck.as_bytes());
            right.is_told(fault, step)
        });
        checks.check(&format!("{name} is told"), counted);
    }
}

fn built(checks: &mut Checks) {
    let source = after_32("F 0 \"A\"\n");
    let delivery = after_32_deliveries("T 1 1 1 0 \"A\"\n");
    let direct = after_32_directs("D L 1 \"U1\" \"X\"\n");
    let percent = |lines: &str| format!("H 0\n{U1}T 1 1 1 40 \"X\"\n{lines}E\n");
    let percents = percent("D L 60 \"U1\" \"X\"\nD L 41 \"U1\" \"X\"\n");
    let field = percent("D L 101 \"U1\" \"X\"\n");
    each(
        checks,
        &[
            (
                "thirty-third-source-taken",
                &source,
                "internal \"A\" 0 0\nend\n",
            ),
            ("thirty-third-t-taken", &delivery, "hour 0 0 0 0\n"),
            ("thirty-third-d-taken", &direct, "hour 100 0 60 40\n"),
            ("percents-up-to-101", &percents, "hour 100 0 40 60\n"),
            ("percent-101-in-range", &field, "refused 9 4\n"),
        ],
    );
}

fn near_misses(checks: &mut Checks) {
    let same = |deck: &str, fault| text(deck, fault) == text(deck, Fault::None);
    checks.check(
        "two bytes after E are not one",
        same("H 0\nE\nE\n", Fault::LastByteIgnored),
    );
    checks.check(
        "another escape is not n",
        same("H 0\nF 0 \"\\t\"\nE\n", Fault::EscapedN),
    );
    let two = after_32("F 0 \"A\"\nF 0 \"B\"\n");
    let under = text(&two, Fault::SourceTaken);
    checks.equal(
        "a thirty-fourth is not taken",
        under.as_str(),
        "refused 4 35\n",
    );
}

fn framed(decks: &[&str]) -> Vec<u8> {
    let frames = decks
        .iter()
        .map(|deck| format!("deck {}\n{deck}", deck.len()));
    frames.collect::<String>().into_bytes()
}

/// What the command `faults` prints, and whether every fault is told.
fn run_faults(mut input: &[u8], all: bool) -> (String, bool) {
    let mut output = Vec::new();
    let every = faults(&mut input, &mut output, all).unwrap_or(true);
    (String::from_utf8_lossy(&output).into_owned(), every)
}

fn counted(checks: &mut Checks) {
    let input = framed(&["H 0\nE\n ", "H 0\nE\n", "H 0\nE\nE\n"]);
    let (found, every) = run_faults(&input, false);
    checks.check("an untold fault fails the command", !every);
    let lines: Vec<&str> = found.lines().collect();
    checks.equal("a line for every fault", lines.len(), ALL.len());
    checks.check(
        "two decks tell of bytes after E",
        lines.contains(&"fault bytes-after-e-ignored 2"),
    );
    checks.check(
        "one tells of one byte",
        lines.contains(&"fault one-byte-after-e-ignored 1"),
    );
    let untold = lines.iter().filter(|line| line.ends_with(" 0")).count();
    let last = lines.iter().rev().take_while(|line| line.ends_with(" 0"));
    checks.equal("untold faults stand last", last.count(), untold);
    let (which, _) = run_faults(&input, true);
    checks.check(
        "the decks that tell, by number",
        which.contains("fault bytes-after-e-ignored 2 1 3\n"),
    );
}

fn without_frames(checks: &mut Checks) {
    let broken = [&framed(&["H 0\nE\n"])[..], b"deck 9\nH 0\n"].concat();
    for (name, mut input, line) in [
        ("no frames", &b""[..], "no frames\n"),
        ("a broken frame", &broken, "frame 2\n"),
    ] {
        let wanted = (line.to_string(), false);
        checks.equal(
            &format!("faults of {name}"),
            run_faults(input, false),
            wanted,
        );
        let (mut output, mut beside) = (Vec::new(), Vec::new());
        let whole = cover(&mut input, &mut output, &mut beside).unwrap_or(true);
        checks.check(
            &format!("a cover of {name}"),
            !whole && output == line.as_bytes() && beside.is_empty(),
        );
    }
}

fn made_smaller(checks: &mut Checks) {
    let deck = b"H 7\nF 40 \"A\"\nP 9 9 \"B\"\nT 50 1 1 61 \"X\"\nE\n";
    checks.check("61 MWh are heavy", size(deck).heavy);
    let lines = |deck: &[u8]| deck.starts_with(b"H ") && deck.ends_with(b"E\n");
    let smallest = shrink(deck.to_vec(), lines);
    checks.equal("needless lines go", smallest.as_slice(), b"H 0\nE\n");
    let read = |deck: &[u8]| text(&String::from_utf8_lossy(deck), Fault::None);
    let kept = shrink(b"H 0\nU 9 9 9 4 4 4 5 5 5 5 \"U\"\nE\n".to_vec(), |deck| {
        read(deck).contains("internal \"U\"")
    });
    checks.equal(
        "equal levels sink together",
        kept.as_slice(),
        b"H 0\nU 1 1 1 1 1 1 0 0 0 0 \"U\"\nE\n",
    );
}

fn chosen(checks: &mut Checks) {
    let names = ["tens-left-out", "first-group-only", "12-13-exchanged"];
    let place = |name: &str| ALL.iter().position(|(_, _, known)| *known == name);
    let untold: Vec<usize> = names.iter().filter_map(|name| place(name)).collect();
    let chosen = choose(&untold, tiny_decks(300));
    let mut taken: Vec<usize> = chosen
        .iter()
        .flat_map(|teller| teller.faults.clone())
        .collect();
    taken.sort_unstable();
    checks.equal("every fault is taken once", taken, untold);
    let told = |deck: &[u8], faults: &[usize]| {
        Right::of(deck).told(faults.iter().copied()).len() == faults.len()
    };
    checks.check(
        "each deck tells what it was taken for",
        chosen
            .iter()
            .all(|teller| told(&teller.deck, &teller.faults)),
    );
    checks.check(
        "no deck is heavy",
        chosen.iter().all(|teller| !size(&teller.deck).heavy),
    );
    checks.equal("one deck suffices for them", chosen.len(), 1);
    checks.check(
        "nothing untold, nothing chosen",
        choose(&[], tiny_decks(9)).is_empty(),
    );
}
