//! The settled readings of the deck.

use super::examples::{P1, U1};
use super::{Case, Checks};
use crate::generate::limits::longest;
use crate::hour::MOST_BYTES;
use crate::write;

pub fn run(checks: &mut Checks) {
    checks.all(FORMS, str::to_string);
    digits(checks);
    label_forms(checks);
    checks.all(ENDS, str::to_string);
    lengths(checks);
    sources(checks);
    deliveries_and_directs(checks);
    labels(checks);
    checks.all(DIRECTS, with_directs);
    bases(checks);
    totals(checks);
}

const FORMS: &[Case] = &[
    (
        "form before range to its left",
        "H 0\nP 2001 x \"A\"\nE\n",
        2,
        2,
    ),
    ("form before range at the line's end", "H 64001 \nE\n", 2, 1),
    (
        "order before range",
        "H 0\nT 1 1 1 0 \"A\"\nP 2001 0 \"B\"\nE\n",
        2,
        3,
    ),
    (
        "order before label",
        "H 0\nP 1 0 \"A\"\nT 1 1 1 0 \"A\"\nP 1 0 \"A\"\nE\n",
        2,
        4,
    ),
    (
        "order before levels",
        "H 0\nT 1 1 1 0 \"A\"\nU 1 2 3 4 5 6 0 0 0 0 \"B\"\nE\n",
        2,
        3,
    ),
    ("order before names", "H 0\nE\nD L 1 \"A\" \"B\"\n", 2, 3),
    ("first line not H", "T 100 1 1 0 \"A\"\nE\n", 2, 1),
    ("H again", "H 0\nH 0\nE\n", 2, 2),
    ("type 0", "H 0\nT 1 0 1 0 \"A\"\nE\n", 3, 2),
    ("block 0", "H 0\nT 1 1 0 0 \"A\"\nE\n", 3, 2),
    ("level 0", "H 0\nU 1 1 1 1 1 0 0 0 0 0 \"A\"\nE\n", 3, 2),
    ("basis 0", "H 0\nD 0 1 \"A\" \"B\"\nE\n", 3, 2),
    ("percent 0", "H 0\nD L 0 \"A\" \"B\"\nE\n", 3, 2),
    ("basis 2000", "H 0\nD 2000 1 \"A\" \"B\"\nE\n", 3, 2),
    ("percent 101", "H 0\nD L 101 \"A\" \"B\"\nE\n", 3, 2),
    ("two zeros", "H 00\nE\n", 2, 1),
    ("a leading zero", "H 01\nE\n", 2, 1),
    ("a minus", "H -5\nE\n", 2, 1),
    ("a plus", "H +5\nE\n", 2, 1),
    ("an empty field", "H \nE\n", 2, 1),
    ("two spaces", "H  5\nE\n", 2, 1),
    ("a CR", "H 5\r\nE\n", 2, 1),
    ("a tab", "H\t5\nE\n", 2, 1),
    ("a NUL", "H 5\0\nE\n", 2, 1),
    ("a lower-case letter", "h 5\nE\n", 2, 1),
    ("a lower-case basis", "H 5\nD l 1 \"A\" \"B\"\nE\n", 2, 2),
    ("an empty line", "H 5\n\nE\n", 2, 2),
];

fn digits(checks: &mut Checks) {
    for count in [30, 5_000] {
        let deck = format!("H {}\nE\n", "7".repeat(count));
        checks.refused(&format!("{count} digits"), deck, 3, 1);
    }
}

fn label_forms(checks: &mut Checks) {
    let deck = |label: &[u8]| [b"H 0\nF 0 \"", label, b"\"\nE\n"].concat();
    let cases: &[(&str, &[u8])] = &[
        ("a label of no character", b""),
        ("a label of 17 characters", b"ABCDEFGHIJKLMNOPQ"),
        ("character 31", b"\x1f"),
        ("character 127", b"\x7f"),
        ("character 128", b"\x80"),
        ("an escape of n", b"\\n"),
        ("an unescaped quote", b"A\"B"),
    ];
    for (name, label) in cases {
        checks.refused(name, deck(label), 2, 2);
    }
    checks.accepted("a label of 16 characters", deck(b"ABCDEFGHIJKLMNOP"));
    checks.accepted("16 escaped characters", deck(&b"\\\"".repeat(16)));
    checks.refused("17 escaped characters", deck(&b"\\\"".repeat(17)), 2, 2);
    checks.accepted("a label of one space", deck(b" "));
    checks.accepted("characters 32 and 126", deck(b" ~"));
}

const ENDS: &[Case] = &[
    ("an empty deck", "", 2, 1),
    ("a deck of one LF", "\n", 2, 1),
    ("E missing", "H 0\n", 2, 2),
    ("E missing after sources", "H 0\nF 0 \"A\"\n", 2, 3),
    ("LF of E missing", "H 0\nE", 2, 2),
    ("LF of H missing", "H 0", 2, 1),
    ("bytes after the last LF", "H 0\nF 0", 2, 2),
    ("a byte after E", "H 0\nE\n ", 2, 3),
    ("a line after E", "H 0\nE\nE\n", 2, 3),
    ("an empty line after E", "H 0\nE\n\n", 2, 3),
    ("E with a field", "H 0\nE 0\n", 2, 2),
    ("the earlier line of greater number", "H 99999\nx\n", 3, 1),
];

fn lengths(checks: &mut Checks) {
    let digits = |length: usize| format!("H {}\nE\n", "1".repeat(length - 5));
    checks.refused("8,192 bytes are read", digits(MOST_BYTES), 3, 1);
    checks.refused("8,193 bytes are not", digits(MOST_BYTES + 1), 1, 0);
    let longest = write::deck(&longest());
    checks.equal("bytes of the longest deck", longest.len(), 7_018);
    checks.accepted("the longest deck", longest);
}

/// A deck with 32 sources, U, P and F in turn, and then one more line.
pub fn after_32(line: &str) -> String {
    let mut deck = "H 0\n".to_string();
    for at in 0..32 {
        deck += &match at % 3 {
            0 => format!("U 1 1 1 1 1 1 0 0 0 0 \"{at}\"\n"),
            1 => format!("P 0 0 \"{at}\"\n"),
            _ => format!("F 0 \"{at}\"\n"),
        };
    }
    deck + line + "E\n"
}

/// A deck with 32 T lines, and then one more line.
pub fn after_32_deliveries(line: &str) -> String {
    let lines: String = (0..32).map(|at| format!("T 1 1 1 0 \"{at}\"\n")).collect();
    format!("H 0\n{lines}{line}E\n")
}

/// A deck with 32 D lines of one percent, and then one more line.
pub fn after_32_directs(line: &str) -> String {
    let lines = "D L 1 \"U1\" \"X\"\n".repeat(32);
    format!("H 0\n{U1}T 1 1 1 60 \"X\"\n{lines}{line}E\n")
}

fn sources(checks: &mut Checks) {
    checks.accepted("32 sources of all kinds", after_32(""));
    checks.refused(
        "a thirty-third U",
        after_32("U 1 1 1 1 1 1 0 0 0 0 \"A\"\n"),
        4,
        34,
    );
    checks.refused("a thirty-third P", after_32("P 0 0 \"A\"\n"), 4, 34);
    checks.refused("a thirty-third F", after_32("F 0 \"A\"\n"), 4, 34);
    checks.refused("2 before 4", after_32("F 0 \"A\" \n"), 2, 34);
    checks.refused("3 before 4", after_32("F 2001 \"A\"\n"), 3, 34);
    checks.refused("4 before 5", after_32("F 0 \"0\"\n"), 4, 34);
    checks.refused(
        "4 before 6",
        after_32("U 1 2 3 4 5 6 0 0 0 0 \"A\"\n"),
        4,
        34,
    );
}

fn deliveries_and_directs(checks: &mut Checks) {
    checks.accepted("32 T lines", after_32_deliveries(""));
    let more = after_32_deliveries("T 1 1 1 0 \"A\"\n");
    checks.refused("a thirty-third T", more, 4, 34);
    checks.accepted("32 D lines that repeat", after_32_directs(""));
    checks.refused(
        "a thirty-third D",
        after_32_directs("D L 1 \"U1\" \"X\"\n"),
        4,
        36,
    );
    checks.refused(
        "4 before 7",
        after_32_directs("D L 1 \"no\" \"X\"\n"),
        4,
        36,
    );
    checks.refused(
        "4 before 8",
        after_32_directs("D G 1 \"U1\" \"X\"\n"),
        4,
        36,
    );
    checks.refused(
        "4 before 9",
        after_32_directs("D L 100 \"U1\" \"X\"\n"),
        4,
        36,
    );
}

fn labels(checks: &mut Checks) {
    checks.refused(
        "U, P and F share labels",
        "H 0\nP 0 0 \"A\"\nF 0 \"A\"\nE\n",
        5,
        3,
    );
    checks.refused(
        "5 before 6",
        "H 0\nF 0 \"A\"\nU 1 2 3 4 5 6 0 0 0 0 \"A\"\nE\n",
        5,
        3,
    );
    checks.accepted(
        "a source and a delivery of one label",
        "H 0\nF 0 \"A\"\nT 1 1 1 0 \"A\"\nE\n",
    );
    checks.accepted("labels apart in case", "H 0\nF 0 \"A\"\nF 0 \"a\"\nE\n");
    checks.accepted(
        "labels apart in a trailing space",
        "H 0\nF 0 \"A\"\nF 0 \"A \"\nE\n",
    );
}

fn with_directs(lines: &str) -> String {
    format!("H 0\n{U1}{P1}F 9 \"F\"\nT 1 1 1 60 \"X\"\n{lines}E\n")
}

const DIRECTS: &[Case] = &[
    ("D names a purchase", "D L 1 \"P1\" \"X\"\n", 7, 6),
    ("D names a firm source", "D L 1 \"F\" \"X\"\n", 7, 6),
    ("D names no unit", "D L 1 \"no\" \"X\"\n", 7, 6),
    ("D names no delivery", "D L 1 \"U1\" \"no\"\n", 7, 6),
    ("7 before 8", "D 120 1 \"U1\" \"no\"\n", 7, 6),
    (
        "L and then the number n",
        "D L 1 \"U1\" \"X\"\nD 40 1 \"U1\" \"X\"\n",
        8,
        7,
    ),
    ("a number equal to h", "D 120 1 \"U1\" \"X\"\n", 8, 6),
    (
        "8 before 9",
        "D L 60 \"U1\" \"X\"\nD G 60 \"U1\" \"X\"\n",
        8,
        7,
    ),
    (
        "3 before 9",
        "D L 60 \"U1\" \"X\"\nD L 101 \"U1\" \"X\"\n",
        3,
        7,
    ),
];

fn bases(checks: &mut Checks) {
    checks.read("a number below h", with_directs("D 119 1 \"U1\" \"X\"\n"));
    let full = with_directs("D G 1 \"U1\" \"X\"\n").replace("U 100 120", "U 120 120");
    checks.read("G with g = h", full);
    checks.refused(
        "D with nothing above it",
        "H 0\nD L 1 \"A\" \"B\"\nE\n",
        7,
        2,
    );
}

fn totals(checks: &mut Checks) {
    checks.accepted(
        "10's equality passes, by firm energy too",
        "H 5\nF 5 \"A\"\nE\n",
    );
    checks.refused("10 by one", "H 6\nF 5 \"A\"\nE\n", 10, 0);
    checks.refused(
        "losses and deliveries together",
        "H 3\nP 5 1 \"A\"\nT 1 1 1 3 \"X\"\nE\n",
        10,
        0,
    );
    checks.refused(
        "11 at its deck line",
        "H 0\nP 5 1 \"A\"\nT 0 1 1 0 \"B\"\nE\n",
        11,
        3,
    );
    checks.refused(
        "10 before 11",
        "H 6\nP 5 1 \"A\"\nT 0 1 1 0 \"B\"\nE\n",
        10,
        0,
    );
    checks.refused(
        "a line before 10",
        "H 6\nP 5 1 \"A\"\nP 5 1 \"A\"\nE\n",
        5,
        3,
    );
}
