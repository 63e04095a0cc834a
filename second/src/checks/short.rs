//! The MWh short of a refused group.

use super::examples::{DECK, P1, U1};
use super::Checks;
use crate::frames::{self, answer_all, put};
use crate::report::short;

pub fn run(checks: &mut Checks) {
    nothing(checks);
    room(checks);
    headroom(checks);
    several_deliveries(checks);
    after_earlier_groups(checks);
    frames(checks);
}

impl Checks {
    fn short(&mut self, name: &str, deck: impl AsRef<[u8]>, wanted: &str) {
        let found = short(deck.as_ref());
        self.equal(name, String::from_utf8_lossy(&found).as_ref(), wanted);
    }
}

fn nothing(checks: &mut Checks) {
    checks.short("an hour reconstructed is not short", DECK, "");
    checks.short("nor is one of nothing", "H 0\nE\n", "");
    for (name, deck) in [
        ("an empty deck", ""),
        ("a deck refused with 3", "H 64001\nE\n"),
        ("10", "H 0\nT 1 1 1 1 \"X\"\nE\n"),
        ("11", "H 0\nT 0 1 1 0 \"X\"\nE\n"),
    ] {
        checks.short(&format!("{name} is not told as short"), deck, "");
    }
    let long = [b'1'; 8_193];
    checks.short("a deck too long is not told as short", long, "");
}

/// 10 MWh of a unit and 9 that never move, with these lines.
fn ten_and_firm(lines: &str) -> String {
    format!("H 0\nU 10 10 6 4 2 1 0 1 0 2000 \"U\"\nF 9 \"F\"\n{lines}E\n")
}

fn room(checks: &mut Checks) {
    let deck = |mwh: i64| ten_and_firm(&format!("T 1 1 1 {mwh} \"X\"\n"));
    checks.short("as much as there is room", deck(10), "");
    checks.short("one MWh past the room", deck(11), "12 10 1 \"X\"\n");
    checks.short("all firm energy past it", deck(19), "12 10 9 \"X\"\n");
    let firm = "H 0\nF 9 \"F\"\nT 1 1 1 1 \"X\"\nE\n";
    checks.short("no room at all", firm, "12 10 1 \"X\"\n");
    // b = 90, D = 18, v = 82 over the floor 72: room 10, and 4 of the purchase.
    let taken = |mwh: i64| {
        format!(
            "H 0\nU 100 200 10 10 10 10 0 1 0 2000 \"U\"\nP 4 0 \"P\"\n\
             T 2 1 1 {mwh} \"X\"\nD 90 20 \"U\" \"X\"\nE\n"
        )
    };
    checks.short("room after the group's D line", taken(32), "");
    checks.short("8 MWh past it", taken(40), "12 20 8 \"X\"\n");
}

fn headroom(checks: &mut Checks) {
    // 30 MWh taken directly; U1 stands 20 below its high, P1 at its own.
    let deck = |mwh: i64| format!("H 10\n{U1}{P1}T 30 1 1 {mwh} \"X\"\nD 30 100 \"U1\" \"X\"\nE\n");
    checks.short("10 MWh of document 01", deck(10), "");
    checks.short("9 MWh of document 01", deck(9), "13 300 1 \"X\"\n");
    checks.short("none of them", deck(0), "13 300 10 \"X\"\n");
}

fn several_deliveries(checks: &mut Checks) {
    let lines = "T 1 1 1 6 \"b \\\"\\\\\"\nT 2 1 1 0 \"Y\"\nT 1 2 3 6 \" a\"\n";
    checks.short(
        "a group's labels in deck order, as written",
        ten_and_firm(lines),
        "12 10 2 \"b \\\"\\\\\" \" a\"\n",
    );
    let lines = "T 30 1 1 0 \"A\"\nT 0 1 1 6 \"B\"\nT 0 2 1 5 \"C\"\n";
    checks.short(
        "a group of placed deliveries",
        ten_and_firm(lines),
        "12 299 1 \"B\" \"C\"\n",
    );
    let pair =
        format!("H 10\n{U1}{P1}T 30 1 1 4 \"X\"\nT 30 1 1 4 \"X \"\nD 30 100 \"U1\" \"X \"\nE\n");
    checks.short("a credit of two", pair, "13 300 2 \"X\" \"X \"\n");
    let empty = ten_and_firm("T 1 1 1 0 \"X\"\nT 1 1 1 12 \"Y\"\n");
    checks.short("a member of 0 MWh", empty, "12 10 2 \"X\" \"Y\"\n");
}

fn after_earlier_groups(checks: &mut Checks) {
    let two = ten_and_firm("T 2 1 1 7 \"X\"\nT 1 1 1 6 \"Y\"\n");
    checks.short("7 of 10 MWh are gone", two, "12 10 3 \"Y\"\n");
    let both = ten_and_firm("T 1 1 1 7 \"Y\"\nT 2 1 1 12 \"X\"\n");
    checks.short("the first group short is told", both, "12 20 2 \"X\"\n");
    // v = 40 is left for b: D = 20, and the other 20 are the floor.
    let basic = "H 0\nU 100 200 10 10 10 10 0 1 0 2000 \"U\"\n\
                 T 3 1 1 60 \"A\"\nT 2 1 1 30 \"B\"\nT 1 1 1 9 \"C\"\n\
                 D 50 50 \"U\" \"B\"\nD 50 50 \"U\" \"C\"\nE\n";
    checks.short("b from what was left", basic, "12 20 10 \"B\"\n");
    // Y takes 7 of A directly; A has 2 above it, P what X took.
    let purchase = |mwh: i64| {
        format!(
            "H 0\nP 9 9 \"P\"\nU 10 12 2 2 2 2 0 1 0 2000 \"A\"\n\
             T 2 1 1 {mwh} \"X\"\nT 1 1 1 0 \"Y\"\nD G 70 \"A\" \"Y\"\nE\n"
        )
    };
    checks.short("a purchase lowered by 5 rises by 5", purchase(5), "");
    checks.short("by 1 only", purchase(1), "13 10 4 \"Y\"\n");
    // X brings A to 6 and B to 4 or below; Y's 6 of A are to be raised again.
    let sunk = |mwh: i64| {
        format!(
            "H 0\nU 10 10 6 6 6 6 0 1 0 2000 \"A\"\nU 10 12 4 4 4 4 0 2 0 2000 \"B\"\n\
             T 2 1 1 {mwh} \"X\"\nT 1 1 1 0 \"Y\"\nD L 100 \"A\" \"Y\"\nE\n"
        )
    };
    checks.short("a unit at e has headroom", sunk(10), "");
    checks.short("a unit below e has none", sunk(11), "13 10 2 \"Y\"\n");
}

fn frames(checks: &mut Checks) {
    let mut input = Vec::new();
    let mut written = true;
    for deck in [DECK, "", &ten_and_firm("T 1 1 1 11 \"X\"\n")] {
        written &= put(&mut input, "deck", deck.as_bytes()).is_ok();
    }
    checks.check("frames of decks short or not", written);
    let wanted = "short 0\nshort 0\nshort 12\n12 10 1 \"X\"\n";
    for (name, tail, end, wanted_whole) in [
        ("frames are answered by what is short", "", "", true),
        (
            "a frame cut short ends it",
            "deck 5\nH 0\n",
            "frame 4\n",
            false,
        ),
    ] {
        let input = [&input, tail.as_bytes()].concat();
        let mut output = Vec::new();
        let whole = answer_all(&mut &input[..], &mut output, frames::DECK, |deck| {
            ("short", short(deck))
        });
        checks.equal(
            name,
            (String::from_utf8_lossy(&output).as_ref(), whole.ok()),
            (format!("{wanted}{end}").as_str(), Some(wanted_whole)),
        );
    }
}
