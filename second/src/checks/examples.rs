//! The examples of document 01.

use super::Checks;
use crate::course::{answer, cells};
use crate::deck::read;
use crate::faults::Fault;
use crate::hour::Hour;
use crate::sequence::place;
use crate::units::cost;

pub const U1: &str = "U 100 120 40 30 20 20 50000 9000 10 10000 \"U1\"\n";
pub const P1: &str = "P 30 95000 \"P1\"\n";

pub const DECK: &str = r#"H 10
U 100 120 40 30 20 20 50000 9000 10 10000 "U1"
P 30 95000 "P1"
T 30 1 1 60 "X"
T 28 1 1 20 "X "
D 30 50 "U1" "X "
E
"#;

pub const REPORT: &str = r#"hour 130 10 80 40
"X" 300 "U1" 0 50 9750000000
"X" 300 "P1" 0 10 1900000000
"X " 280 "U1" 15 0 3245000000
"X " 280 "P1" 0 5 950000000
internal "U1" 35 7005000000
internal "P1" 15 2850000000
end
"#;

pub fn hour(deck: &str) -> Hour {
    read(deck.as_bytes(), Fault::None).unwrap_or_default()
}

pub fn run(checks: &mut Checks) {
    checks.report("the printed example", DECK, REPORT);
    checks.report("an hour of nothing", "H 0\nE\n", "hour 0 0 0 0\nend\n");
    costs(checks);
    sequences(checks);
    labels(checks);
    credit(checks);
    levels_and_percents(checks);
}

fn costs(checks: &mut Checks) {
    let hour = hour(DECK);
    let w = |m| {
        hour.sources
            .first()
            .map_or(-1, |unit| cost(unit, m, Fault::None))
    };
    checks.equal("W(20)", w(20), 4_640_000_000);
    checks.equal("W(10)", w(10), 2_320_000_000);
    checks.equal("W(50)", w(50), 10_250_000_000);
    checks.equal("W(100)", w(100), 20_000_000_000);
    checks.equal("the 51st MWh", w(51) - w(50), 190_100_000);
    checks.equal("the 50th MWh", w(50) - w(49), 189_900_000);
    checks.equal("W(0)", w(0), 0);
}

/// The number of the last delivery: three of type 1 in a block, then a 0.
fn placed(block: i64, sort: i64, own: i64) -> i64 {
    let mut deck = "H 0\n".to_string();
    for sequence in [30, 28, 27] {
        deck += &format!("T {sequence} 1 {block} 0 \"{sequence}\"\n");
    }
    deck += &format!("T 0 {sort} {own} 0 \"Z\"\nE\n");
    place(&hour(&deck), Fault::None)
        .last()
        .map_or(0, |placed| placed.0)
}

fn sequences(checks: &mut Checks) {
    checks.equal("a 0 among its own block", placed(2, 1, 2), 269);
    checks.equal("a 0 above block 1", placed(1, 1, 2), 301);
    checks.equal("a 0 below block 3", placed(3, 1, 2), 269);
    checks.equal("a 0 far from block 4", placed(4, 1, 2), 269);
    checks.equal("a 0 of block 1, the others in 4", placed(4, 1, 1), 269);
    checks.equal("a 0 of another type", placed(2, 2, 2), 269);
}

fn labels(checks: &mut Checks) {
    checks.accepted("\"X\" and \"X \" are different", DECK);
    let same = DECK.replace("\"X \"", "\"X\"");
    checks.refused("\"X\" twice", same, 5, 5);
    let unclosed = DECK.replace("60 \"X\"", "60 \"X\\\"");
    checks.refused("\"X\\\" is no label", unclosed, 2, 4);
}

fn credit(checks: &mut Checks) {
    let deck = |mwh: i64| format!("H 10\n{U1}{P1}T 30 1 1 {mwh} \"X\"\nD 30 100 \"U1\" \"X\"\nE\n");
    let hour = hour(&deck(10));
    let cells = answer(&hour, Fault::None)
        .map(|answer| cells(&answer))
        .unwrap_or_default();
    checks.equal("direct of the credit", cells.first().copied(), Some(30));
    checks.equal("its cost", cells.get(2).copied(), Some(6_490_000_000));
    checks.equal(
        "incremental of the credit",
        cells.get(1).copied(),
        Some(-20),
    );
    checks.equal("its credit", cells.get(3).copied(), Some(-4_040_000_000));
    checks.equal("open after the credit", cells.get(8).copied(), Some(90));
    checks.refused("with 9 MWh", deck(9), 13, 300);
}

fn levels_and_percents(checks: &mut Checks) {
    let unit = |g: i64| format!("H 0\nU {g} 120 40 30 20 20 1 1 1 1 \"U\"\nE\n");
    checks.accepted("g = n", unit(40));
    checks.refused("g = n - 1", unit(39), 6, 2);
    let percents = |second: i64| {
        format!("H 0\n{U1}T 1 1 1 40 \"X\"\nD L 60 \"U1\" \"X\"\nD L {second} \"U1\" \"X\"\nE\n")
    };
    checks.accepted("percents 60 and 40", percents(40));
    checks.refused("percents 60 and 41", percents(41), 9, 5);
}
