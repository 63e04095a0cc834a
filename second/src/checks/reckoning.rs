//! The settled readings of the reckoning and of its output.

use super::examples::{hour, DECK};
use super::Checks;
use crate::course::{answer, cells, course, split};
use crate::faults::Fault;
use crate::report::rewritten;
use crate::sequence::place;
use crate::units::{cost, Rung, State};

pub fn run(checks: &mut Checks) {
    sequences(checks);
    direct(checks);
    basic_amount(checks);
    generation_after_credit(checks);
    prorated_again(checks);
    ladder(checks);
    last_step(checks);
    credits(checks);
    ties_and_purchases(checks);
    members(checks);
    output(checks);
    cells_and_costs(checks);
}

fn internal(lines: &str) -> Vec<i64> {
    let hour = hour(&format!("H 0\n{lines}E\n"));
    place(&hour, Fault::None)
        .iter()
        .map(|placed| placed.0)
        .collect()
}

fn sequences(checks: &mut Checks) {
    let given = "T 30 1 1 0 \"A\"\n";
    let lines = format!("{given}T 0 2 1 0 \"B\"\nT 0 2 1 0 \"C\"\n");
    checks.equal(
        "a placed delivery places no other",
        internal(&lines),
        vec![300, 299, 299],
    );
    let lines = format!("{given}T 0 1 1 0 \"B\"\nT 0 2 1 0 \"C\"\n");
    checks.equal(
        "two rules, one number",
        internal(&lines),
        vec![300, 299, 299],
    );
    let hour = hour(&format!("H 0\n{lines}E\n"));
    checks.equal(
        "equal numbers are one group",
        course(&hour, Fault::None).groups,
        2,
    );
    let lines = "T 0 1 9 0 \"A\"\nT 30 1 8 0 \"B\"\nT 31 1 1 0 \"C\"\n";
    checks.equal("block 9 goes past b", internal(lines), vec![301, 300, 310]);
    let lines = "T 0 1 1 0 \"A\"\nT 30 1 9 0 \"B\"\n";
    checks.equal("block 1 goes past c", internal(lines), vec![299, 300]);
    let lines = "T 0 1 2 0 \"A\"\nT 30 1 2 0 \"B\"\nT 20 1 3 0 \"C\"\nT 10 2 2 0 \"D\"\n";
    checks.equal(
        "a) goes before b) and e)",
        internal(lines),
        vec![299, 300, 200, 100],
    );
    let lines = "T 0 1 2 0 \"A\"\nT 30 1 1 0 \"B\"\nT 20 1 3 0 \"C\"\n";
    checks.equal("b) goes before c)", internal(lines), vec![199, 300, 200]);
}

/// All cells of a deck; none where it is refused.
fn all_cells(deck: &str) -> Vec<i64> {
    answer(&hour(deck), Fault::None)
        .map(|answer| cells(&answer))
        .unwrap_or_default()
}

/// Of each delivery's first source: direct and incremental MWh.
fn mwh(deck: &str) -> Vec<[i64; 2]> {
    let hour = hour(deck);
    let answer = answer(&hour, Fault::None).ok();
    let rows = answer.map(|answer| answer.pairs).unwrap_or_default();
    rows.iter().map(|row| [row[0][0], row[0][1]]).collect()
}

/// A deck of one unit with these lines.
fn with_unit(deliveries: &str, directs: &str) -> String {
    let unit = "U 100 200 10 10 10 10 0 1 0 2000 \"U\"\n";
    format!("H 0\n{unit}{deliveries}{directs}E\n")
}

fn direct(checks: &mut Checks) {
    let two = "T 1 1 1 9 \"low\"\nT 2 1 1 9 \"high\"\n";
    let lines = "D 10 33 \"U\" \"low\"\nD 10 33 \"U\" \"high\"\n";
    checks.equal(
        "percents follow the processing",
        mwh(&with_unit(two, lines)),
        vec![[3, 6], [3, 6]],
    );
    let lines = "D 90 1 \"U\" \"high\"\n";
    let t = "T 2 1 1 15 \"high\"\n";
    checks.refused("a D line of 0 MWh sets floors", with_unit(t, lines), 12, 20);
    checks.accepted("the same without it", with_unit(t, ""));
    let three = "T 1 1 1 1 \"A\"\nT 1 1 1 1 \"B\"\nT 1 1 1 1 \"C\"\n";
    let lines = "D 10 10 \"U\" \"C\"\nD 10 10 \"U\" \"C\"\n";
    checks.equal(
        "D lines of one unit are split once",
        mwh(&with_unit(three, lines)),
        vec![[0, 0], [1, 0], [1, 1]],
    );
    let pair = "T 1 1 1 1 \"A\"\nT 1 1 1 1 \"B\"\n";
    let lines = "D 10 20 \"U\" \"B\"\n";
    checks.equal(
        "direct energy goes to the whole group",
        mwh(&with_unit(pair, lines)),
        vec![[1, 0], [1, 0]],
    );
}

fn basic_amount(checks: &mut Checks) {
    let t = "T 3 1 1 60 \"A\"\nT 2 1 1 30 \"B\"\nT 1 1 1 9 \"C\"\n";
    let lines = "D 50 50 \"U\" \"B\"\nD 50 50 \"U\" \"C\"\n";
    checks.refused("b keeps later groups off", with_unit(t, lines), 12, 20);
    let t = t.replace("30", "20");
    let found = mwh(&with_unit(&t, lines));
    checks.equal(
        "b is set once, from v then",
        found,
        vec![[0, 60], [20, 0], [20, -11]],
    );
}

fn generation_after_credit(checks: &mut Checks) {
    let deck =
        "H 0\nU 100 200 10 10 10 10 0 1 0 2000 \"A\"\nU 100 100 10 10 10 10 0 9 0 2000 \"B\"\n\
                T 2 1 1 0 \"X\"\nT 1 1 1 100 \"Y\"\nD 50 100 \"B\" \"X\"\nD G 100 \"A\" \"Y\"\nE\n";
    checks.equal("G is the deck's g", mwh(deck), vec![[0, -50], [100, 0]]);
    let past = deck.replace("D G", "D 120");
    checks.equal(
        "b past g after a credit",
        mwh(&past),
        vec![[0, -50], [120, -20]],
    );
}

fn prorated_again(checks: &mut Checks) {
    let hour = hour("H 0\nU 9 9 9 9 9 7 1 1 1 5 \"U\"\nE\n");
    let Some(source) = hour.sources.first() else {
        return checks.check("a unit is read", false);
    };
    let state = State {
        b: Some(5),
        ..State::new(source, Fault::None)
    };
    checks.equal("W(k)", state.w(7), 325);
    checks.equal("W(b) below k is rounded", state.w(5), 232);
    checks.equal("and prorated again", state.w(3), 139);
    checks.equal("above b W stays", state.w(6), 278);
}

fn ladder(checks: &mut Checks) {
    let deck = |mwh: i64| {
        format!("H 0\nU 10 10 6 4 2 1 0 1 0 2000 \"U\"\nF 9 \"F\"\nT 1 1 1 {mwh} \"X\"\nE\n")
    };
    let rung = |mwh: i64| {
        let hour = hour(&deck(mwh));
        let course = course(&hour, Fault::None);
        course.turns.first().and_then(|turn| turn.rung)
    };
    let wanted = [
        (4, Rung::Normal),
        (5, Rung::Oil),
        (6, Rung::Oil),
        (7, Rung::Emergency),
        (8, Rung::Emergency),
        (9, Rung::Last),
        (10, Rung::Last),
    ];
    for (mwh, wanted) in wanted {
        checks.equal(&format!("the rung of {mwh} MWh"), rung(mwh), Some(wanted));
    }
    checks.refused("one MWh past the last floor", deck(11), 12, 10);
    let again = "H 0\n\
                 U 10 10 6 4 2 2 0 1 0 2000 \"A\"\n\
                 U 10 10 2 2 2 2 0 9 0 2000 \"B\"\nT 2 1 1 14 \"X\"\nT 1 1 1 1 \"Y\"\nE\n";
    checks.equal("a group past normal lows", mwh(again), vec![[0, 6], [0, 1]]);
    let firm = "H 0\nF 9 \"F\"\nT 1 1 1 1 \"X\"\nE\n";
    checks.refused("a firm source gives nothing", firm, 12, 10);
}

fn last_step(checks: &mut Checks) {
    let deck = |mwh: i64| {
        format!(
            "H 0\nU 10 10 4 4 3 1 0 1 0 2000 \"A\"\nP 5 1 \"P\"\nU 10 10 4 4 3 1 0 2 0 2000 \"B\"\n\
             U 10 10 4 4 3 1 0 2 0 2000 \"C\"\nF 9 \"F\"\nT 2 1 1 {mwh} \"X\"\nT 1 1 1 0 \"Y\"\nE\n"
        )
    };
    let lowered = |mwh: i64| {
        let cells = all_cells(&deck(mwh));
        cells
            .chunks(4)
            .take(4)
            .map(|pair| pair[1])
            .collect::<Vec<i64>>()
    };
    checks.equal(
        "all to emergency floors, then B",
        lowered(28),
        vec![7, 5, 9, 7],
    );
    checks.equal("then C", lowered(31), vec![7, 5, 10, 9]);
    checks.equal("then A", lowered(34), vec![9, 5, 10, 10]);
    checks.equal("to nothing", lowered(35), vec![10, 5, 10, 10]);
    checks.refused("and no further", deck(36), 12, 20);
}

fn credits(checks: &mut Checks) {
    let deck = |first: i64, second: i64| {
        format!(
            "H 0\nU 10 30 6 6 6 6 0 1 0 2000 \"A\"\nU 10 30 4 4 4 4 0 2 0 2000 \"B\"\n\
             T 2 1 1 {first} \"X\"\nT 1 1 1 {second} \"Y\"\nD L 100 \"B\" \"Y\"\nE\n"
        )
    };
    let emergency = all_cells(&deck(10, 0));
    checks.equal("a unit at e rises", emergency.get(9).copied(), Some(-4));
    let turned = deck(11, 0)
        .replace("4 4 4 4 0 2", "5 5 5 5 0 2")
        .replace("6 6 6 6 0 1", "6 6 6 6 9 9");
    let sunk = all_cells(&turned);
    checks.equal("a unit below e does not", sunk.get(9).copied(), Some(0));
    checks.equal(
        "the unit directly taken does",
        sunk.get(13).copied(),
        Some(-5),
    );
}

fn ties_and_purchases(checks: &mut Checks) {
    let tied = "H 0\n\
                U 10 20 2 2 2 2 0 1 0 2000 \"A\"\n\
                U 10 20 2 2 2 2 0 1 0 2000 \"B\"\nT 1 1 1 0 \"X\"\nD L 100 \"A\" \"X\"\nE\n";
    let cells = all_cells(tied);
    checks.equal("a tie raises the later", [cells[1], cells[5]], [0, -2]);
    let purchase = "H 0\n\
                    P 9 9 \"P\"\n\
                    U 10 12 2 2 2 2 0 1 0 2000 \"A\"\n\
                 T 2 1 1 5 \"X\"\nT 1 1 1 0 \"Y\"\nD G 70 \"A\" \"Y\"\nE\n";
    checks.accepted("a purchase rises to g", purchase);
    checks.refused(
        "and no further",
        purchase.replace("1 1 5 \"X\"", "1 1 4 \"X\""),
        13,
        10,
    );
}

fn members(checks: &mut Checks) {
    let none = Fault::None;
    checks.equal("running floors", split(5, &[1, 1, 1], none), vec![1, 2, 2]);
    checks.equal(
        "and then the sign",
        split(-5, &[1, 1, 1], none),
        vec![-1, -2, -2],
    );
    checks.equal(
        "a member of 0 MWh",
        split(5, &[0, 2, 0], none),
        vec![0, 5, 0],
    );
    checks.equal("a total of 0", split(-5, &[0, 0], none), vec![-5, 0]);
    checks.equal("three thirds", split(1, &[1, 1, 1], none), vec![0, 0, 1]);
}

fn output(checks: &mut Checks) {
    let deck = "H 1\nF 3 \"F\"\nP 2 7 \"P \\\"\"\nT 9 1 1 0 \"\\\\\"\nE\n";
    let wanted = "hour 5 1 0 4\n\"\\\\\" 90 \"F\" 0 0 0\n\"\\\\\" 90 \"P \\\"\" 0 0 0\n\
                  internal \"F\" 3 0\ninternal \"P \\\"\" 2 28000\nend\n";
    checks.report("zeros and firm sources are printed", deck, wanted);
    let rewritten = rewritten(deck.as_bytes());
    checks.equal(
        "a deck written anew",
        String::from_utf8_lossy(&rewritten).as_ref(),
        deck,
    );
}

fn cells_and_costs(checks: &mut Checks) {
    let cells = all_cells(DECK);
    let wanted = vec![
        0,
        50,
        0,
        9_750_000_000,
        0,
        10,
        0,
        1_900_000_000,
        15,
        0,
        3_245_000_000,
        0,
        0,
        5,
        0,
        950_000_000,
        35,
        7_005_000_000,
        15,
        2_850_000_000,
    ];
    checks.equal("the cells in their order", cells, wanted);
    let hour = hour(DECK);
    let high = hour
        .sources
        .first()
        .map_or(0, |unit| cost(unit, 2_000, Fault::None));
    checks.equal("a cost above h", high, 761_000_000_000);
}
