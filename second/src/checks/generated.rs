//! What holds of every generated deck.

use super::Checks;
use crate::course::{answer, cells, course, generation_cost, Answer};
use crate::deck::read;
use crate::draw::Draw;
use crate::faults::{named, Fault, ALL};
use crate::frames::{answer_all, put, DECK};
use crate::generate::{deck, tiny};
use crate::group::Turn;
use crate::hour::*;
use crate::report::{report, rewritten};
use crate::units::Rung;

const DECKS: u64 = 6_000;
const SEED: u64 = 7;

/// W(2,000) of the largest coefficients.
const LARGEST_COST: i128 = (2 * 999_999 + 2 * 99_999 * 2_000 + 99 * 2_000 * 2_000) * 39_996;

/// Counts of what broke, by property.
#[derive(Default)]
struct Broken {
    accepted: u64,
    energy: u64,
    money: u64,
    groups: u64,
    bytes: u64,
    averages: u64,
    cells: u64,
    refused: u64,
    short: u64,
}

pub fn run(checks: &mut Checks) {
    let mut broken = Broken::default();
    for index in 0..DECKS {
        examine(&deck(SEED, index).deck, &mut broken);
    }
    checks.check("thousands of hours are accepted", broken.accepted > 3_000);
    checks.equal("each source's MWh add up to g", broken.energy, 0);
    checks.equal("each source's costs add up to W(g)", broken.money, 0);
    checks.equal("each group's net MWh is its total", broken.groups, 0);
    checks.equal("an accepted deck written anew is the same", broken.bytes, 0);
    checks.equal(
        "no unit at b has last-step room where n <= b",
        broken.averages,
        0,
    );
    checks.equal("every cell is within the largest cost", broken.cells, 0);
    checks.check("hundreds of groups are refused", broken.refused > 200);
    checks.equal("a group lacks the MWh short, not fewer", broken.short, 0);
    let product = LARGEST_COST * 64_000;
    checks.check(
        "shares of the largest cost fit 64 bits",
        product <= i128::from(i64::MAX),
    );
    streams(checks);
    frames(checks);
    names(checks);
}

fn examine(deck: &[u8], broken: &mut Broken) {
    let Ok(hour) = read(deck, Fault::None) else {
        return;
    };
    broken.bytes += u64::from(rewritten(deck) != deck);
    broken.averages += u64::from(!changed_averages_idle(&hour));
    let Ok(answer) = answer(&hour, Fault::None) else {
        broken.refused += 1;
        broken.short += u64::from(!lacks_the_short(&hour));
        return;
    };
    broken.accepted += 1;
    broken.energy += u64::from(!energy_balances(&hour, &answer));
    broken.money += u64::from(!money_balances(&hour, &answer));
    broken.groups += u64::from(!groups_balance(&hour, &answer));
    let past = |cell: &i64| i128::from(*cell).abs() > LARGEST_COST;
    broken.cells += u64::from(cells(&answer).iter().any(past));
}

/// A source's column of one answer, summed in 128 bits.
fn column(answer: &Answer, place: usize, places: [usize; 2]) -> i128 {
    let of_pair = |pair: &[i64; 4]| places.iter().map(|&at| i128::from(pair[at])).sum::<i128>();
    answer.pairs.iter().map(|row| of_pair(&row[place])).sum()
}

fn energy_balances(hour: &Hour, answer: &Answer) -> bool {
    (0..hour.sources.len()).all(|place| {
        let all = column(answer, place, [0, 1]) + i128::from(answer.open[place][0]);
        all == i128::from(hour.sources[place].g)
    })
}

fn money_balances(hour: &Hour, answer: &Answer) -> bool {
    (0..hour.sources.len()).all(|place| {
        let all = column(answer, place, [2, 3]) + i128::from(answer.open[place][1]);
        all == i128::from(generation_cost(&hour.sources[place]))
    })
}

fn groups_balance(hour: &Hour, answer: &Answer) -> bool {
    course(hour, Fault::None).turns.iter().all(|turn| {
        let rows = turn
            .group
            .members
            .iter()
            .flat_map(|&member| &answer.pairs[member]);
        rows.map(|pair| pair[0] + pair[1]).sum::<i64>() == turn.group.total
    })
}

fn changed_averages_idle(hour: &Hour) -> bool {
    course(hour, Fault::None)
        .turns
        .iter()
        .filter(|turn| turn.rung == Some(Rung::Last))
        .all(|turn| {
            turn.opened.iter().all(|state| {
                let low = state.source.unit().map_or(i64::MAX, |unit| unit.n);
                low > state.basic() || state.room(Rung::Last) == state.room(Rung::Emergency)
            })
        })
}

/// Whether the refused group passes once its remainder is nearer to 0 by the
/// MWh short, and does not by one MWh fewer.
fn lacks_the_short(hour: &Hour) -> bool {
    let course = course(hour, Fault::None);
    let Some(turn) = course.turns.last() else {
        return false;
    };
    let short = turn.short();
    let refused_nearer_by = |mwh: i64| refused_with(hour, turn, turn.remainder.signum() * -mwh);
    short > 0 && refused_nearer_by(short).is_none() && refused_nearer_by(short - 1) == turn.refused
}

/// What refuses the turn's group where its MWh are others, all of them given
/// to the first member.
fn refused_with(hour: &Hour, turn: &Turn, change: i64) -> Option<u8> {
    let mut hour = hour.clone();
    for &member in &turn.group.members {
        hour.deliveries[member].mwh = 0;
    }
    hour.deliveries[turn.group.members[0]].mwh = turn.group.total + change;
    let turns = course(&hour, Fault::None).turns;
    let same = |other: &&Turn| other.group.internal == turn.group.internal;
    turns.iter().find(same).and_then(|turn| turn.refused)
}

fn streams(checks: &mut Checks) {
    let same = (0..50).all(|index| deck(3, index).deck == deck(3, index).deck);
    checks.check("a deck depends on seed and number alone", same);
    let apart = (0..50).any(|index| deck(3, index).deck != deck(4, index).deck);
    checks.check("seeds give different decks", apart);
    let most = (0..900).filter_map(|index| read(&tiny(3, index).deck, Fault::None).ok());
    let levels = most
        .flat_map(|hour| hour.sources)
        .map(|source| source.g)
        .max();
    checks.check(
        "tiny hours have small levels",
        levels.is_some_and(|level| level < 60),
    );
    let mut draw = Draw::new(1, 1, 1);
    checks.check(
        "draws stay within",
        (0..1_000).all(|_| (3..=5).contains(&draw.between(3, 5))),
    );
    let largest = crate::write::deck(&crate::generate::limits::longest());
    let fits = |hour: Hour| {
        answer(&hour, Fault::None).is_ok_and(|answer| cells(&answer).len() == 32 * 32 * 4 + 64)
    };
    checks.check(
        "a full hour has all its cells",
        read(&largest, Fault::None).is_ok_and(fits),
    );
}

/// What a run over these bytes prints, and whether it came to its end.
fn run_frames(input: &[u8]) -> (String, bool) {
    let mut output = Vec::new();
    let mut input = input;
    let whole = answer_all(&mut input, &mut output, DECK, |deck| {
        ("report", report(deck, Fault::None))
    });
    (
        String::from_utf8_lossy(&output).into_owned(),
        whole.unwrap_or(false),
    )
}

fn frames(checks: &mut Checks) {
    let mut good = Vec::new();
    let written = put(&mut good, "deck", b"H 0\nE\n").and_then(|()| put(&mut good, "deck", b""));
    checks.check("frames are written", written.is_ok());
    let wanted = "report 17\nhour 0 0 0 0\nend\nreport 12\nrefused 2 1\n".to_string();
    checks.equal(
        "frames are answered",
        run_frames(&good),
        (wanted.clone(), true),
    );
    for (name, tail) in [
        ("a frame of another name", &b"desk 1\nx"[..]),
        ("a frame cut short", b"deck 5\nH 0\n"),
        ("a frame with a leading zero", b"deck 05\nH 0\nE"),
        (
            "a frame of endless digits",
            b"deck 99999999999999999999999999999999999\n",
        ),
        ("a frame without a feed", b"deck 5"),
        ("a frame without a length", b"deck \n"),
    ] {
        let broken = [&good[..], tail].concat();
        checks.equal(
            name,
            run_frames(&broken),
            (format!("{wanted}frame 3\n"), false),
        );
    }
    let long = [&b"deck 9000\n"[..], &[b'1'; 9_000], &good].concat();
    let refused = format!("report 12\nrefused 1 0\n{wanted}");
    checks.equal(
        "a deck too long does not end the run",
        run_frames(&long),
        (refused, true),
    );
    checks.equal("no frame at all", run_frames(b""), (String::new(), true));
}

fn names(checks: &mut Checks) {
    let found = ALL
        .iter()
        .all(|&(fault, step, name)| named(name) == Some((fault, step)));
    checks.check("every fault is found by its name", found);
    checks.check("no other fault is", named("nothing").is_none());
}
