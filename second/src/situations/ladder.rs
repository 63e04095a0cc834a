//! The ladder: rungs, prices and the last step.

use super::turns::{is_purchase, source, turn};
use super::{situation, Situation};
use crate::faults::Fault;
use crate::group::{average, compare, last_order, room, Turn};
use crate::hour::*;
use crate::units::{Rung, State, RUNGS};

fn name(rung: Rung) -> &'static str {
    match rung {
        Rung::Normal => "normal",
        Rung::Oil => "oil",
        Rung::Emergency => "emergency",
        Rung::Last => "last",
    }
}

fn ladder() -> Vec<Situation> {
    let mut all = Vec::new();
    for rung in RUNGS {
        let name = name(rung);
        all.push(turn(format!("{name} rung used"), move |turn| {
            turn.rung == Some(rung)
        }));
        all.push(turn(
            format!("{name} rung, room equal to the remainder"),
            move |turn| turn.rung == Some(rung) && room(&turn.opened, rung) == turn.remainder,
        ));
        all.push(turn(format!("{name} rung, room one short"), move |turn| {
            let further = turn
                .rung
                .map_or(turn.refused == Some(12), |used| used > rung);
            further && turn.remainder > 0 && room(&turn.opened, rung) == turn.remainder - 1
        }));
    }
    all.push(situation("lower rung, then normal lows again", |exam| {
        exam.course.is_some_and(|course| {
            let rungs: Vec<Rung> = course.turns.iter().filter_map(|turn| turn.rung).collect();
            let low = rungs.iter().position(|&rung| rung > Rung::Normal);
            low.is_some_and(|low| rungs[low..].contains(&Rung::Normal))
        })
    }));
    all.push(source(
        "a source below its floor in unloading",
        |turn, opened, _| {
            turn.rung
                .is_some_and(|rung| !opened.source.is_firm() && opened.v < opened.floor(rung))
        },
    ));
    all
}

/// Whether a moved source's last MWh ties with one that another could give.
fn ties(turn: &Turn, holds: fn(&State, &State) -> bool) -> bool {
    let after = &turn.after;
    let moved = (0..after.len()).filter(|&at| after[at].v != turn.opened[at].v);
    moved.into_iter().any(|at| {
        let state = &after[at];
        let m = state.level();
        after.iter().enumerate().any(|(other, next)| {
            let equal = match turn.rung {
                Some(rung) => next.top(rung) == Some(state.w(m + 1) - state.w(m)),
                None => next.next() == Some(state.w(m) - state.w(m - 1)),
            };
            other != at && equal && holds(state, next)
        })
    })
}

fn by_price() -> Vec<Situation> {
    let lowering = |turn: &Turn| turn.rung.is_some_and(|rung| rung < Rung::Last);
    vec![
        turn("tie in lowering", move |turn| {
            lowering(turn) && ties(turn, |_, _| true)
        }),
        turn("tie in lowering, unit and purchase", move |turn| {
            lowering(turn) && ties(turn, |one, other| is_purchase(one) != is_purchase(other))
        }),
        turn("tie in a credit", |turn| {
            turn.remainder < 0 && ties(turn, |_, _| true)
        }),
        turn("tie in a credit, unit and purchase", |turn| {
            turn.remainder < 0 && ties(turn, |one, other| is_purchase(one) != is_purchase(other))
        }),
        source("flat curve of C = 0 lowered", |turn, opened, after| {
            turn.remainder > 0
                && after.v < opened.v
                && opened.source.unit().is_some_and(|unit| unit.c == 0)
        }),
        source("curve of R = 0 lowered", |turn, opened, after| {
            turn.remainder > 0
                && after.v < opened.v
                && opened.source.unit().is_some_and(|unit| unit.r == 0)
        }),
        source("purchase of rate 0 lowered", |_, opened, after| {
            after.v < opened.v && opened.source.nature == Nature::Purchase { rate: 0 }
        }),
        source("a unit lowered below k", |_, _, after| {
            after
                .source
                .unit()
                .is_some_and(|unit| 0 < after.level() && after.level() < unit.k)
        }),
    ]
}

/// Units the last step can lower past their emergency floor.
fn last_candidates(turn: &Turn) -> Vec<usize> {
    let order = last_order(&turn.opened, Fault::None);
    let deep =
        |at: &usize| turn.opened[*at].room(Rung::Last) > turn.opened[*at].room(Rung::Emergency);
    order.into_iter().filter(deep).collect()
}

/// The last step lowers some unit and leaves some room on another.
fn last_leaves(turn: &Turn) -> bool {
    turn.rung == Some(Rung::Last)
        && last_candidates(turn)
            .iter()
            .any(|&at| turn.after[at].room(Rung::Last) > 0)
}

fn last_step() -> Vec<Situation> {
    vec![
        turn("last step leaves a unit room", last_leaves),
        turn("last step out of deck order", |turn| {
            let order = last_candidates(turn);
            last_leaves(turn) && order.len() > 1 && order.windows(2).any(|pair| pair[0] > pair[1])
        }),
        turn("last step with a tie of averages", |turn| {
            let order = last_candidates(turn);
            let average = |at: usize| average(&turn.opened[at], Fault::None);
            let tied = |pair: &[usize]| compare(average(pair[0]), average(pair[1])).is_eq();
            let apart = |pair: &[usize]| {
                let room = |at: usize| turn.after[at].room(Rung::Last);
                room(pair[0]) != turn.opened[pair[0]].room(Rung::Last) && room(pair[1]) > 0
            };
            last_leaves(turn) && order.windows(2).any(|pair| tied(pair) && apart(pair))
        }),
        turn("last step stops within a unit", |turn| {
            let part = |&at: &usize| {
                let left = turn.after[at].room(Rung::Last);
                left > 0
                    && turn.after[at].room(Rung::Emergency) == 0
                    && turn.after[at].v < turn.opened[at].floor(Rung::Emergency)
            };
            turn.rung == Some(Rung::Last) && last_candidates(turn).iter().any(part)
        }),
    ]
}

fn last_floors() -> Vec<Situation> {
    vec![
        source("last step down to 0", |turn, opened, after| {
            turn.rung == Some(Rung::Last)
                && opened.v > 0
                && after.level() == 0
                && !is_purchase(after)
        }),
        source("last step down to b - D above 0", |turn, opened, after| {
            turn.rung == Some(Rung::Last)
                && after.v < opened.v
                && after.v > 0
                && after.room(Rung::Last) == 0
                && after.basic() > 0
        }),
    ]
}

pub fn all() -> Vec<Situation> {
    [ladder(), by_price(), last_step(), last_floors()]
        .into_iter()
        .flatten()
        .collect()
}
