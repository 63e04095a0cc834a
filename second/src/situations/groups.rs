//! What a group meets beside the ladder: credits, direct energy, shares.

use super::turns::{is_purchase, source, turn};
use super::{situation, Exam, Situation};
use crate::course::split;
use crate::faults::Fault;
use crate::group::{headroom, Turn};
use crate::hour::*;
use crate::units::State;

fn is_credit(turn: &Turn) -> bool {
    turn.remainder < 0 && turn.refused.is_none()
}

fn below_emergency(state: &State) -> bool {
    state
        .source
        .unit()
        .is_some_and(|unit| state.level() < unit.e)
}

fn credits() -> Vec<Situation> {
    vec![
        turn("credit", is_credit),
        turn("credit past a unit below e", |turn| {
            is_credit(turn) && turn.opened.iter().any(below_emergency)
        }),
        turn("credit equal to the headroom", |turn| {
            is_credit(turn) && headroom(&turn.opened) == -turn.remainder
        }),
        turn("13 by one MWh", |turn| {
            turn.refused == Some(13) && headroom(&turn.opened) == -turn.remainder - 1
        }),
        turn("13 for a unit below e", |turn| {
            turn.refused == Some(13) && turn.opened.iter().any(below_emergency)
        }),
        turn("credit in a group of several", |turn| {
            is_credit(turn) && turn.group.members.len() > 1
        }),
    ]
}

fn raised() -> Vec<Situation> {
    vec![
        source("credit raises a purchase", |_, opened, after| {
            is_purchase(after) && after.v > opened.v
        }),
        source("credit raises a purchase to g", |_, opened, after| {
            is_purchase(after) && after.v > opened.v && after.v == after.source.g
        }),
        source("credit with a purchase at g", |turn, opened, _| {
            is_credit(turn) && is_purchase(opened) && opened.v == opened.source.g
        }),
        source("credit raises a unit past g", |_, opened, after| {
            after.level() > opened.level() && after.level() > after.source.g
        }),
        source("credit raises a unit to h", |_, opened, after| {
            after.v > opened.v
                && after
                    .source
                    .unit()
                    .is_some_and(|unit| unit.h == after.level())
        }),
        source(
            "credit raises the unit directly taken",
            |_, opened, after| after.v > opened.v && after.d > 0,
        ),
        source("credit raises a unit at e", |_, opened, after| {
            after.v > opened.v
                && after
                    .source
                    .unit()
                    .is_some_and(|unit| unit.e == opened.level())
        }),
    ]
}

/// A D line met in some group, with its unit's state after the group's D lines.
fn taken(name: &str, holds: fn(&Turn, &State, i64) -> bool) -> Situation {
    turn(name, move |turn| {
        turn.taken
            .iter()
            .any(|taken| holds(turn, &turn.opened[taken.unit], taken.mwh))
    })
}

fn by_basis(name: &str, holds: fn(Basis) -> bool) -> Situation {
    situation(format!("direct by {name}"), move |exam| {
        exam.accepts(|hour| hour.directs.iter().any(|direct| holds(direct.basis)))
    })
}

fn lines_in_turn(turn: &Turn, state: &State) -> usize {
    let same = |unit: usize| turn.opened[unit].source.label == state.source.label;
    turn.taken.iter().filter(|taken| same(taken.unit)).count()
}

fn before<'a>(turn: &Turn<'a>, state: &State) -> Option<State<'a>> {
    turn.before
        .iter()
        .find(|before| before.source.label == state.source.label)
        .copied()
}

fn direct() -> Vec<Situation> {
    vec![
        by_basis("L", |basis| basis == Basis::Low),
        by_basis("G", |basis| basis == Basis::Generation),
        by_basis("a number", |basis| matches!(basis, Basis::Number(_))),
        taken("direct percent that rounds", |_, state, _| {
            state.basic() * state.percent % 100 != 0
        }),
        taken(
            "several D lines of a unit in one group",
            |turn, state, _| lines_in_turn(turn, state) > 1,
        ),
        taken(
            "several D lines and a share that rounds",
            |turn, state, _| {
                lines_in_turn(turn, state) > 1 && state.basic() * state.percent % 100 != 0
            },
        ),
    ]
}

fn basic_amounts() -> Vec<Situation> {
    vec![
        taken("b of an earlier group used", |turn, state, _| {
            before(turn, state).is_some_and(|before| before.b.is_some())
        }),
        taken(
            "b of an earlier group, v since lowered",
            |turn, state, _| {
                before(turn, state).is_some_and(|before| {
                    before
                        .b
                        .is_some_and(|b| before.level() < before.source.g && b > before.v)
                })
            },
        ),
        taken("b past g after a credit", |_, state, _| {
            state.basic() > state.source.g
        }),
        taken("b of 0", |_, state, _| state.b == Some(0)),
        taken("b below k", |_, state, _| {
            state
                .source
                .unit()
                .is_some_and(|unit| 0 < state.basic() && state.basic() < unit.k)
        }),
        taken("b less than the basis", |turn, state, _| {
            before(turn, state).is_some_and(|before| {
                before.b.is_none() && state.basic() == before.v && before.v < before.source.g
            })
        }),
    ]
}

fn direct_energy() -> Vec<Situation> {
    vec![
        taken("D line that takes 0 MWh", |_, state, mwh| {
            mwh == 0 && state.basic() > 0
        }),
        taken("direct energy in a group of several", |turn, _, mwh| {
            mwh > 0 && turn.group.members.len() > 1
        }),
        taken("D line on a unit raised past g", |turn, state, _| {
            before(turn, state)
                .is_some_and(|before| before.b.is_none() && before.v > before.source.g)
        }),
        taken("direct energy equal to the total", |turn, _, mwh| {
            mwh > 0 && turn.remainder == 0
        }),
    ]
}

/// Some amount of the turn would lose a part if each share rounded alone.
fn loses(turn: &Turn, hour: &Hour) -> bool {
    let weights: Vec<i64> = turn
        .group
        .members
        .iter()
        .map(|&at| hour.deliveries[at].mwh)
        .collect();
    turn.opened.iter().zip(&turn.after).any(|(opened, after)| {
        let moved = opened.v - after.v;
        split(moved, &weights, Fault::SharesAlone)
            .iter()
            .sum::<i64>()
            != moved
    })
}

fn empty(name: &str, holds: fn(&Turn) -> bool) -> Situation {
    turn(name, move |turn| {
        turn.group.total == 0 && turn.refused.is_none() && holds(turn)
    })
}

/// Some turn of an accepted hour.
fn member(name: &str, holds: fn(&Turn, &Hour) -> bool) -> Situation {
    situation(name, move |exam: &Exam| {
        let (Some(hour), Some(course)) = (exam.hour, exam.course) else {
            return false;
        };
        exam.accepted() && course.turns.iter().any(|turn| holds(turn, hour))
    })
}

fn shares() -> Vec<Situation> {
    vec![
        member("group of eight or more", |turn, _| {
            turn.group.members.len() >= 8
        }),
        member("member of 0 MWh in a group above 0", |turn, hour| {
            turn.group.total > 0
                && turn
                    .group
                    .members
                    .iter()
                    .any(|&at| hour.deliveries[at].mwh == 0)
        }),
        member("first member of 0 MWh in a group above 0", |turn, hour| {
            turn.group.total > 0 && hour.deliveries[turn.group.members[0]].mwh == 0
        }),
        member("shares that would lose a MWh alone", |turn, hour| {
            turn.group.total > 0 && loses(turn, hour)
        }),
        member("credit shares that would lose a MWh alone", |turn, hour| {
            turn.remainder < 0 && turn.group.total > 0 && loses(turn, hour)
        }),
    ]
}

fn empty_totals() -> Vec<Situation> {
    vec![
        empty("group total 0, one member", |turn| {
            turn.group.members.len() == 1
        }),
        empty("group total 0, several members", |turn| {
            turn.group.members.len() > 1
        }),
        empty("group total 0 with direct energy, one member", |turn| {
            turn.group.members.len() == 1 && turn.remainder < 0
        }),
        empty(
            "group total 0 with direct energy, several members",
            |turn| turn.group.members.len() > 1 && turn.remainder < 0,
        ),
    ]
}

pub fn all() -> Vec<Situation> {
    let lists = [
        credits(),
        raised(),
        direct(),
        basic_amounts(),
        direct_energy(),
        shares(),
        empty_totals(),
    ];
    lists.into_iter().flatten().collect()
}
