//! Situations found in some turn, or in some source in a turn.

use super::{situation, Exam, Situation};
use crate::group::Turn;
use crate::hour::Nature;
use crate::units::State;

/// Some turn of the hour for which this holds.
pub fn turn(name: impl Into<String>, holds: impl Fn(&Turn) -> bool + 'static) -> Situation {
    situation(name, move |exam: &Exam| {
        exam.course
            .is_some_and(|course| course.turns.iter().any(&holds))
    })
}

/// Some source in some turn: opened and after.
pub fn source(name: &str, holds: fn(&Turn, &State, &State) -> bool) -> Situation {
    turn(name, move |turn| {
        let mut pairs = turn.opened.iter().zip(&turn.after);
        turn.refused.is_none() && pairs.any(|(opened, after)| holds(turn, opened, after))
    })
}

pub fn is_purchase(state: &State) -> bool {
    matches!(state.source.nature, Nature::Purchase { .. })
}
