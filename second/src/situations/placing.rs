//! How deliveries of sequence 0 came by their numbers.

use super::{situation, Exam, Situation};
use crate::course::Course;
use crate::faults::Fault;
use crate::hour::Delivery;
use crate::sequence::{place, Placed};

/// A placed delivery of an accepted hour, with its rule.
fn placed(exam: &Exam, holds: impl Fn(&Delivery, char) -> bool) -> bool {
    let (Some(hour), Some(course)) = (exam.hour, exam.course) else {
        return false;
    };
    let mut pairs = hour.deliveries.iter().zip(&course.placed);
    exam.accepted()
        && pairs.any(|(delivery, &(_, how))| match how {
            Placed::Rule(rule) => holds(delivery, rule),
            Placed::Given => false,
        })
}

/// The numbers would be others under a fault.
fn differs(exam: &Exam, fault: Fault) -> bool {
    let (Some(hour), Some(course)) = (exam.hour, exam.course) else {
        return false;
    };
    exam.accepted() && place(hour, fault) != course.placed
}

fn shared_by_rules(exam: &Exam) -> bool {
    let Some(course) = exam.course else {
        return false;
    };
    let others = |one: &(i64, Placed)| {
        let one = *one;
        course
            .placed
            .iter()
            .any(move |other| other.0 == one.0 && other.1 != one.1)
    };
    exam.accepted() && course.placed.iter().any(others)
}

fn at_number(name: &str, internal: i64) -> Situation {
    situation(name, move |exam: &Exam| {
        let has = |course: &Course| course.placed.iter().any(|placed| placed.0 == internal);
        exam.accepted() && exam.course.is_some_and(has)
    })
}

pub fn all() -> Vec<Situation> {
    let mut all: Vec<Situation> = ['a', 'b', 'c', 'd', 'e']
        .into_iter()
        .map(|rule| {
            situation(format!("placed by {rule}"), move |exam| {
                placed(exam, |_, known| known == rule)
            })
        })
        .collect();
    all.extend([
        situation("placed to one number by two rules", shared_by_rules),
        situation("two deliveries placed to one number", |exam| {
            differs_in_groups(exam)
        }),
        situation("placed from block 9 past b", |exam| {
            placed(exam, |zero, rule| zero.block == 9 && rule > 'b')
        }),
        situation("placed from block 1 past c", |exam| {
            placed(exam, |zero, rule| zero.block == 1 && rule > 'c')
        }),
        situation("placed by a delivery of 0 MWh", |exam| {
            differs(exam, Fault::EmptyPlacesNone)
        }),
        situation("placed otherwise if a placed one counted", |exam| {
            differs(exam, Fault::PlacedPlaces)
        }),
        at_number("placed above 99 times ten", 991),
        at_number("placed at 9", 9),
    ]);
    all
}

fn differs_in_groups(exam: &Exam) -> bool {
    let (Some(hour), Some(course)) = (exam.hour, exam.course) else {
        return false;
    };
    let several = |members: &[usize]| {
        members
            .iter()
            .filter(|&&at| hour.deliveries[at].sequence == 0)
            .count()
            > 1
    };
    exam.accepted() && course.turns.iter().any(|turn| several(&turn.group.members))
}
