//! Labels that are easily confused, in accepted hours.

use super::{situation, Exam, Situation};
use crate::hour::*;

fn labels(hour: &Hour) -> [Vec<&Label>; 2] {
    [
        hour.sources.iter().map(|source| &source.label).collect(),
        hour.deliveries
            .iter()
            .map(|delivery| &delivery.label)
            .collect(),
    ]
}

fn any(name: &str, holds: fn(&Label) -> bool) -> Situation {
    situation(format!("label {name}"), move |exam: &Exam| {
        exam.accepts(|hour| labels(hour).concat().into_iter().any(holds))
    })
}

/// Two labels of one class.
fn two(name: &str, holds: fn(&[u8], &[u8]) -> bool) -> Situation {
    situation(format!("two labels {name}"), move |exam: &Exam| {
        exam.accepts(|hour| {
            labels(hour).iter().any(|class| {
                let pairs = class
                    .iter()
                    .flat_map(|one| class.iter().map(move |other| (one, other)));
                pairs
                    .into_iter()
                    .any(|(one, other)| one != other && holds(one, other))
            })
        })
    })
}

fn is_escaped(byte: u8) -> bool {
    byte == b'"' || byte == b'\\'
}

pub fn all() -> Vec<Situation> {
    vec![
        any("of one space", |label| label == b" "),
        any("of spaces only", |label| {
            label.len() > 1 && label.iter().all(|&byte| byte == b' ')
        }),
        any("with a leading space", |label| label.starts_with(b" ")),
        any("with a trailing space", |label| label.ends_with(b" ")),
        any("with a quote", |label| label.contains(&b'"')),
        any("with a backslash", |label| label.contains(&b'\\')),
        any("of 16 characters", |label| label.len() == 16),
        any("of 16 escaped characters", |label| {
            label.len() == 16 && label.iter().all(|&byte| is_escaped(byte))
        }),
        two("apart by a trailing space", |one, other| {
            one == [other, b" "].concat()
        }),
        two("apart by a leading space", |one, other| {
            one == [b" ", other].concat()
        }),
        two("apart by case", |one, other| {
            one.eq_ignore_ascii_case(other)
        }),
        two("of which one starts the other", |one, other| {
            other.starts_with(one) && !other.ends_with(b" ")
        }),
        situation("a source and a delivery of one label", |exam| {
            exam.accepts(|hour| {
                let [sources, deliveries] = labels(hour);
                sources.iter().any(|label| deliveries.contains(label))
            })
        }),
    ]
}
