//! Each refusal, where it stands, and what stands beside it.

use super::{situation, Exam, Situation};
use crate::deck::Met;
use crate::faults::Fault;
use crate::generate::spoiled::{Where, FORM_WITH, PAIRS, PLACES};
use crate::generate::{damage, labels};
use crate::hour::Refusal;

/// The first line that can meet a refusal.
fn earliest(number: u8) -> i64 {
    match number {
        2 | 3 => 1,
        4 => 34,
        5 => 3,
        6 | 7 => 2,
        8 => 4,
        _ => 5,
    }
}

fn stands(exam: &Exam, number: u8, at: Where) -> bool {
    let Some(Refusal { number: met, place }) = exam.refused else {
        return false;
    };
    let next = exam.lines.get(place as usize).copied();
    let last = next == Some(b"E\n") && exam.lines.len() as i64 == place + 1;
    let holds = match at {
        Where::First => place == earliest(number),
        Where::Last => last,
        Where::Middle => place > earliest(number) && next.is_some() && !last,
    };
    met == number && holds
}

/// The line 2 was met at, with the one before it.
fn line_of_two<'a>(exam: &Exam<'a>) -> Option<(Option<&'a [u8]>, Option<&'a [u8]>)> {
    let refusal = exam.refused.filter(|refusal| refusal.number == 2)?;
    let at = refusal.place as usize;
    let before = at.checked_sub(2).and_then(|before| exam.lines.get(before));
    Some((before.copied(), exam.lines.get(at - 1).copied()))
}

fn ends_of_deck() -> Vec<Situation> {
    let at_two = |holds: fn(Option<&[u8]>, Option<&[u8]>) -> bool| {
        move |exam: &Exam| line_of_two(exam).is_some_and(|(before, line)| holds(before, line))
    };
    vec![
        situation(
            "2 at E",
            at_two(|_, line| line.is_some_and(|line| line.starts_with(b"E") || line == b"e\n")),
        ),
        situation(
            "2 past E",
            at_two(|before, line| before == Some(b"E\n") && line.is_some()),
        ),
        situation(
            "2 for a missing E",
            at_two(|before, line| before.is_some() && line.is_none()),
        ),
        situation(
            "2 for a missing LF",
            at_two(|_, line| line.is_some_and(|line| !line.ends_with(b"\n"))),
        ),
        situation(
            "2 for a missing LF of E",
            at_two(|_, line| line == Some(b"E")),
        ),
        situation("2 for an empty deck", |exam| {
            exam.deck.is_empty() && exam.refused_by(2)
        }),
    ]
}

fn groups() -> Vec<Situation> {
    let at = |number: u8, holds: fn(usize, usize) -> bool| {
        move |exam: &Exam| {
            let Some(course) = exam.course else {
                return false;
            };
            exam.refused_by(number) && holds(course.turns.len(), course.groups)
        }
    };
    let mut all = Vec::new();
    for number in [12, 13] {
        all.push(situation(
            format!("{number} in the first group of several"),
            at(number, |at, of| at == 1 && of > 1),
        ));
        all.push(situation(
            format!("{number} in a middle group"),
            at(number, |at, of| 1 < at && at < of),
        ));
        all.push(situation(
            format!("{number} in the last group of several"),
            at(number, |at, of| at == of && of > 1),
        ));
    }
    all
}

fn first_met(exam: &Exam) -> Option<Met> {
    exam.survey.faulty.first().map(|&(_, met)| met)
}

fn pairs() -> Vec<Situation> {
    let mut all: Vec<Situation> = PAIRS
        .iter()
        .map(|&(one, other)| {
            situation(format!("{one} and {other} on one line"), move |exam| {
                let both = |met: Met| met.has(one) && met.has(other);
                exam.refused_by(one) && first_met(exam).is_some_and(both)
            })
        })
        .collect();
    for (at, &tag) in FORM_WITH.iter().enumerate() {
        let name = format!("2 by form and {} on one line", at + 3);
        all.push(situation(name, move |exam| {
            exam.tag == Some(tag) && exam.refused_by(2)
        }));
    }
    all
}

/// The numbers of the first two faulty lines.
fn two_lines(exam: &Exam) -> Option<(u8, u8)> {
    let mut lines = exam.survey.faulty.iter();
    let mut number = || lines.next().map(|(_, met)| met.first(Fault::None));
    Some((number()?, number()?))
}

fn together() -> Vec<Situation> {
    let short = |exam: &Exam| {
        let hour = &exam.survey.hour;
        hour.losses + hour.delivered() > hour.generation()
    };
    let unplaced = |exam: &Exam| {
        let deliveries = &exam.survey.hour.deliveries;
        !deliveries.is_empty() && deliveries.iter().all(|delivery| delivery.sequence == 0)
    };
    vec![
        situation("two faulty lines, the earlier of greater number", |exam| {
            two_lines(exam).is_some_and(|(first, second)| first > second)
        }),
        situation("two faulty lines, the earlier of lesser number", |exam| {
            two_lines(exam).is_some_and(|(first, second)| first < second)
        }),
        situation("a faulty line with 10", move |exam| {
            !exam.survey.faulty.is_empty() && short(exam)
        }),
        situation("a faulty line with 11", move |exam| {
            !exam.survey.faulty.is_empty() && unplaced(exam)
        }),
        situation("10 with 11", move |exam| {
            exam.refused_by(10) && unplaced(exam)
        }),
        situation("1 with a faulty line", |exam| {
            exam.refused_by(1) && !exam.survey.faulty.is_empty()
        }),
    ]
}

fn balance() -> Vec<Situation> {
    vec![
        situation("10 by one MWh", |exam| {
            let hour = &exam.survey.hour;
            exam.refused_by(10) && hour.losses + hour.delivered() == hour.generation() + 1
        }),
        situation("10's equality passes", |exam| {
            exam.accepts(|hour| {
                hour.generation() > 0 && hour.losses + hour.delivered() == hour.generation()
            })
        }),
        situation("10's equality passes by firm energy", |exam| {
            exam.accepts(|hour| {
                let firm = hour
                    .sources
                    .iter()
                    .any(|source| source.is_firm() && source.g > 0);
                firm && hour.losses + hour.delivered() == hour.generation()
            })
        }),
    ]
}

fn elevens() -> Vec<Situation> {
    let at = |holds: fn(i64, usize) -> bool| {
        move |exam: &Exam| {
            let place = exam.refused.map_or(0, |refusal| refusal.place);
            exam.refused_by(11) && holds(place, exam.lines.len())
        }
    };
    vec![
        situation("11 at line 2", at(|place, _| place == 2)),
        situation(
            "11 at a middle line",
            at(|place, lines| place > 2 && place as usize + 1 < lines),
        ),
        situation(
            "11 at the last line before E",
            at(|place, lines| place as usize + 1 == lines),
        ),
    ]
}

pub fn all() -> Vec<Situation> {
    let mut all = vec![situation("accepted", |exam| exam.accepted())];
    for number in 1..=13 {
        all.push(situation(format!("refused {number}"), move |exam| {
            exam.refused_by(number)
        }));
    }
    for number in 2..=9 {
        for at in PLACES {
            let place = match at {
                Where::First => "the earliest line",
                Where::Middle => "a middle line",
                Where::Last => "the last line before E",
            };
            all.push(situation(format!("{number} at {place}"), move |exam| {
                stands(exam, number, at)
            }));
        }
    }
    all.extend(ends_of_deck());
    all.extend(elevens());
    all.extend(groups());
    all.extend(pairs());
    all.extend(together());
    all.extend(balance());
    for tag in damage::tags().into_iter().chain(labels::none_tags()) {
        all.push(situation(format!("bytes: {tag}"), move |exam| {
            exam.tag == Some(tag)
        }));
    }
    all
}
