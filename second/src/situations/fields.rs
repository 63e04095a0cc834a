//! Fields at the ends of their ranges, levels, percents, bases, counts.

use super::{situation, Exam, Situation};
use crate::deck::Met;
use crate::generate::limits::{fields, value, End, ENDS};
use crate::hour::*;
use crate::lines::{Field, Line};

fn at_end(exam: &Exam, letter: u8, place: usize, number: i64) -> bool {
    let has = |line: &Line| line.letter == letter && line.fields[place] == Field::Number(number);
    exam.forms.iter().flatten().any(has)
}

fn ends() -> Vec<Situation> {
    let mut all = Vec::new();
    for (letter, place, range) in fields() {
        for end in ENDS {
            let number = value(end, range);
            if number < 0 {
                continue;
            }
            let inside = matches!(end, End::Least | End::Most);
            let name = format!("{} field {} at {number}", letter as char, place + 1);
            all.push(situation(name, move |exam| {
                let judged = if inside {
                    exam.accepted()
                } else {
                    exam.refused_by(3)
                };
                judged && at_end(exam, letter, place, number)
            }));
        }
    }
    all
}

fn any_unit(hour: &Hour, holds: impl Fn(i64, &Unit) -> bool) -> bool {
    hour.sources
        .iter()
        .any(|source| source.unit().is_some_and(|unit| holds(source.g, unit)))
}

fn levels() -> Vec<Situation> {
    let equal = |name: &str, holds: fn(i64, &Unit) -> bool| {
        situation(format!("{name} passes"), move |exam| {
            exam.accepts(|hour| any_unit(hour, holds))
        })
    };
    let below = |name: &str, one: usize, other: usize| {
        situation(format!("{name} is 6"), move |exam| {
            let Some(line) = faulty_line(exam) else {
                return false;
            };
            exam.refused_by(6) && line.number(one) == line.number(other) - 1
        })
    };
    vec![
        equal("h = g", |g, unit| unit.h == g),
        equal("g = n", |g, unit| g == unit.n),
        equal("n = o", |_, unit| unit.n == unit.o),
        equal("o = e", |_, unit| unit.o == unit.e),
        equal("e = k", |_, unit| unit.e == unit.k),
        below("h = g - 1", 1, 0),
        below("g = n - 1", 0, 2),
        below("n = o - 1", 2, 3),
        below("o = e - 1", 3, 4),
        below("e = k - 1", 4, 5),
    ]
}

/// The line a reading refused, where it has its form.
fn faulty_line<'a>(exam: &'a Exam) -> Option<&'a Line> {
    let &(place, _) = exam.survey.faulty.first()?;
    exam.forms.get(place as usize - 1)?.as_ref()
}

fn percent_before(exam: &Exam, label: &[u8]) -> i64 {
    let hour = &exam.survey.hour;
    let named = hour
        .directs
        .iter()
        .filter(|direct| hour.sources[direct.unit].label == label);
    named.map(|direct| direct.percent).sum()
}

fn names(exam: &Exam, holds: fn(&Source) -> bool) -> bool {
    let Some(line) = faulty_line(exam) else {
        return false;
    };
    let mut sources = exam.survey.hour.sources.iter();
    exam.refused_by(7) && sources.any(|source| source.label == line.label(2) && holds(source))
}

fn percents() -> Vec<Situation> {
    vec![
        situation("percents reach 100", |exam| {
            exam.accepts(|hour| {
                let of = |unit| {
                    hour.directs
                        .iter()
                        .filter(move |direct| direct.unit == unit)
                };
                (0..hour.sources.len()).any(|unit| {
                    of(unit).count() > 1
                        && of(unit).map(|direct| direct.percent).sum::<i64>() == 100
                })
            })
        }),
        situation("percents pass 100 by one", |exam| {
            let Some(line) = faulty_line(exam) else {
                return false;
            };
            exam.refused_by(9) && percent_before(exam, line.label(2)) + line.number(1) == 101
        }),
    ]
}

fn bases() -> Vec<Situation> {
    vec![
        situation("a basis of h is 8", |exam| {
            let Some(line) = faulty_line(exam) else {
                return false;
            };
            let high = |source: &Source| source.unit().is_some_and(|unit| unit.h == line.number(0));
            exam.refused_by(8) && exam.survey.hour.sources.iter().any(high)
        }),
        situation("a basis of h - 1 passes", |exam| {
            exam.accepts(|hour| {
                on_directs(hour, |basis, _, unit| basis == Basis::Number(unit.h - 1))
            })
        }),
        situation("basis G with g = h passes", |exam| {
            exam.accepts(|hour| {
                on_directs(hour, |basis, g, unit| {
                    basis == Basis::Generation && g == unit.h
                })
            })
        }),
        situation("basis L and then the number n is 8", |exam| {
            basis_as_number(exam)
        }),
        situation("a basis other than the earlier is 8", |exam| {
            exam.refused_by(8) && has_earlier(exam)
        }),
    ]
}

fn names_and_repeats() -> Vec<Situation> {
    vec![
        situation("D names a purchase", |exam| {
            names(exam, |source| {
                matches!(source.nature, Nature::Purchase { .. })
            })
        }),
        situation("D names a firm source", |exam| names(exam, Source::is_firm)),
        situation("D names no delivery", |exam| {
            names(exam, |source| source.unit().is_some())
        }),
        situation("D lines that repeat", |exam| {
            exam.accepts(|hour| {
                (1..hour.directs.len()).any(|at| hour.directs[..at].contains(&hour.directs[at]))
            })
        }),
    ]
}

fn on_directs(hour: &Hour, holds: fn(Basis, i64, &Unit) -> bool) -> bool {
    hour.directs.iter().any(|direct| {
        let source = &hour.sources[direct.unit];
        source
            .unit()
            .is_some_and(|unit| holds(direct.basis, source.g, unit))
    })
}

fn has_earlier(exam: &Exam) -> bool {
    faulty_line(exam).is_some_and(|line| percent_before(exam, line.label(2)) > 0)
}

fn basis_as_number(exam: &Exam) -> bool {
    let Some(line) = faulty_line(exam) else {
        return false;
    };
    let hour = &exam.survey.hour;
    exam.refused_by(8)
        && hour.directs.iter().any(|direct| {
            let source = &hour.sources[direct.unit];
            let low = source.unit().map(|unit| unit.n);
            source.label == line.label(2)
                && direct.basis == Basis::Low
                && low == Some(line.number(0))
        })
}

fn sizes(sources: usize, deliveries: usize, directs: usize) -> Situation {
    let name = format!("an hour of {sources}/{deliveries}/{directs}");
    situation(name, move |exam| {
        exam.accepts(|hour| {
            let of = (
                hour.sources.len(),
                hour.deliveries.len(),
                hour.directs.len(),
            );
            of == (sources, deliveries, directs)
        })
    })
}

fn thirty_third(letter: u8) -> Situation {
    let name = format!("4 at a thirty-third {}", letter as char);
    situation(name, move |exam| {
        exam.refused_by(4) && faulty_line(exam).is_some_and(|line| line.letter == letter)
    })
}

fn alone(number: u8) -> Situation {
    situation(format!("{number} alone on its line"), move |exam| {
        let first = exam.survey.faulty.first();
        first.is_some_and(|&(_, met)| met == Met::only(number))
    })
}

fn counts() -> Vec<Situation> {
    vec![
        sizes(0, 0, 0),
        sizes(0, 1, 0),
        sizes(1, 0, 0),
        sizes(32, 32, 32),
        situation("fourteen groups or more", |exam| {
            exam.accepted() && exam.course.is_some_and(|course| course.groups >= 14)
        }),
        situation("accepted deck of 7,018 bytes", |exam| {
            exam.deck.len() == 7_018 && exam.accepted()
        }),
        situation("deck of 8,192 bytes", |exam| {
            exam.deck.len() == MOST_BYTES && exam.refused.is_some()
        }),
        situation("deck of 8,193 bytes", |exam| {
            exam.deck.len() == MOST_BYTES + 1 && exam.refused_by(1)
        }),
        situation("2,000 MWh delivered or more", |exam| {
            exam.accepts(|hour| hour.delivered() >= 2_000)
        }),
        situation("50,000 MWh delivered or more", |exam| {
            exam.accepts(|hour| hour.delivered() >= 50_000)
        }),
    ]
}

pub fn all() -> Vec<Situation> {
    let mut all = ends();
    all.extend(levels());
    all.extend(percents());
    all.extend(bases());
    all.extend(names_and_repeats());
    all.extend(counts());
    all.extend(b"UPFTD".map(thirty_third));
    all.extend((2..=9).map(alone));
    all
}
