//! Situations a generated file can bring about.

use super::faults::FileFault;
use super::read;
use crate::allocations::{Allocations, DeliveryLine, InternalLine};
use crate::generate::files::{damages, MadeFile, Outcome};
use crate::hour::{Label, Refusal, MOST_BYTES};

/// A file with all that is known of it.
pub struct Exam<'a> {
    made: &'a MadeFile,
    /// The bytes up to each LF, with what is left after the last.
    records: Vec<&'a [u8]>,
    read: Result<Allocations, Refusal>,
}

impl Exam<'_> {
    pub fn of(made: &MadeFile) -> Exam<'_> {
        Exam {
            made,
            records: made.file.split_inclusive(|&byte| byte == b'\n').collect(),
            read: read::file(&made.file, FileFault::None),
        }
    }

    fn accepts(&self, holds: impl Fn(&Allocations) -> bool) -> bool {
        self.read.as_ref().is_ok_and(holds)
    }

    /// Whether the file is refused at a place for which this holds.
    fn refused(&self, holds: impl Fn(usize) -> bool) -> bool {
        let place = self.read.as_ref().err().map(|refusal| refusal.place);
        place.is_some_and(|place| holds(place as usize))
    }

    /// The record before a place.
    fn before(&self, place: usize) -> Option<&[u8]> {
        self.records.get(place.checked_sub(2)?).copied()
    }
}

pub struct Situation {
    pub name: String,
    pub holds: Box<dyn Fn(&Exam) -> bool>,
}

fn situation(name: impl Into<String>, holds: impl Fn(&Exam) -> bool + 'static) -> Situation {
    Situation {
        name: name.into(),
        holds: Box::new(holds),
    }
}

pub fn all() -> Vec<Situation> {
    let mut all = outcomes();
    all.extend(places());
    all.extend(labels());
    all.extend(numbers());
    all.extend(lists());
    all
}

/// Good files, and every damage with what it can do.
fn outcomes() -> Vec<Situation> {
    let mut all = vec![situation("good file", |exam| {
        exam.made.tag.is_none() && exam.read.is_ok()
    })];
    for (tag, outcome) in damages() {
        if outcome != Outcome::OtherLines {
            all.push(situation(format!("{tag}, refused"), move |exam| {
                exam.made.tag == Some(tag) && exam.read.is_err()
            }));
        }
        if outcome != Outcome::Refused {
            all.push(situation(format!("{tag}, read"), move |exam| {
                exam.made.tag == Some(tag) && exam.read.is_ok()
            }));
        }
    }
    all
}

const LAST_RECORD: &[u8] = b"end,,,,,,,\r\n";

fn places() -> Vec<Situation> {
    vec![
        situation("refused at 1", |exam| exam.refused(|place| place == 1)),
        situation("refused at 2", |exam| exam.refused(|place| place == 2)),
        situation("refused at 3", |exam| exam.refused(|place| place == 3)),
        situation("refused past 3", |exam| exam.refused(|place| place > 3)),
        situation("refused past 1,000", |exam| {
            exam.refused(|place| place > 1_000)
        }),
        situation("refused for a missing record", |exam| {
            exam.refused(|place| place == exam.records.len() + 1)
        }),
        situation("refused for a record cut off", |exam| {
            let cut = exam
                .records
                .last()
                .is_some_and(|last| !last.ends_with(b"\n"));
            cut && exam.refused(|place| place == exam.records.len())
        }),
        situation("refused after the end", |exam| {
            exam.refused(|place| exam.before(place) == Some(LAST_RECORD))
        }),
    ]
}

/// A column of labels: its name and the labels of lines in it.
type Labels = (&'static str, fn(&Allocations) -> Vec<&Label>);

const LABELS: &[Labels] = &[
    ("delivery", |lines| {
        lines.deliveries.iter().map(|line| &line.delivery).collect()
    }),
    ("source", |lines| {
        lines.deliveries.iter().map(|line| &line.source).collect()
    }),
    ("internal", |lines| {
        lines.internals.iter().map(|line| &line.source).collect()
    }),
];

type LabelKind = (&'static str, fn(&Label) -> bool);

const LABEL_KINDS: &[LabelKind] = &[
    ("of one character", |label| label.len() == 1),
    ("of 16 characters", |label| label.len() == 16),
    ("of one space", |label| label == b" "),
    ("with a leading space", |label| label.starts_with(b" ")),
    ("with a trailing space", |label| label.ends_with(b" ")),
    ("with a comma", |label| label.contains(&b',')),
    ("with a quote", |label| label.contains(&b'"')),
    ("of quotes only", |label| {
        label.iter().all(|&byte| byte == b'"')
    }),
    ("of 16 quotes", |label| *label == [b'"'; 16]),
    ("with a backslash", |label| label.contains(&b'\\')),
    ("with a backslash at its end", |label| {
        label.ends_with(b"\\")
    }),
    ("with a quote after a backslash", |label| {
        label.windows(2).any(|pair| pair == b"\\\"")
    }),
    ("with a comma after a quote", |label| {
        label.windows(2).any(|pair| pair == b"\",")
    }),
    ("with character 126", |label| label.contains(&b'~')),
];

fn labels() -> Vec<Situation> {
    let mut all = Vec::new();
    for &(column, labels) in LABELS {
        for &(kind, is) in LABEL_KINDS {
            all.push(situation(format!("{column} {kind}"), move |exam| {
                exam.accepts(|lines| labels(lines).into_iter().any(is))
            }));
        }
    }
    all
}

/// The columns of numbers, each with its name.
fn columns(lines: &Allocations) -> Vec<(&'static str, Vec<i64>)> {
    let of_deliveries =
        |number: fn(&DeliveryLine) -> i64| lines.deliveries.iter().map(number).collect();
    let of_internals =
        |number: fn(&InternalLine) -> i64| lines.internals.iter().map(number).collect();
    vec![
        ("hour n1", vec![lines.hour[0]]),
        ("hour n2", vec![lines.hour[1]]),
        ("hour n3", vec![lines.hour[2]]),
        ("hour n4", vec![lines.hour[3]]),
        ("delivery number", of_deliveries(|line| line.number)),
        ("delivery n1", of_deliveries(|line| line.amounts[0])),
        ("delivery n2", of_deliveries(|line| line.amounts[1])),
        ("delivery n3", of_deliveries(|line| line.amounts[2])),
        ("internal n1", of_internals(|line| line.amounts[0])),
        ("internal n2", of_internals(|line| line.amounts[1])),
    ]
}

type NumberKind = (&'static str, fn(i64) -> bool);

const NUMBER_KINDS: &[NumberKind] = &[
    ("at -2^63", |number| number == i64::MIN),
    ("at 2^63 - 1", |number| number == i64::MAX),
    ("at 0", |number| number == 0),
    ("at -1", |number| number == -1),
    ("of 19 digits", |number| {
        number.unsigned_abs() >= 1_000_000_000_000_000_000
    }),
];

fn numbers() -> Vec<Situation> {
    let mut all = Vec::new();
    for (at, (column, _)) in columns(&Allocations::default()).into_iter().enumerate() {
        for &(kind, is) in NUMBER_KINDS {
            all.push(situation(format!("{column} {kind}"), move |exam| {
                exam.accepts(|lines| columns(lines)[at].1.iter().any(|&number| is(number)))
            }));
        }
    }
    all
}

fn list(name: &str, holds: fn(&Allocations) -> bool) -> Situation {
    situation(name, move |exam: &Exam| exam.accepts(holds))
}

fn lists() -> Vec<Situation> {
    vec![
        list("no delivery", |lines| lines.deliveries.is_empty()),
        list("no internal", |lines| lines.internals.is_empty()),
        list("hour and end alone", |lines| {
            lines.deliveries.is_empty() && lines.internals.is_empty()
        }),
        list("deliveries without internals", |lines| {
            !lines.deliveries.is_empty() && lines.internals.is_empty()
        }),
        list("internals without deliveries", |lines| {
            lines.deliveries.is_empty() && !lines.internals.is_empty()
        }),
        list("1,024 deliveries", |lines| lines.deliveries.len() == 1_024),
        list("over 1,024 deliveries", |lines| {
            lines.deliveries.len() > 1_024
        }),
        list("32 internals", |lines| lines.internals.len() == 32),
        list("over 32 internals", |lines| lines.internals.len() > 32),
        list("hour that adds up", adds_up),
        list("hour that does not add up", |lines| !adds_up(lines)),
        list("internals of one label", |lines| {
            let labels: Vec<&Label> = lines.internals.iter().map(|line| &line.source).collect();
            (1..labels.len()).any(|at| labels[..at].contains(&labels[at]))
        }),
        list("delivery of its source's label", |lines| {
            lines
                .deliveries
                .iter()
                .any(|line| line.delivery == line.source)
        }),
        situation("longer than a deck", |exam| {
            exam.read.is_ok() && exam.made.file.len() > MOST_BYTES
        }),
        situation("longer than 65,536 bytes", |exam| {
            exam.read.is_ok() && exam.made.file.len() > 65_536
        }),
    ]
}

fn adds_up(lines: &Allocations) -> bool {
    let [generation, losses, delivered, internal] = lines.hour.map(i128::from);
    generation == losses + delivered + internal
}
