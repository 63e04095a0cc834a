//! Situations a generated deck can bring about, each found in the deck itself.

mod fields;
mod groups;
mod labels;
mod ladder;
mod placing;
mod refusals;
mod turns;

use crate::course::{course, Course};
use crate::deck::{read, survey, Survey};
use crate::faults::Fault;
use crate::generate::Made;
use crate::hour::*;
use crate::lines::{form, split, Line};

/// A deck with all that is known of it.
pub struct Exam<'a> {
    pub deck: &'a [u8],
    pub tag: Option<&'static str>,
    pub lines: Vec<&'a [u8]>,
    pub forms: Vec<Option<Line>>,
    pub survey: &'a Survey,
    pub hour: Option<&'a Hour>,
    pub course: Option<&'a Course<'a>>,
    /// The refusal of reading or else of reckoning.
    pub refused: Option<Refusal>,
}

impl Exam<'_> {
    pub fn refused_by(&self, number: u8) -> bool {
        self.refused.is_some_and(|refusal| refusal.number == number)
    }

    pub fn accepted(&self) -> bool {
        self.refused.is_none()
    }

    /// An accepted hour for which this holds.
    pub fn accepts(&self, holds: impl Fn(&Hour) -> bool) -> bool {
        self.accepted() && self.hour.is_some_and(holds)
    }
}

pub struct Situation {
    pub name: String,
    pub holds: Box<dyn Fn(&Exam) -> bool>,
}

fn situation(name: impl Into<String>, holds: impl Fn(&Exam) -> bool + 'static) -> Situation {
    Situation {
        name: name.into(),
        holds: Box::new(holds),
    }
}

pub fn all() -> Vec<Situation> {
    let mut all = refusals::all();
    all.extend(fields::all());
    all.extend(labels::all());
    all.extend(placing::all());
    all.extend(ladder::all());
    all.extend(groups::all());
    all
}

/// Adds one to the count of every situation the deck brings about.
pub fn count(made: &Made, situations: &[Situation], counts: &mut [u64]) {
    let survey = survey(&made.deck, Fault::None);
    let hour = read(&made.deck, Fault::None);
    let course = hour.as_ref().ok().map(|hour| course(hour, Fault::None));
    let lines: Vec<&[u8]> = split(&made.deck).collect();
    let bare = |line: &&[u8]| form(line.strip_suffix(b"\n").unwrap_or(line), Fault::None).ok();
    let exam = Exam {
        deck: &made.deck,
        tag: made.tag,
        forms: lines.iter().map(bare).collect(),
        lines,
        survey: &survey,
        hour: hour.as_ref().ok(),
        course: course.as_ref(),
        refused: hour
            .as_ref()
            .err()
            .copied()
            .or(course.as_ref().and_then(|course| course.refused)),
    };
    for (situation, count) in situations.iter().zip(counts) {
        *count += u64::from((situation.holds)(&exam));
    }
}
