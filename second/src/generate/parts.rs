//! Random sources, deliveries and D lines, and hours made of them.

use crate::course::course;
use crate::draw::Draw;
use crate::faults::Fault;
use crate::hour::*;

/// How large an hour is to be.
#[derive(Clone, Copy)]
pub struct Size {
    pub sources: (i64, i64),
    pub deliveries: (i64, i64),
    pub directs: (i64, i64),
    pub level: i64,
    pub groups: i64,
}

pub const TINY: Size = Size {
    sources: (1, 3),
    deliveries: (1, 3),
    directs: (0, 2),
    level: 24,
    groups: 3,
};
pub const SMALL: Size = Size {
    sources: (1, 5),
    deliveries: (1, 6),
    directs: (0, 4),
    level: 120,
    groups: 4,
};
pub const MIDDLE: Size = Size {
    sources: (6, 15),
    deliveries: (4, 14),
    directs: (0, 12),
    level: 160,
    groups: 8,
};
pub const FULL: Size = Size {
    sources: (32, 32),
    deliveries: (32, 32),
    directs: (32, 32),
    level: 80,
    groups: 16,
};
pub const HUGE: Size = Size {
    sources: (20, 32),
    deliveries: (16, 32),
    directs: (0, 32),
    level: 2000,
    groups: 16,
};
pub const HEAVY: Size = Size {
    sources: (1, 6),
    deliveries: (1, 6),
    directs: (0, 6),
    level: 2000,
    groups: 4,
};

pub fn name(letter: char, number: usize) -> Label {
    format!("{letter}{number}").into_bytes()
}

/// A curve's A, B, C, R: grids that tie, small odd ones, flat ones, any.
fn coefficients(draw: &mut Draw) -> [i64; 4] {
    match draw.below(8) {
        0 => [
            draw.between(0, 99_999),
            draw.between(8_990, 9_010),
            10,
            10_000,
        ],
        1 => [
            draw.between(0, 5),
            draw.between(0, 3),
            draw.between(0, 2),
            draw.between(1, 3),
        ],
        2 => [draw.between(0, 60), draw.between(0, 9), 0, 2_000],
        3 => [draw.between(0, 9), 0, 0, draw.pick(&[0, 1, 7, 2_000])],
        4 => [
            draw.between(0, 999_999),
            draw.between(0, 99_999),
            draw.between(0, 99),
            draw.between(0, 39_996),
        ],
        _ => [
            draw.between(0, 60),
            draw.between(0, 9),
            draw.between(1, 2),
            draw.pick(&[1_000, 2_000]),
        ],
    }
}

/// The fields of a U line from the highest level to the lowest.
pub const FALLING: [usize; 6] = [1, 0, 2, 3, 4, 5];

/// Six falling levels h, g, n, o, e, k, often with equal neighbours.
fn levels(draw: &mut Draw, most: i64) -> [i64; 6] {
    let mut levels = [0; 6].map(|_| draw.between(1, most));
    levels.sort_unstable_by(|a, b| b.cmp(a));
    for place in 1..6 {
        if draw.chance(12) {
            levels[place] = levels[place - 1];
        }
    }
    levels.sort_unstable_by(|a, b| b.cmp(a));
    levels
}

pub fn unit(draw: &mut Draw, label: Label, most: i64) -> Source {
    let [h, g, n, o, e, k] = levels(draw, most);
    let [a, b, c, r] = coefficients(draw);
    Source {
        label,
        g,
        nature: Nature::Unit(Unit {
            h,
            n,
            o,
            e,
            k,
            a,
            b,
            c,
            r,
        }),
    }
}

pub fn purchase(draw: &mut Draw, label: Label, most: i64) -> Source {
    let rate = match draw.below(5) {
        0 => 0,
        1 => 90_000 + 50 * draw.between(0, 60),
        2 => draw.between(0, 999_999),
        _ => draw.between(0, 70),
    };
    Source {
        label,
        g: draw.between(0, most),
        nature: Nature::Purchase { rate },
    }
}

pub fn firm(draw: &mut Draw, label: Label, most: i64) -> Source {
    Source {
        label,
        g: draw.between(0, most),
        nature: Nature::Firm,
    }
}

fn source(draw: &mut Draw, label: Label, most: i64) -> Source {
    match draw.below(10) {
        0..=5 => unit(draw, label, most),
        6..=8 => purchase(draw, label, most),
        _ => firm(draw, label, most),
    }
}

pub fn delivery(draw: &mut Draw, label: Label, groups: i64) -> Delivery {
    let sequence = if draw.chance(18) {
        0
    } else {
        draw.between(1, groups)
    };
    let (sort, block) = (draw.between(1, 2), draw.between(1, 4));
    Delivery {
        sequence,
        sort,
        block,
        mwh: 0,
        label,
    }
}

/// Spreads MWh over the deliveries, some of them left at 0.
fn spread(draw: &mut Draw, deliveries: &mut [Delivery], budget: i64) {
    let weights: Vec<i64> = deliveries
        .iter()
        .map(|_| {
            if draw.chance(12) {
                0
            } else {
                draw.between(1, 9)
            }
        })
        .collect();
    let total = weights.iter().sum::<i64>().max(1);
    for (delivery, weight) in deliveries.iter_mut().zip(weights) {
        delivery.mwh = (budget * weight / total).min(2_000);
    }
}

fn basis(draw: &mut Draw, unit: &Unit) -> Basis {
    match draw.below(4) {
        0 => Basis::Low,
        1 => Basis::Generation,
        _ if unit.h > 1 => Basis::Number(draw.between(1, unit.h - 1)),
        _ => Basis::Low,
    }
}

/// A D line for a random unit and delivery, where one can still be had.
pub fn direct(draw: &mut Draw, hour: &Hour) -> Option<Direct> {
    let units = (0..hour.sources.len()).filter(|&at| hour.sources[at].unit().is_some());
    let units: Vec<usize> = units.collect();
    if units.is_empty() || hour.deliveries.is_empty() {
        return None;
    }
    let place = draw.pick(&units);
    let earlier = || hour.directs.iter().filter(|direct| direct.unit == place);
    let left = 100 - earlier().map(|direct| direct.percent).sum::<i64>();
    let percent = if draw.chance(25) {
        left
    } else {
        draw.between(1, left.min(60))
    };
    let basis = match earlier().next() {
        Some(direct) => direct.basis,
        None => basis(draw, hour.sources[place].unit()?),
    };
    let delivery = draw.below(hour.deliveries.len());
    (left > 0).then_some(Direct {
        basis,
        percent,
        unit: place,
        delivery,
    })
}

pub fn hour(draw: &mut Draw, size: Size) -> Hour {
    let mut hour = Hour::default();
    let level = if draw.chance(80) {
        size.level
    } else {
        size.level.min(12)
    };
    for at in 0..draw.between(size.sources.0, size.sources.1) {
        hour.sources
            .push(source(draw, name('S', at as usize), level));
    }
    for at in 0..draw.between(size.deliveries.0, size.deliveries.1) {
        hour.deliveries
            .push(delivery(draw, name('T', at as usize), size.groups));
    }
    if let Some(first) = hour.deliveries.first_mut() {
        first.sequence = first.sequence.max(1);
    }
    hour.losses = if draw.chance(50) {
        0
    } else {
        draw.between(0, hour.generation() / 8)
    };
    let share = draw.pick(&[10, 30, 60, 80, 95, 100]);
    let budget = (hour.generation() - hour.losses) * share / 100;
    spread(draw, &mut hour.deliveries, budget);
    for _ in 0..draw.between(size.directs.0, size.directs.1) {
        hour.directs.extend(direct(draw, &hour));
    }
    if draw.chance(10) {
        repeat_direct(&mut hour);
    }
    hour
}

/// The last D line once more, where its unit's percents allow it.
fn repeat_direct(hour: &mut Hour) {
    let Some(last) = hour.directs.last().cloned() else {
        return;
    };
    let same = hour
        .directs
        .iter()
        .filter(|direct| direct.unit == last.unit);
    let percents: i64 = same.map(|direct| direct.percent).sum();
    if percents + last.percent <= 100 && hour.directs.len() < MOST_OF_A_CLASS {
        hour.directs.push(last);
    }
}

/// Lessens what refuses the hour until nothing does.
pub fn repair(hour: &mut Hour) {
    for _ in 0..12 {
        let course = course(hour, Fault::None);
        let (Some(refusal), Some(turn)) = (course.refused, course.turns.last()) else {
            return;
        };
        let members = turn.group.members.clone();
        if refusal.number == 13 {
            hour.directs
                .retain(|direct| !members.contains(&direct.delivery));
        } else {
            for member in members {
                hour.deliveries[member].mwh /= 2;
            }
        }
    }
}

/// Adds firm energy until the losses and deliveries are covered.
pub fn cover(draw: &mut Draw, hour: &mut Hour) {
    let mut missing = hour.losses + hour.delivered() - hour.generation();
    while missing > 0 && hour.sources.len() < MOST_OF_A_CLASS {
        let g = missing.min(2_000);
        let label = name('F', hour.sources.len());
        let at = draw.below(hour.sources.len() + 1);
        hour.sources.insert(
            at,
            Source {
                label,
                g,
                nature: Nature::Firm,
            },
        );
        for direct in &mut hour.directs {
            direct.unit += usize::from(direct.unit >= at);
        }
        missing -= g;
    }
}
