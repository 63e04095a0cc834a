//! Hours that are read: plain ones of each size, and ones brought to an edge.

use super::parts::*;
use crate::course::course;
use crate::draw::Draw;
use crate::faults::Fault;
use crate::group::{headroom, last_order, room};
use crate::hour::*;
use crate::units::{Rung, State, RUNGS};

pub fn plain(draw: &mut Draw, size: Size) -> Hour {
    let mut made = hour(draw, size);
    if draw.chance(85) {
        repair(&mut made);
    }
    made
}

/// One group's remainder brought to the room of a rung, or one above it.
pub fn at_rung(draw: &mut Draw, size: Size) -> Hour {
    let rung = RUNGS[draw.variant(4)];
    let above = draw.variant(2) as i64;
    edge(draw, size, |states, taken| {
        taken + room(states, rung) + above
    })
}

/// One group's credit brought to the headroom, or one above it.
pub fn at_headroom(draw: &mut Draw, size: Size) -> Hour {
    let above = draw.variant(2) as i64;
    edge(draw, size, |states, taken| taken - headroom(states) - above)
}

/// Sets one group's total from what the group finds after its D lines.
fn edge(draw: &mut Draw, size: Size, total: impl Fn(&[State], i64) -> i64) -> Hour {
    for _ in 0..12 {
        let mut made = hour(draw, size);
        repair(&mut made);
        let course = course(&made, Fault::None);
        let turns = &course.turns;
        if course.refused.is_some() || turns.is_empty() {
            continue;
        }
        let turn = &turns[draw.below(turns.len())];
        let taken: i64 = turn.taken.iter().map(|taken| taken.mwh).sum();
        let total = total(&turn.opened, taken);
        let member = draw.pick(&turn.group.members);
        let mwh = total - turn.group.total + made.deliveries[member].mwh;
        let above = turn.group.internal;
        let later: Vec<usize> = turns
            .iter()
            .filter(|turn| turn.group.internal < above)
            .flat_map(|turn| turn.group.members.clone())
            .collect();
        if !(0..=2_000).contains(&mwh) {
            continue;
        }
        made.deliveries[member].mwh = mwh;
        if draw.chance(60) {
            lighten(draw, &mut made, &later);
        }
        cover(draw, &mut made);
        return made;
    }
    hour(draw, size)
}

/// Leaves little to the deliveries named.
fn lighten(draw: &mut Draw, hour: &mut Hour, deliveries: &[usize]) {
    for &delivery in deliveries {
        hour.deliveries[delivery].mwh = draw.between(0, 3);
        hour.directs.retain(|direct| direct.delivery != delivery);
    }
}

fn two_groups(draw: &mut Draw, size: Size) -> Hour {
    let mut made = hour(
        draw,
        Size {
            deliveries: (2, 4),
            directs: (0, 0),
            ..size
        },
    );
    for (at, delivery) in made.deliveries.iter_mut().enumerate() {
        delivery.sequence = if at == 0 { 50 } else { 40 - at as i64 };
        delivery.mwh = 0;
    }
    made.losses = 0;
    made
}

fn add_unit(draw: &mut Draw, hour: &mut Hour, size: Size) -> usize {
    let label = name('N', hour.sources.len());
    let mut unit = unit(draw, label, size.level);
    if let Nature::Unit(levels) = &mut unit.nature {
        levels.h = draw.between(unit.g, (2 * size.level).min(2_000));
    }
    hour.sources.push(unit);
    hour.sources.len() - 1
}

/// A first group lowers units past their emergency lows; later groups have D
/// lines on any of them.
pub fn sunk(draw: &mut Draw, size: Size) -> Hour {
    let mut made = two_groups(draw, size);
    for _ in 0..draw.between(1, 2) {
        add_unit(draw, &mut made, size);
    }
    let states: Vec<State> = made
        .sources
        .iter()
        .map(|s| State::new(s, Fault::None))
        .collect();
    let order = last_order(&states, Fault::None);
    let deep = room(&states, Rung::Last) - room(&states, Rung::Emergency);
    let first = made.sources[order[0]].unit().map_or(1, |unit| unit.e);
    let past = if draw.chance(60) {
        draw.between(1, first)
    } else {
        draw.between(1, deep)
    };
    let mwh = room(&states, Rung::Emergency) + past;
    made.deliveries[0].mwh = mwh.min(2_000);
    cover(draw, &mut made);
    for at in 1..made.deliveries.len() {
        made.deliveries[at].mwh = draw.pick(&[0, 0, 1, 2, 5]);
    }
    add_later_directs(draw, &mut made, 3);
    cover(draw, &mut made);
    if draw.chance(60) {
        repair(&mut made);
    }
    made
}

/// D lines for all deliveries but the first.
fn add_later_directs(draw: &mut Draw, hour: &mut Hour, most: i64) {
    for _ in 0..draw.between(1, most) {
        let Some(mut direct) = direct(draw, hour) else {
            return;
        };
        direct.delivery = draw.between(1, hour.deliveries.len() as i64 - 1) as usize;
        hour.directs.push(direct);
    }
}

/// A first group's credit raises sources past their generation; a later group
/// has D lines on those.
pub fn raised(draw: &mut Draw, size: Size) -> Hour {
    let mut made = two_groups(draw, size);
    let unit = add_unit(draw, &mut made, size);
    let risen = add_unit(draw, &mut made, size);
    let basis = draw.pick(&[Basis::Generation, Basis::Low]);
    let first = Direct {
        basis,
        percent: 100,
        unit,
        delivery: 0,
    };
    made.deliveries[0].mwh = draw.pick(&[0, 0, 1, 3]);
    let basis = past_generation(draw, &made.sources[risen]);
    let percent = draw.between(1, 100);
    let second = Direct {
        basis,
        percent,
        unit: risen,
        delivery: 1,
    };
    made.directs.extend([first, second]);
    made.deliveries[1].mwh = draw.between(0, made.generation() / 2).min(2_000);
    if draw.chance(50) {
        made.directs.extend(direct(draw, &made));
    }
    if draw.chance(80) {
        repair(&mut made);
    }
    made
}

/// A basis, often a number between g and h.
fn past_generation(draw: &mut Draw, source: &Source) -> Basis {
    let high = source.unit().map_or(1, |unit| unit.h);
    match draw.below(4) {
        0 => Basis::Generation,
        1 => Basis::Low,
        _ if source.g + 1 < high => Basis::Number(draw.between(source.g + 1, high - 1)),
        _ => Basis::Generation,
    }
}

/// A purchase lowered first, then credited up to its generation again.
pub fn refilled(draw: &mut Draw, size: Size) -> Hour {
    let mut made = two_groups(draw, size);
    let rate = draw.between(0, 40);
    let g = draw.between(1, 30);
    let label = name('P', made.sources.len());
    made.sources.push(Source {
        label,
        g,
        nature: Nature::Purchase { rate },
    });
    let unit = add_unit(draw, &mut made, size);
    let room = made.generation().min(2_000);
    made.deliveries[0].mwh = draw.between(1, room / 2);
    let basis = draw.pick(&[Basis::Generation, Basis::Low]);
    made.directs.push(Direct {
        basis,
        percent: draw.between(40, 100),
        unit,
        delivery: 1,
    });
    made.deliveries[1].mwh = draw.pick(&[0, 0, 1, 4]);
    if draw.chance(85) {
        repair(&mut made);
    }
    made
}

/// Many groups or one, of many members; totals of 0; shares that round.
pub fn members(draw: &mut Draw, size: Size) -> Hour {
    let count = draw.pick(&[2, 3, 3, 7, 12, 20]);
    let mut made = hour(
        draw,
        Size {
            deliveries: (count, count),
            directs: (0, 4),
            ..size
        },
    );
    let groups = draw.between(1, 2);
    let empty = draw.chance(35);
    for delivery in &mut made.deliveries {
        delivery.sequence = draw.between(1, groups);
        if empty {
            delivery.mwh = 0;
        } else if draw.chance(50) {
            delivery.mwh = delivery.mwh.min(1);
        }
    }
    repair(&mut made);
    made
}

/// Units below one another in a last step, with averages that tie or nearly.
pub fn averages(draw: &mut Draw, size: Size) -> Hour {
    let mut made = two_groups(
        draw,
        Size {
            deliveries: (1, 2),
            ..size
        },
    );
    made.deliveries.truncate(2);
    made.sources.clear();
    for at in 0..draw.between(2, 4) {
        let twin = at > 0 && draw.chance(50);
        let mut unit = unit(draw, name('S', at as usize), size.level);
        if twin {
            unit = Source {
                label: unit.label,
                ..made.sources[at as usize - 1].clone()
            };
        }
        if let Nature::Unit(unit) = &mut unit.nature {
            if twin && draw.chance(60) {
                (unit.a, unit.r) = (draw.between(0, 2), 1);
                unit.b = draw.between(0, 1);
                unit.c = 0;
            }
        }
        made.sources.push(unit);
    }
    let states: Vec<State> = made
        .sources
        .iter()
        .map(|s| State::new(s, Fault::None))
        .collect();
    let (emergency, last) = (room(&states, Rung::Emergency), room(&states, Rung::Last));
    made.deliveries[0].mwh = draw.between(emergency + 1, last).min(2_000);
    cover(draw, &mut made);
    made
}

/// Deliveries to be placed, over every block and few types.
pub fn placing(draw: &mut Draw, size: Size) -> Hour {
    let count = draw.between(2, 9);
    let mut made = hour(
        draw,
        Size {
            deliveries: (count, count),
            directs: (0, 1),
            ..size
        },
    );
    let sorts = draw.pick(&[1, 1, 2, 3]);
    let blocks: &[i64] = draw.pick(&[
        &[1, 2][..],
        &[1, 2, 3],
        &[1, 9],
        &[1, 8, 9],
        &[1, 8, 9],
        &[8, 9],
        &[4, 7, 8, 9],
        &[2, 3, 4, 5, 6],
    ]);
    for delivery in &mut made.deliveries {
        delivery.sort = draw.between(1, sorts);
        delivery.block = draw.pick(blocks);
        delivery.sequence = if draw.chance(45) {
            0
        } else {
            draw.pick(&[1, 2, 27, 28, 99, 99])
        };
        delivery.mwh = if draw.chance(25) { 0 } else { delivery.mwh };
    }
    let given = draw.below(made.deliveries.len());
    made.deliveries[given].sequence = draw.between(1, 99);
    if draw.chance(15) {
        outer_blocks(draw, &mut made.deliveries);
    }
    if draw.chance(85) {
        repair(&mut made);
    }
    made
}

/// A 0 in block 9 or 1, the others in the blocks beside it and at the far end.
fn outer_blocks(draw: &mut Draw, deliveries: &mut [Delivery]) {
    let (own, others) = draw.pick(&[(9, [8, 1]), (1, [9, 9])]);
    for (at, delivery) in deliveries.iter_mut().enumerate() {
        delivery.sort = 1;
        delivery.block = if at == 0 { own } else { others[at % 2] };
        delivery.sequence = if at == 0 { 0 } else { delivery.sequence.max(3) };
    }
}
