//! One group's turn: direct energy, the ladder, the last step, the credit.

use crate::faults::Fault;
use crate::hour::*;
use crate::sequence::Group;
use crate::units::{Rung, State, RUNGS};

/// What one D line took.
#[derive(Clone, Copy, Debug)]
pub struct Taken {
    pub unit: usize,
    pub delivery: usize,
    pub mwh: i64,
    pub cost: i64,
}

/// A group's turn with the states it met; `after` is that of the direct step
/// where the group is refused.
#[derive(Clone, Debug)]
pub struct Turn<'a> {
    pub group: Group,
    pub before: Vec<State<'a>>,
    pub opened: Vec<State<'a>>,
    pub after: Vec<State<'a>>,
    pub taken: Vec<Taken>,
    pub remainder: i64,
    pub rung: Option<Rung>,
    pub refused: Option<u8>,
}

impl Turn<'_> {
    /// The MWh by which room or headroom falls short of the remainder; above 0
    /// where the group is refused.
    pub fn short(&self) -> i64 {
        if self.remainder > 0 {
            self.remainder - room(&self.opened, Rung::Last)
        } else {
            -self.remainder - headroom(&self.opened)
        }
    }
}

pub fn turn<'a>(
    directs: &[Direct],
    group: Group,
    before: Vec<State<'a>>,
    start: Rung,
    fault: Fault,
) -> Turn<'a> {
    let mut opened = before.clone();
    let taken = direct(directs, &group, &mut opened, fault);
    let remainder = group.total - taken.iter().map(|taken| taken.mwh).sum::<i64>();
    let mut after = opened.clone();
    let mut rung = None;
    let mut refused = None;
    let [no_room, no_headroom] = refusals(fault);
    if remainder > 0 {
        rung = choose_rung(&after, remainder, start, fault);
        match rung {
            None => refused = Some(no_room),
            Some(Rung::Last) => last_step(&mut after, remainder, fault),
            Some(rung) => lower_by_price(&mut after, rung, remainder, fault),
        }
    } else if remainder < 0 && !raise_by_price(&mut after, -remainder, fault) {
        refused = Some(no_headroom);
    }
    Turn {
        group,
        before,
        opened,
        after,
        taken,
        remainder,
        rung,
        refused,
    }
}

/// The refusals for too little room and for too little headroom.
fn refusals(fault: Fault) -> [u8; 2] {
    match fault {
        Fault::RefusalsExchanged => [13, 12],
        _ => [12, 13],
    }
}

fn direct(directs: &[Direct], group: &Group, states: &mut [State], fault: Fault) -> Vec<Taken> {
    let mut taken: Vec<Taken> = Vec::new();
    let lines = directs
        .iter()
        .filter(|line| group.members.contains(&line.delivery));
    for line in lines {
        let mut old = states[line.unit];
        let first = taken.iter().all(|earlier| earlier.unit != line.unit);
        if fault == Fault::BasicSetAgain && first {
            old.b = None;
        }
        let new = old.take(line);
        let cost = match fault {
            Fault::DirectByTop => new.w(old.level()) - new.w(old.level() - (new.d - old.d)),
            Fault::DirectByUnchanged => old.w(new.d) - old.w(old.d),
            _ => new.w(new.d) - new.w(old.d),
        };
        let mwh = new.d - old.d;
        taken.push(Taken {
            unit: line.unit,
            delivery: line.delivery,
            mwh,
            cost,
        });
        states[line.unit] = new;
    }
    taken
}

pub fn room(states: &[State], rung: Rung) -> i64 {
    states.iter().map(|state| state.room(rung)).sum()
}

pub fn headroom(states: &[State]) -> i64 {
    states.iter().map(|state| state.headroom()).sum()
}

fn choose_rung(states: &[State], remainder: i64, start: Rung, fault: Fault) -> Option<Rung> {
    let skipped = match fault {
        Fault::OilSkipped => Some(Rung::Oil),
        Fault::EmergencySkipped => Some(Rung::Emergency),
        _ => None,
    };
    let strict = match fault {
        Fault::NormalStrict => Some(Rung::Normal),
        Fault::OilStrict => Some(Rung::Oil),
        Fault::LastStrict => Some(Rung::Last),
        _ => None,
    };
    RUNGS.into_iter().find(|&rung| {
        let needed = remainder + i64::from(strict == Some(rung));
        rung >= start && skipped != Some(rung) && room(states, rung) >= needed
    })
}

/// The place with the greatest entry, the earlier of equal ones or the later.
fn greatest(prices: &[Option<i64>], later: bool) -> Option<usize> {
    let mut best: Option<(usize, i64)> = None;
    for (place, price) in prices.iter().enumerate() {
        let Some(price) = *price else { continue };
        let better = best.map_or(true, |(_, known)| {
            price > known || (later && price == known)
        });
        if better {
            best = Some((place, price));
        }
    }
    best.map(|(place, _)| place)
}

fn lower_by_price(states: &mut [State], rung: Rung, remainder: i64, fault: Fault) {
    let later = fault == Fault::LoweringTieLater;
    let sign = if fault == Fault::CheapestLowered {
        -1
    } else {
        1
    };
    let top = |state: &State| state.top(rung).map(|price| sign * price);
    let mut tops: Vec<Option<i64>> = states.iter().map(top).collect();
    for _ in 0..remainder {
        let Some(place) = greatest(&tops, later) else {
            return;
        };
        states[place].v -= 1;
        tops[place] = top(&states[place]);
    }
}

/// Raises by the amount; false, and nothing moved, where headroom is short.
fn raise_by_price(states: &mut [State], amount: i64, fault: Fault) -> bool {
    let needed = amount + i64::from(fault == Fault::HeadroomStrict);
    if headroom(states) < needed {
        return false;
    }
    let later = fault != Fault::RaisingTieEarlier;
    let next = |state: &State| state.next().map(|price| -price);
    let mut nexts: Vec<Option<i64>> = states.iter().map(next).collect();
    for _ in 0..amount {
        let Some(place) = greatest(&nexts, later) else {
            break;
        };
        states[place].v += 1;
        nexts[place] = next(&states[place]);
    }
    true
}

fn last_step(states: &mut [State], remainder: i64, fault: Fault) {
    let mut left = remainder;
    if fault != Fault::EmergencyStepSkipped {
        for state in states.iter_mut() {
            let room = state.room(Rung::Emergency);
            state.v -= room;
            left -= room;
        }
    }
    for place in last_order(states, fault) {
        let step = states[place].room(Rung::Last).min(left);
        states[place].v -= step;
        left -= step;
    }
}

/// The places of the units by falling average W(n)/n.
pub fn last_order(states: &[State], fault: Fault) -> Vec<usize> {
    let mut order: Vec<usize> = (0..states.len()).collect();
    order.retain(|&place| {
        states[place].source.unit().is_some() || fault == Fault::EmergencyStepSkipped
    });
    if fault == Fault::LastTieLater {
        order.reverse();
    }
    let average = |place: usize| average(&states[place], fault);
    match fault {
        Fault::LastInDeckOrder => {}
        Fault::LastRising => order.sort_by(|&a, &b| compare(average(a), average(b))),
        _ => order.sort_by(|&a, &b| compare(average(b), average(a))),
    }
    order
}

/// An average as cost and MWh.
pub fn average(state: &State, fault: Fault) -> (i64, i64) {
    let Some(unit) = state.source.unit() else {
        return (0, 1);
    };
    let at = match fault {
        Fault::AverageAtGeneration => state.source.g,
        Fault::AverageAtEmergency => unit.e,
        _ => unit.n,
    };
    match fault {
        Fault::AverageRounded => (state.w(at) / at, 1),
        Fault::AverageOfTotal => (state.w(at), 1),
        _ => (state.w(at), at),
    }
}

pub fn compare(one: (i64, i64), other: (i64, i64)) -> std::cmp::Ordering {
    let left = i128::from(one.0) * i128::from(other.1);
    left.cmp(&(i128::from(other.0) * i128::from(one.1)))
}
