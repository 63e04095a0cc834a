//! The whole hour: the groups' turns, the shares, the open energy, the cells.

use crate::faults::Fault;
use crate::group::{turn, Turn};
use crate::hour::*;
use crate::sequence::{groups, place, Group, Placed};
use crate::units::{cost, Rung, State};

/// All turns up to the end or to the first group refused.
pub struct Course<'a> {
    pub placed: Vec<(i64, Placed)>,
    pub groups: usize,
    pub turns: Vec<Turn<'a>>,
    pub refused: Option<Refusal>,
    pub last: Vec<State<'a>>,
}

/// Direct MWh, incremental MWh, direct cost, incremental cost.
pub type Pair = [i64; 4];

pub struct Answer {
    pub internal: Vec<i64>,
    /// By delivery, then by source.
    pub pairs: Vec<Vec<Pair>>,
    /// Open MWh and cost by source.
    pub open: Vec<[i64; 2]>,
}

pub fn course(hour: &Hour, fault: Fault) -> Course<'_> {
    let placed = place(hour, fault);
    let internal: Vec<i64> = placed.iter().map(|&(internal, _)| internal).collect();
    let groups = groups(hour, &internal, fault);
    let directs = directs(hour, &groups, fault);
    let count = groups.len();
    let mut states: Vec<State> = hour.sources.iter().map(|s| State::new(s, fault)).collect();
    let mut turns: Vec<Turn> = Vec::new();
    let mut refused = None;
    let mut start = Rung::Normal;
    for group in groups {
        let turn = turn(&directs, group, states, start, fault);
        states = turn.after.clone();
        if let (Some(rung), Fault::LoweredFloorsKept) = (turn.rung, fault) {
            start = rung;
        }
        if let Some(number) = turn.refused {
            refused = Some(Refusal {
                number,
                place: turn.group.internal,
            });
        }
        turns.push(turn);
        if refused.is_some() {
            break;
        }
    }
    Course {
        placed,
        groups: count,
        turns,
        refused,
        last: states,
    }
}

/// The D lines as the groups find them.
fn directs(hour: &Hour, groups: &[Group], fault: Fault) -> Vec<Direct> {
    let mut directs = hour.directs.clone();
    if let (Some(first), Fault::DirectsInFirstGroup) = (groups.first(), fault) {
        for direct in &mut directs {
            direct.delivery = first.members[0];
        }
    }
    directs
}

pub fn answer(hour: &Hour, fault: Fault) -> Result<Answer, Refusal> {
    let course = course(hour, fault);
    if let Some(refusal) = course.refused {
        return Err(refusal);
    }
    let mut pairs = vec![vec![[0; 4]; hour.sources.len()]; hour.deliveries.len()];
    for turn in &course.turns {
        share(hour, turn, &mut pairs, fault);
    }
    let open = course.last.iter().enumerate().map(|(place, state)| {
        let cost = match fault {
            Fault::OpenIsRest => {
                let charged = pairs.iter().map(|row| row[place][2] + row[place][3]);
                state.w(state.source.g) - charged.sum::<i64>()
            }
            _ => state.open_cost(),
        };
        [state.v, cost]
    });
    let open = open.collect();
    let internal = course
        .placed
        .iter()
        .map(|&(internal, _)| internal)
        .collect();
    Ok(Answer {
        internal,
        pairs,
        open,
    })
}

/// What a group draws from one source.
fn amounts(turn: &Turn, place: usize) -> Pair {
    let (opened, after) = (&turn.opened[place], &turn.after[place]);
    let taken = turn.taken.iter().filter(|taken| taken.unit == place);
    [
        taken.clone().map(|taken| taken.mwh).sum(),
        opened.level() - after.level(),
        taken.map(|taken| taken.cost).sum(),
        opened.w(opened.level()) - after.w(after.level()),
    ]
}

fn share(hour: &Hour, turn: &Turn, pairs: &mut [Vec<Pair>], fault: Fault) {
    let members = match fault {
        Fault::MembersReversed => turn.group.members.iter().rev().copied().collect(),
        _ => turn.group.members.clone(),
    };
    let weights: Vec<i64> = members.iter().map(|&at| hour.deliveries[at].mwh).collect();
    for place in 0..hour.sources.len() {
        let mut amounts = amounts(turn, place);
        if fault == Fault::CostsSplitAsOne {
            amounts = [amounts[0], amounts[1], amounts[2] + amounts[3], 0];
        }
        for (cell, &amount) in amounts.iter().enumerate() {
            let shares = split(amount, &weights, fault);
            for (&member, share) in members.iter().zip(shares) {
                pairs[member][place][cell] = share;
            }
        }
    }
    if fault == Fault::DirectToNamed {
        give_direct_to_named(turn, pairs);
    }
}

fn give_direct_to_named(turn: &Turn, pairs: &mut [Vec<Pair>]) {
    for taken in &turn.taken {
        for &member in &turn.group.members {
            let cells = &mut pairs[member][taken.unit];
            (cells[0], cells[2]) = (0, 0);
        }
    }
    for taken in &turn.taken {
        let cells = &mut pairs[taken.delivery][taken.unit];
        cells[0] += taken.mwh;
        cells[2] += taken.cost;
    }
}

/// Running floors of the amount by the members' MWh so far.
pub fn split(amount: i64, weights: &[i64], fault: Fault) -> Vec<i64> {
    let total: i64 = weights.iter().sum();
    if total == 0 {
        return split_by_none(amount, weights.len(), fault);
    }
    let part = |weight: i64| {
        let whole = i128::from(amount.abs()) * i128::from(weight);
        let part = (whole / i128::from(total)) as i64;
        let past = whole % i128::from(total) != 0;
        match fault {
            Fault::CreditSharesFloor if amount < 0 && past => -part - 1,
            _ => part * amount.signum(),
        }
    };
    let (mut so_far, mut before) = (0, 0);
    let mut shares = Vec::new();
    for &weight in weights {
        so_far += weight;
        let now = part(so_far);
        shares.push(match fault {
            Fault::SharesAlone => part(weight),
            _ => now - before,
        });
        before = now;
    }
    shares
}

fn split_by_none(amount: i64, count: usize, fault: Fault) -> Vec<i64> {
    let taker = match fault {
        Fault::EmptyTotalLost => count,
        Fault::EmptyTotalToLast => count - 1,
        _ => 0,
    };
    (0..count)
        .map(|place| if place == taker { amount } else { 0 })
        .collect()
}

/// The answer buffer's cells, in its order.
pub fn cells(answer: &Answer) -> Vec<i64> {
    let pairs = answer.pairs.iter().flatten().flatten();
    pairs.chain(answer.open.iter().flatten()).copied().collect()
}

/// The cost of a source's generation.
pub fn generation_cost(source: &Source) -> i64 {
    cost(source, source.g, Fault::None)
}
