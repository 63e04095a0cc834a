//! Placing: internal sequence numbers and the groups they form.

use crate::faults::Fault;
use crate::hour::*;
use Blocks::{Any, AtLeast, Only};

#[derive(Clone, Debug, PartialEq)]
pub struct Group {
    pub internal: i64,
    /// Places of the deliveries, in deck order.
    pub members: Vec<usize>,
    pub total: i64,
}

/// The rule that placed a delivery.
#[derive(Clone, Copy, Debug, PartialEq)]
pub enum Placed {
    Given,
    Rule(char),
}

/// Each delivery's internal number and how it came about.
pub fn place(hour: &Hour, fault: Fault) -> Vec<(i64, Placed)> {
    let mut placed: Vec<(i64, Placed)> = Vec::new();
    for delivery in &hour.deliveries {
        placed.push(match delivery.sequence {
            0 => place_zero(hour, delivery, &placed, fault),
            sequence => (internal(sequence, fault), Placed::Given),
        });
    }
    placed
}

fn internal(sequence: i64, fault: Fault) -> i64 {
    match fault {
        Fault::TensLeftOut => sequence,
        _ => 10 * sequence,
    }
}

/// One way to match: which deliveries, whether the greatest, and the step.
struct Rule {
    name: char,
    sort: bool,
    block: Blocks,
    greatest: bool,
    step: i64,
}

#[derive(Clone, Copy)]
enum Blocks {
    Any,
    Only(i64),
    AtLeast(i64),
}

impl Blocks {
    fn have(self, block: i64) -> bool {
        match self {
            Blocks::Any => true,
            Blocks::Only(only) => block == only,
            Blocks::AtLeast(least) => block >= least,
        }
    }
}

fn rules(block: i64, fault: Fault) -> Vec<Rule> {
    let rule = |name, sort, block, greatest, step| Rule {
        name,
        sort,
        block,
        greatest,
        step,
    };
    let mut rules = vec![
        rule('a', true, Only(block), fault == Fault::GreatestInA, -1),
        rule('b', true, Only(block + 1), fault == Fault::GreatestInB, -1),
        rule('c', true, Only(block - 1), fault != Fault::LeastInC, 1),
        rule('d', true, Any, fault == Fault::GreatestInD, -1),
        rule('e', false, Any, fault == Fault::GreatestInE, -1),
    ];
    match fault {
        Fault::BlocksExchanged => {
            rules[1].block = Only(block - 1);
            rules[2].block = Only(block + 1);
        }
        Fault::CBeforeB => rules.swap(1, 2),
        Fault::CWraps if block == 1 => rules[2].block = Only(9),
        Fault::BWraps if block == 9 => rules[1].block = Only(1),
        Fault::AnyHigherInB => rules[1].block = AtLeast(block + 1),
        Fault::SameSortInE => rules[4].sort = true,
        Fault::ASkipped => drop(rules.remove(0)),
        Fault::BSkipped => drop(rules.remove(1)),
        Fault::CSkipped => drop(rules.remove(2)),
        Fault::DSkipped => drop(rules.remove(3)),
        Fault::AStepsUp => rules[0].step = 1,
        Fault::BStepsUp => rules[1].step = 1,
        Fault::CStepsDown => rules[2].step = -1,
        Fault::DStepsUp => rules[3].step = 1,
        Fault::EStepsUp => rules[4].step = 1,
        _ => {}
    }
    rules
}

fn place_zero(
    hour: &Hour,
    zero: &Delivery,
    placed: &[(i64, Placed)],
    fault: Fault,
) -> (i64, Placed) {
    for rule in rules(zero.block, fault) {
        let fits = |other: &Delivery| {
            (!rule.sort || other.sort == zero.sort) && rule.block.have(other.block)
        };
        let matches = hour
            .deliveries
            .iter()
            .enumerate()
            .filter(|(_, other)| fits(other));
        let numbers = matches.filter_map(|(at, other)| number(other, placed.get(at), fault));
        let found = if rule.greatest {
            numbers.max()
        } else {
            numbers.min()
        };
        if let Some(found) = found {
            let internal = match fault {
                Fault::StepBeforeTens => found + 10 * rule.step,
                _ => found + rule.step,
            };
            return (internal, Placed::Rule(rule.name));
        }
    }
    (0, Placed::Rule('-'))
}

/// The internal number another delivery may be placed by.
fn number(other: &Delivery, placed: Option<&(i64, Placed)>, fault: Fault) -> Option<i64> {
    match (other.sequence, fault) {
        (0, Fault::PlacedPlaces) => placed.map(|&(internal, _)| internal),
        (0, _) => None,
        (_, Fault::EmptyPlacesNone) if other.mwh == 0 => None,
        (sequence, _) => Some(internal(sequence, fault)),
    }
}

pub fn groups(hour: &Hour, internal: &[i64], fault: Fault) -> Vec<Group> {
    let mut groups: Vec<Group> = Vec::new();
    for (place, (&internal, delivery)) in internal.iter().zip(&hour.deliveries).enumerate() {
        let alone = fault == Fault::PlacedAlone && delivery.sequence == 0;
        let same = |group: &&mut Group| group.internal == internal && !alone;
        match groups.iter_mut().find(same) {
            Some(group) => {
                group.members.push(place);
                group.total += delivery.mwh;
            }
            None => groups.push(Group {
                internal,
                members: vec![place],
                total: delivery.mwh,
            }),
        }
    }
    match fault {
        Fault::GroupsAscend => groups.sort_by_key(|group| group.internal),
        Fault::GroupsInDeckOrder => {}
        _ => groups.sort_by_key(|group| -group.internal),
    }
    if fault == Fault::FirstGroupOnly {
        groups.truncate(1);
    }
    groups
}
