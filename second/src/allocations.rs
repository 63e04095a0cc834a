//! The lines of a report as data, and their text.

use crate::course::{Answer, Pair};
use crate::faults::Fault;
use crate::hour::*;
use crate::label;

/// One `hour` line, any deliveries, any internals; `end` says nothing.
#[derive(Clone, Debug, Default, PartialEq)]
pub struct Allocations {
    /// Generation, losses, deliveries, internal load.
    pub hour: [i64; 4],
    pub deliveries: Vec<DeliveryLine>,
    pub internals: Vec<InternalLine>,
}

#[derive(Clone, Debug, PartialEq)]
pub struct DeliveryLine {
    pub delivery: Label,
    pub number: i64,
    pub source: Label,
    /// Direct MWh, incremental MWh, both costs in one sum.
    pub amounts: [i64; 3],
}

#[derive(Clone, Debug, PartialEq)]
pub struct InternalLine {
    pub source: Label,
    /// Open MWh and cost.
    pub amounts: [i64; 2],
}

impl Allocations {
    pub fn of(hour: &Hour, answer: &Answer, fault: Fault) -> Allocations {
        let (generation, delivered) = (hour.generation(), hour.delivered());
        let internal = generation - hour.losses - delivered;
        let mut deliveries = Vec::new();
        for (at, delivery) in hour.deliveries.iter().enumerate() {
            for (source, pair) in hour.sources.iter().zip(&answer.pairs[at]) {
                let source = match fault {
                    Fault::DeliveryForSource => &delivery.label,
                    _ => &source.label,
                };
                deliveries.push(DeliveryLine {
                    delivery: delivery.label.clone(),
                    number: answer.internal[at],
                    source: source.clone(),
                    amounts: amounts(*pair, fault),
                });
            }
        }
        let open = hour.sources.iter().zip(&answer.open);
        let internals = open.map(|(source, &amounts)| InternalLine {
            source: source.label.clone(),
            amounts,
        });
        Allocations {
            hour: [generation, hour.losses, delivered, internal],
            deliveries,
            internals: internals.collect(),
        }
    }

    /// The report, labels as a deck has them.
    pub fn text(&self) -> Vec<u8> {
        let mut text = b"hour".to_vec();
        put(&mut text, &self.hour);
        for line in &self.deliveries {
            text.extend(label::written(&line.delivery));
            text.extend(format!(" {} ", line.number).bytes());
            text.extend(label::written(&line.source));
            put(&mut text, &line.amounts);
        }
        for line in &self.internals {
            text.extend(b"internal ");
            text.extend(label::written(&line.source));
            put(&mut text, &line.amounts);
        }
        text.extend(b"end\n");
        text
    }
}

fn amounts(pair: Pair, fault: Fault) -> [i64; 3] {
    let [direct, incremental, direct_cost, incremental_cost] = pair;
    let cost = direct_cost + incremental_cost;
    match fault {
        Fault::MwhExchanged => [incremental, direct, cost],
        _ => [direct, incremental, cost],
    }
}

/// A line's numbers and its LF.
fn put(text: &mut Vec<u8>, numbers: &[i64]) {
    for number in numbers {
        text.extend(format!(" {number}").bytes());
    }
    text.push(b'\n');
}
