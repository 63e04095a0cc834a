//! The texts the commands print for one deck.

use crate::allocations::Allocations;
use crate::course::{answer, cells, course};
use crate::deck;
use crate::faults::Fault;
use crate::hour::*;
use crate::label;
use crate::write;

pub fn report(deck: &[u8], fault: Fault) -> Vec<u8> {
    match deck::read(deck, fault) {
        Ok(hour) => of_hour(&hour, fault),
        Err(refusal) => refusal.text().into_bytes(),
    }
}

pub fn right_report(deck: &[u8]) -> Vec<u8> {
    report(deck, Fault::None)
}

/// The report of an hour that was read.
pub fn of_hour(hour: &Hour, fault: Fault) -> Vec<u8> {
    match allocations(hour, fault) {
        Ok(allocations) => allocations.text(),
        Err(refusal) => refusal.text().into_bytes(),
    }
}

/// The lines of an hour's report.
pub fn allocations(hour: &Hour, fault: Fault) -> Result<Allocations, Refusal> {
    let answer = answer(hour, fault)?;
    Ok(Allocations::of(hour, &answer, fault))
}

pub fn rewritten(deck: &[u8]) -> Vec<u8> {
    match deck::read(deck, Fault::None) {
        Ok(hour) => write::deck(&hour),
        Err(refusal) => refusal.text().into_bytes(),
    }
}

pub fn cells_text(deck: &[u8]) -> Vec<u8> {
    let answer = deck::read(deck, Fault::None).and_then(|hour| answer(&hour, Fault::None));
    let text = match answer {
        Ok(answer) => cells(&answer)
            .iter()
            .map(|cell| format!("{cell}\n"))
            .collect(),
        Err(refusal) => refusal.text(),
    };
    text.into_bytes()
}

/// What the group lacks that meets 12 or 13; nothing for any other deck.
pub fn short(deck: &[u8]) -> Vec<u8> {
    let Ok(hour) = deck::read(deck, Fault::None) else {
        return Vec::new();
    };
    let course = course(&hour, Fault::None);
    let (Some(refusal), Some(turn)) = (course.refused, course.turns.last()) else {
        return Vec::new();
    };
    let Refusal { number, place } = refusal;
    let mut text = format!("{number} {place} {}", turn.short()).into_bytes();
    for &member in &turn.group.members {
        text.push(b' ');
        text.extend(label::written(&hour.deliveries[member].label));
    }
    text.push(b'\n');
    text
}
