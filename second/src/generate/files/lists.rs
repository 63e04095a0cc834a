//! Lines as data: any labels, any numbers, any count.

use crate::allocations::{Allocations, DeliveryLine, InternalLine};
use crate::draw::Draw;
use crate::hour::Label;

const LABELS: &[&str] = &[
    "\"",
    "\"\"",
    "\"\"\"\"\"\"\"\"\"\"\"\"\"\"\"\"",
    "\\",
    "\\\"",
    "\\\\\\\\\\\\\\\\\\\\\\\\\\\\\\\\",
    ",",
    ",,,,,,,,,,,,,,,,",
    "a,b",
    "\",\"",
    "\"quoted\"",
    " ",
    "                ",
    " lead",
    "trail ",
    "  both  ",
    "~",
    "!",
    "end",
    "end,,,,,,,",
    "hour",
    "-05",
    "+5",
    "=1+1",
    "'X'",
    "ABCDEFGHIJKLMNOP",
];

/// A label of these characters alone is hard to read.
const HARD: &[u8] = b"\"\",, \\";

pub fn label(draw: &mut Draw) -> Label {
    let length = draw.pick(&[1, 1, 2, 3, 5, 8, 15, 16, 16]);
    match draw.below(4) {
        0 => draw.pick(LABELS).into(),
        1 => (0..length).map(|_| draw.pick(HARD)).collect(),
        2 => (0..length).map(|_| draw.between(32, 126) as u8).collect(),
        _ => draw.pick(&["U1", "P1", "X", "X ", "x"]).into(),
    }
}

const NUMBERS: &[i64] = &[
    i64::MIN,
    i64::MIN,
    i64::MIN + 1,
    i64::MAX,
    i64::MAX,
    i64::MAX - 1,
    0,
    -1,
    1 << 31,
    -(1 << 31) - 1,
    1 << 32,
    (1 << 53) + 1,
    -(1 << 53) - 1,
];

fn number(draw: &mut Draw) -> i64 {
    match draw.below(5) {
        0 => draw.pick(NUMBERS),
        1 => (draw.between(0, i64::MAX) as u64 * 2 + draw.between(0, 1) as u64) as i64,
        2 => {
            let power = 10_i64.pow(draw.between(0, 18) as u32);
            (power - draw.between(0, 1)) * draw.pick(&[1, -1])
        }
        _ => draw.between(-20, 2_000),
    }
}

/// Lines of least and most counts, one label often on several.
pub fn list(draw: &mut Draw, deliveries: (i64, i64), internals: (i64, i64)) -> Allocations {
    let labels: Vec<Label> = (0..6).map(|_| label(draw)).collect();
    let mut lines = Allocations {
        hour: [0; 4].map(|_| number(draw)),
        ..Allocations::default()
    };
    for _ in 0..draw.between(deliveries.0, deliveries.1) {
        lines.deliveries.push(DeliveryLine {
            delivery: draw.pick(&labels),
            number: number(draw),
            source: draw.pick(&labels),
            amounts: [0; 3].map(|_| number(draw)),
        });
    }
    for _ in 0..draw.between(internals.0, internals.1) {
        lines.internals.push(InternalLine {
            source: draw.pick(&labels),
            amounts: [0; 2].map(|_| number(draw)),
        });
    }
    lines
}

/// All numbers at one end of 64 bits, or all 0, or all -1.
pub fn extreme(draw: &mut Draw) -> Allocations {
    let number = [i64::MIN, i64::MAX, 0, -1][draw.variant(4)];
    let mut lines = list(draw, (1, 3), (1, 3));
    lines.hour = [number; 4];
    for line in &mut lines.deliveries {
        line.number = number;
        line.amounts = [number; 3];
    }
    for line in &mut lines.internals {
        line.amounts = [number; 2];
    }
    lines
}
