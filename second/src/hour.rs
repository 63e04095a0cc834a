//! The hour record: what a deck says, as numbers and label characters.

pub type Label = Vec<u8>;

pub const MOST_BYTES: usize = 8192;
pub const MOST_OF_A_CLASS: usize = 32;

#[derive(Clone, Debug, PartialEq, Default)]
pub struct Hour {
    pub losses: i64,
    pub sources: Vec<Source>,
    pub deliveries: Vec<Delivery>,
    pub directs: Vec<Direct>,
}

#[derive(Clone, Debug, PartialEq)]
pub struct Source {
    pub label: Label,
    pub g: i64,
    pub nature: Nature,
}

#[derive(Clone, Debug, PartialEq)]
pub enum Nature {
    Unit(Unit),
    Purchase { rate: i64 },
    Firm,
}

#[derive(Clone, Copy, Debug, PartialEq)]
pub struct Unit {
    pub h: i64,
    pub n: i64,
    pub o: i64,
    pub e: i64,
    pub k: i64,
    pub a: i64,
    pub b: i64,
    pub c: i64,
    pub r: i64,
}

#[derive(Clone, Debug, PartialEq)]
pub struct Delivery {
    pub sequence: i64,
    pub sort: i64,
    pub block: i64,
    pub mwh: i64,
    pub label: Label,
}

#[derive(Clone, Copy, Debug, PartialEq)]
pub enum Basis {
    Low,
    Generation,
    Number(i64),
}

/// A D line; unit and delivery are places in the hour's own lists.
#[derive(Clone, Debug, PartialEq)]
pub struct Direct {
    pub basis: Basis,
    pub percent: i64,
    pub unit: usize,
    pub delivery: usize,
}

#[derive(Clone, Copy, Debug, PartialEq)]
pub struct Refusal {
    pub number: u8,
    pub place: i64,
}

impl Refusal {
    pub fn text(self) -> String {
        format!("refused {} {}\n", self.number, self.place)
    }
}

impl Source {
    pub fn unit(&self) -> Option<&Unit> {
        match &self.nature {
            Nature::Unit(unit) => Some(unit),
            _ => None,
        }
    }

    pub fn is_firm(&self) -> bool {
        self.nature == Nature::Firm
    }
}

impl Hour {
    pub fn generation(&self) -> i64 {
        self.sources.iter().map(|source| source.g).sum()
    }

    pub fn delivered(&self) -> i64 {
        self.deliveries.iter().map(|delivery| delivery.mwh).sum()
    }

    /// The deck line of a delivery, counted from 1.
    pub fn delivery_line(&self, delivery: usize) -> i64 {
        (2 + self.sources.len() + delivery) as i64
    }
}
