//! The writer: an hour as cards, one a line, and cards as bytes.

use crate::hour::*;
use crate::label;

/// One line of a deck: its letter and the text of each field.
#[derive(Clone, Debug, PartialEq)]
pub struct Card {
    pub letter: u8,
    pub fields: Vec<Vec<u8>>,
}

impl Card {
    fn new(letter: u8, numbers: &[i64], labels: &[&Label]) -> Card {
        let numbers = numbers.iter().map(|number| number.to_string().into_bytes());
        let labels = labels.iter().map(|label| label::written(label));
        Card {
            letter,
            fields: numbers.chain(labels).collect(),
        }
    }

    pub fn line(&self) -> Vec<u8> {
        let mut line = vec![self.letter];
        for field in &self.fields {
            line.push(b' ');
            line.extend(field);
        }
        line
    }
}

fn source_card(source: &Source) -> Card {
    let g = source.g;
    match &source.nature {
        Nature::Unit(unit) => {
            let Unit {
                h,
                n,
                o,
                e,
                k,
                a,
                b,
                c,
                r,
            } = *unit;
            Card::new(b'U', &[g, h, n, o, e, k, a, b, c, r], &[&source.label])
        }
        Nature::Purchase { rate } => Card::new(b'P', &[g, *rate], &[&source.label]),
        Nature::Firm => Card::new(b'F', &[g], &[&source.label]),
    }
}

fn delivery_card(delivery: &Delivery) -> Card {
    let Delivery {
        sequence,
        sort,
        block,
        mwh,
        ..
    } = *delivery;
    Card::new(b'T', &[sequence, sort, block, mwh], &[&delivery.label])
}

fn direct_card(hour: &Hour, direct: &Direct) -> Card {
    let unit = &hour.sources[direct.unit].label;
    let delivery = &hour.deliveries[direct.delivery].label;
    let mut card = Card::new(b'D', &[direct.percent], &[unit, delivery]);
    let basis = match direct.basis {
        Basis::Low => b"L".to_vec(),
        Basis::Generation => b"G".to_vec(),
        Basis::Number(number) => number.to_string().into_bytes(),
    };
    card.fields.insert(0, basis);
    card
}

pub fn cards(hour: &Hour) -> Vec<Card> {
    let mut cards = vec![Card::new(b'H', &[hour.losses], &[])];
    cards.extend(hour.sources.iter().map(source_card));
    cards.extend(hour.deliveries.iter().map(delivery_card));
    cards.extend(hour.directs.iter().map(|direct| direct_card(hour, direct)));
    cards.push(Card::new(b'E', &[], &[]));
    cards
}

pub fn bytes(cards: &[Card]) -> Vec<u8> {
    let mut deck = Vec::new();
    for card in cards {
        deck.extend(card.line());
        deck.push(b'\n');
    }
    deck
}

pub fn deck(hour: &Hour) -> Vec<u8> {
    bytes(&cards(hour))
}
