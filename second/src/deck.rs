//! The reader: lines in order, the first faulty one, then 10 and 11.

use crate::faults::Fault;
use crate::hour::*;
use crate::label;
use crate::lines::{self, Field, Line};

/// The refusals 2..9 that one line meets.
#[derive(Clone, Copy, Debug, Default, PartialEq)]
pub struct Met(u16);

impl Met {
    pub fn only(number: u8) -> Met {
        let mut met = Met::default();
        met.note(number, true);
        met
    }

    fn note(&mut self, number: u8, holds: bool) {
        if holds {
            self.0 |= 1 << number;
        }
    }

    pub fn has(self, number: u8) -> bool {
        self.0 & (1 << number) != 0
    }

    pub fn any(self) -> bool {
        self.0 != 0
    }

    pub fn first(self, fault: Fault) -> u8 {
        let order: [u8; 8] = match fault {
            Fault::RangeBeforeOrder => [3, 2, 4, 5, 6, 7, 8, 9],
            Fault::ClassBeforeRange => [2, 4, 3, 5, 6, 7, 8, 9],
            Fault::LabelBeforeClass => [2, 3, 5, 4, 6, 7, 8, 9],
            Fault::LevelsBeforeLabel => [2, 3, 4, 6, 5, 7, 8, 9],
            Fault::BasisBeforeNames => [2, 3, 4, 5, 6, 8, 7, 9],
            Fault::PercentBeforeBasis => [2, 3, 4, 5, 6, 7, 9, 8],
            _ => [2, 3, 4, 5, 6, 7, 8, 9],
        };
        order
            .into_iter()
            .find(|&number| self.has(number))
            .unwrap_or(0)
    }
}

/// What going through all lines found; faulty lines add nothing to the hour.
pub struct Survey {
    pub hour: Hour,
    pub faulty: Vec<(i64, Met)>,
}

fn rank(letter: u8) -> u8 {
    match letter {
        b'H' => 1,
        b'U' | b'P' | b'F' => 2,
        b'T' => 3,
        b'D' => 4,
        _ => 5,
    }
}

struct Reader {
    hour: Hour,
    /// Rank of the last line taken; 0 before H.
    reached: u8,
    fault: Fault,
}

pub fn survey(deck: &[u8], fault: Fault) -> Survey {
    let mut reader = Reader {
        hour: Hour::default(),
        reached: 0,
        fault,
    };
    let mut faulty = Vec::new();
    let mut place = i64::from(fault != Fault::LinesFromZero);
    for line in lines::split(deck) {
        let met = reader.read_line(line);
        if met.any() {
            faulty.push((place, met));
        }
        place += 1;
    }
    if reader.reached < rank(b'E') {
        let back = i64::from(fault == Fault::MissingLineAtLast && place > 1);
        faulty.push((place - back, Met::only(2)));
    }
    Survey {
        hour: reader.hour,
        faulty,
    }
}

impl Reader {
    fn read_line(&mut self, bytes: &[u8]) -> Met {
        if self.reached == rank(b'E') && self.ignores_tail(bytes) {
            return Met::default();
        }
        let ended = bytes.strip_suffix(b"\n");
        let line = match (ended, self.fault) {
            (Some(line), _) => line,
            (None, Fault::LastFeedOptional) => bytes,
            (None, _) => return Met::only(2),
        };
        match lines::form(line, self.fault) {
            Err(number) => Met::only(number),
            Ok(line) => {
                let met = self.judge(&line);
                if !met.any() {
                    self.take(&line);
                }
                met
            }
        }
    }

    fn ignores_tail(&self, bytes: &[u8]) -> bool {
        match self.fault {
            Fault::TailIgnored => true,
            Fault::LastByteIgnored => bytes.len() == 1,
            _ => false,
        }
    }

    fn judge(&self, line: &Line) -> Met {
        let mut met = Met::default();
        met.note(2, !self.in_order(line.letter));
        met.note(3, !lines::ranges_hold(line, self.fault));
        match rank(line.letter) {
            2 => self.judge_source(line, &mut met),
            3 => self.judge_delivery(line, &mut met),
            4 => self.judge_direct(line, &mut met),
            _ => {}
        }
        met
    }

    fn in_order(&self, letter: u8) -> bool {
        let next = rank(letter);
        match self.reached {
            0 => next == 1,
            5 => false,
            reached => next > 1 && next >= reached,
        }
    }

    fn judge_source(&self, line: &Line, met: &mut Met) {
        let label = line.label(line.fields.len() - 1);
        let (own, other) = (self.source(label), self.delivery(label));
        self.judge_count(met, self.hour.sources.len(), Fault::SourceTaken);
        self.judge_label(met, own, other);
        if line.letter == b'U' {
            let falling = [1, 0, 2, 3, 4, 5].map(|place| line.number(place));
            let strict = self.fault == Fault::LevelsStrict;
            let fits = |pair: &[i64]| pair[0] > pair[1] || (pair[0] == pair[1] && !strict);
            let flat = self.fault == Fault::NormalBelowGeneration && falling[1] == falling[2];
            met.note(6, flat || !falling.windows(2).all(fits));
        }
    }

    fn judge_delivery(&self, line: &Line, met: &mut Met) {
        let (own, other) = (self.delivery(line.label(4)), self.source(line.label(4)));
        self.judge_count(met, self.hour.deliveries.len(), Fault::DeliveryTaken);
        self.judge_label(met, own, other);
    }

    /// The count of a line's class; one more is taken under the fault named.
    fn judge_count(&self, met: &mut Met, count: usize, one_more: Fault) {
        let most = MOST_OF_A_CLASS + usize::from(self.fault == one_more);
        met.note(4, count >= most);
    }

    /// A label of a class, which may stand in the other one.
    fn judge_label(&self, met: &mut Met, own: Option<usize>, other: Option<usize>) {
        let both = self.fault == Fault::LabelsOneClass;
        met.note(5, own.is_some() || (both && other.is_some()));
    }

    fn judge_direct(&self, line: &Line, met: &mut Met) {
        let unit = self.unit(line.label(2));
        let delivery = self.delivery(line.label(3));
        self.judge_count(met, self.hour.directs.len(), Fault::DirectTaken);
        met.note(7, unit.is_none() || delivery.is_none());
        let Some((place, unit)) = unit else { return };
        let basis = basis(line);
        let mut earlier = self
            .hour
            .directs
            .iter()
            .filter(|direct| direct.unit == place);
        let generation = self.hour.sources[place].g;
        let differs = earlier.clone().any(|direct| match self.fault {
            Fault::BasisByValue => {
                amount(direct.basis, unit, generation) != amount(basis, unit, generation)
            }
            _ => direct.basis != basis,
        });
        met.note(8, differs || self.not_below_high(basis, unit, generation));
        let before: i64 = match self.fault {
            Fault::PercentByLine => 0,
            Fault::PercentByDelivery => earlier
                .filter(|direct| Some(direct.delivery) == delivery)
                .map(|direct| direct.percent)
                .sum(),
            Fault::PercentOfLastTwo => earlier.next_back().map_or(0, |direct| direct.percent),
            _ => earlier.map(|direct| direct.percent).sum(),
        };
        let most = match self.fault {
            Fault::PercentBelowHundred => 99,
            Fault::PercentsPastHundred => 101,
            _ => 100,
        };
        met.note(9, before + line.number(1) > most);
    }

    fn not_below_high(&self, basis: Basis, unit: &Unit, generation: i64) -> bool {
        match (basis, self.fault) {
            (Basis::Number(number), Fault::BasisUpToHigh) => number > unit.h,
            (Basis::Number(number), _) => number >= unit.h,
            (_, Fault::LetterBelowHigh) => amount(basis, unit, generation) >= unit.h,
            _ => false,
        }
    }

    fn source(&self, label: &[u8]) -> Option<usize> {
        let mut sources = self.hour.sources.iter();
        sources.position(|source| label::same(&source.label, label, self.fault))
    }

    fn delivery(&self, label: &[u8]) -> Option<usize> {
        let mut deliveries = self.hour.deliveries.iter();
        deliveries.position(|delivery| label::same(&delivery.label, label, self.fault))
    }

    fn unit(&self, label: &[u8]) -> Option<(usize, &Unit)> {
        let place = self.source(label)?;
        Some((place, self.hour.sources[place].unit()?))
    }

    fn take(&mut self, line: &Line) {
        self.reached = rank(line.letter);
        match line.letter {
            b'H' => self.hour.losses = line.number(0),
            b'U' | b'P' | b'F' => self.hour.sources.push(source(line)),
            b'T' => self.hour.deliveries.push(delivery(line)),
            b'D' => {
                let unit = self.source(line.label(2));
                let delivery = self.delivery(line.label(3));
                if let (Some(unit), Some(delivery)) = (unit, delivery) {
                    let direct = Direct {
                        basis: basis(line),
                        percent: line.number(1),
                        unit,
                        delivery,
                    };
                    self.hour.directs.push(direct);
                }
            }
            _ => {}
        }
    }
}

/// The MWh a basis stands for.
pub fn amount(basis: Basis, unit: &Unit, generation: i64) -> i64 {
    match basis {
        Basis::Low => unit.n,
        Basis::Generation => generation,
        Basis::Number(number) => number,
    }
}

fn basis(line: &Line) -> Basis {
    match line.fields.first() {
        Some(Field::Letter(b'L')) => Basis::Low,
        Some(Field::Letter(_)) => Basis::Generation,
        _ => Basis::Number(line.number(0)),
    }
}

fn source(line: &Line) -> Source {
    let number = |place| line.number(place);
    let nature = match line.letter {
        b'U' => Nature::Unit(Unit {
            h: number(1),
            n: number(2),
            o: number(3),
            e: number(4),
            k: number(5),
            a: number(6),
            b: number(7),
            c: number(8),
            r: number(9),
        }),
        b'P' => Nature::Purchase { rate: number(1) },
        _ => Nature::Firm,
    };
    let label = line.label(line.fields.len() - 1).to_vec();
    Source {
        label,
        g: number(0),
        nature,
    }
}

fn delivery(line: &Line) -> Delivery {
    Delivery {
        sequence: line.number(0),
        sort: line.number(1),
        block: line.number(2),
        mwh: line.number(3),
        label: line.label(4).to_vec(),
    }
}

pub fn read(deck: &[u8], fault: Fault) -> Result<Hour, Refusal> {
    let most = MOST_BYTES - usize::from(fault == Fault::FullDeckTooLong);
    if deck.len() > most {
        return Err(Refusal {
            number: 1,
            place: 0,
        });
    }
    let Survey { hour, faulty } = survey(deck, fault);
    let chosen = match fault {
        Fault::LaterLine => faulty.last(),
        Fault::LeastNumberOfDeck => faulty.iter().min_by_key(|(_, met)| met.first(fault)),
        _ => faulty.first(),
    };
    if let Some(&(place, met)) = chosen {
        return Err(Refusal {
            number: met.first(fault),
            place,
        });
    }
    let refusals = [
        too_little_generation(&hour, fault),
        none_to_place_by(&hour, fault),
    ];
    let mut refusals = refusals.into_iter().flatten();
    let refusal = match fault {
        Fault::PlacingBeforeBalance => refusals.next_back(),
        _ => refusals.next(),
    };
    refusal.map_or(Ok(hour), Err)
}

fn too_little_generation(hour: &Hour, fault: Fault) -> Option<Refusal> {
    let mut need = hour.losses + hour.delivered();
    let mut generation = hour.generation();
    match fault {
        Fault::LossesForgotten => need -= hour.losses,
        Fault::BalanceStrict => need += 1,
        Fault::FirmNotGeneration => {
            let firm = hour.sources.iter().filter(|source| source.is_firm());
            generation -= firm.map(|source| source.g).sum::<i64>();
        }
        _ => {}
    }
    (need > generation).then_some(Refusal {
        number: 10,
        place: 0,
    })
}

fn none_to_place_by(hour: &Hour, fault: Fault) -> Option<Refusal> {
    let zero = hour
        .deliveries
        .iter()
        .position(|delivery| delivery.sequence == 0)?;
    if hour
        .deliveries
        .iter()
        .any(|delivery| delivery.sequence != 0)
    {
        return None;
    }
    let place = match fault {
        Fault::PlacingByCount => zero as i64 + 1,
        _ => hour.delivery_line(zero),
    };
    Some(Refusal { number: 11, place })
}
