//! A source's running state: open energy, direct energy, floors, costs.

use crate::deck::amount;
use crate::faults::Fault;
use crate::hour::*;

#[derive(Clone, Copy, Debug, PartialEq, PartialOrd)]
pub enum Rung {
    Normal,
    Oil,
    Emergency,
    Last,
}

pub const RUNGS: [Rung; 4] = [Rung::Normal, Rung::Oil, Rung::Emergency, Rung::Last];

/// W(m) before any direct allocation.
pub fn cost(source: &Source, m: i64, fault: Fault) -> i64 {
    match &source.nature {
        Nature::Unit(unit) => unit_cost(unit, m, fault),
        Nature::Purchase { rate } => rate * 2_000 * m,
        Nature::Firm => 0,
    }
}

fn unit_cost(unit: &Unit, m: i64, fault: Fault) -> i64 {
    let curve = |m: i64| (2 * unit.a + 2 * unit.b * m + unit.c * m * m) * unit.r;
    if m >= unit.k || (fault == Fault::CurveBelowStart && m > 0) {
        return curve(m);
    }
    let prorated = curve(unit.k) * m;
    match fault {
        Fault::BelowStartRoundsUp => (prorated + unit.k - 1) / unit.k,
        _ => prorated / unit.k,
    }
}

#[derive(Clone, Copy, Debug)]
pub struct State<'a> {
    pub source: &'a Source,
    pub v: i64,
    pub d: i64,
    /// The basic amount once it is set.
    pub b: Option<i64>,
    pub percent: i64,
    pub fault: Fault,
}

impl<'a> State<'a> {
    pub fn new(source: &'a Source, fault: Fault) -> State<'a> {
        State {
            source,
            v: source.g,
            d: 0,
            b: None,
            percent: 0,
            fault,
        }
    }

    pub fn level(&self) -> i64 {
        self.v + self.d
    }

    pub fn basic(&self) -> i64 {
        self.b.unwrap_or(0)
    }

    /// W as changed by direct allocation.
    pub fn w(&self, m: i64) -> i64 {
        let whole = |m| cost(self.source, m, self.fault);
        match self.b {
            Some(_) if self.fault == Fault::CostNeverChanged => whole(m),
            Some(b) if b <= 0 && m <= b => 0,
            Some(b) if m <= b && self.fault == Fault::BelowBasicRoundsUp => {
                (whole(b) * m + b - 1) / b
            }
            Some(b) if m <= b => whole(b) * m / b,
            _ => whole(m),
        }
    }

    /// The state after one D line of this unit.
    pub fn take(self, direct: &Direct) -> State<'a> {
        let Some(unit) = self.source.unit() else {
            return self;
        };
        let percent = self.percent + direct.percent;
        let b = self
            .b
            .unwrap_or_else(|| self.first_basic(direct.basis, unit));
        let d = match self.fault {
            Fault::PercentByLineAlone => self.d + b * direct.percent / 100,
            Fault::PercentRoundsUp => (b * percent + 99) / 100,
            Fault::PercentToNearest => (b * percent + 50) / 100,
            _ => b * percent / 100,
        };
        let idle = self.fault == Fault::ZeroTakeSetsNothing && d == self.d;
        let b = if idle { self.b } else { Some(b) };
        State {
            v: self.v - (d - self.d),
            d,
            b,
            percent,
            ..self
        }
    }

    fn first_basic(&self, basis: Basis, unit: &Unit) -> i64 {
        let basis = match (basis, self.fault) {
            (Basis::Low, Fault::LowIsEmergency) => unit.e,
            (Basis::Generation, Fault::GenerationIsOpen) => self.v,
            _ => amount(basis, unit, self.source.g),
        };
        match self.fault {
            Fault::BasicNotCapped => basis,
            Fault::BasicCappedByGeneration => basis.min(self.source.g),
            _ => basis.min(self.v),
        }
    }

    fn low(&self, rung: Rung) -> i64 {
        match (self.source.unit(), rung) {
            (Some(unit), Rung::Normal) => unit.n,
            (Some(unit), Rung::Oil) => unit.o,
            (Some(unit), Rung::Emergency) => unit.e,
            _ => 0,
        }
    }

    /// The floor on v.
    pub fn floor(&self, rung: Rung) -> i64 {
        let (b, low) = (self.basic(), self.low(rung));
        match (rung, self.fault) {
            (Rung::Last, Fault::LastFloorZero) => 0,
            (_, Fault::FloorWithoutBasic)
            | (Rung::Normal, Fault::NormalWithoutBasic)
            | (Rung::Oil, Fault::OilWithoutBasic)
            | (Rung::Emergency, Fault::EmergencyWithoutBasic) => (low - self.d).max(0),
            (_, Fault::FloorNotLessDirect) => b.max(low),
            (_, Fault::FloorLessDirectFirst) => (b - self.d).max(low),
            (_, Fault::FloorOfSum) => b + low - self.d,
            _ => b.max(low) - self.d,
        }
    }

    pub fn room(&self, rung: Rung) -> i64 {
        if self.source.is_firm() {
            return 0;
        }
        let room = self.v - self.floor(rung);
        if self.fault == Fault::RoomBelowZero {
            room
        } else {
            room.max(0)
        }
    }

    /// How far a credit may raise the source.
    pub fn headroom(&self) -> i64 {
        match (&self.source.nature, self.fault) {
            (Nature::Firm, _) => 0,
            (Nature::Purchase { .. }, Fault::PurchaseNotRaised) => 0,
            (Nature::Purchase { .. }, Fault::PurchaseUnbounded) => 2_000 - self.v,
            (Nature::Purchase { .. }, _) => self.source.g - self.v,
            (Nature::Unit(unit), _) if !self.may_rise(unit) => 0,
            (Nature::Unit(_), Fault::CreditToGeneration) => (self.source.g - self.level()).max(0),
            (Nature::Unit(unit), Fault::HighAgainstOpen) => unit.h - self.v,
            (Nature::Unit(unit), _) => unit.h - self.level(),
        }
    }

    fn may_rise(&self, unit: &Unit) -> bool {
        match self.fault {
            Fault::RaisedBelowEmergency => true,
            Fault::RaisedFromStart => self.level() >= unit.k,
            Fault::RaisedFromNormal => self.level() >= unit.n,
            Fault::RaisedAboveEmergency => self.level() > unit.e,
            Fault::EmergencyAgainstOpen => self.v >= unit.e,
            Fault::DirectNotRaised => self.d == 0 && self.level() >= unit.e,
            _ => self.level() >= unit.e,
        }
    }

    /// The level whose MWh is priced.
    fn priced(&self) -> i64 {
        match self.fault {
            Fault::PricedByOpen => self.v.max(1),
            _ => self.level(),
        }
    }

    /// The price of the top MWh, where there is room.
    pub fn top(&self, rung: Rung) -> Option<i64> {
        let m = self.priced();
        let price = match self.fault {
            Fault::PricedByAverage => self.w(m) / m.max(1),
            Fault::PricedOneAbove => self.w(m + 1) - self.w(m),
            _ => self.w(m) - self.w(m - 1),
        };
        (self.room(rung) > 0).then_some(price)
    }

    /// The price of the next MWh, where there is headroom.
    pub fn next(&self) -> Option<i64> {
        let m = self.priced();
        let price = match self.fault {
            Fault::RaisedByTop => self.w(m) - self.w(m - 1),
            _ => self.w(m + 1) - self.w(m),
        };
        (self.headroom() > 0).then_some(price)
    }

    /// What the energy left open costs.
    pub fn open_cost(&self) -> i64 {
        match self.fault {
            Fault::OpenByUnchanged => {
                let plain = State { b: None, ..*self };
                plain.w(self.level()) - plain.w(self.d)
            }
            Fault::OpenByOpen => self.w(self.v),
            _ => self.w(self.level()) - self.w(self.d),
        }
    }
}
