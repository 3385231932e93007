//! The account as the rules see it.
//!
//! Prices, strikes, limiters, barriers, rebates and premiums are whole ticks.
//! Factors are whole millionths. A fine unit is a millionth of a tick. Money
//! is whole centavos. All of them are `i64` here: the largest price in fine
//! units is 10^14, the largest total below 3 × 10^18. The few products that are
//! larger are made in `i128`.

pub const MILLION: i64 = 1_000_000;

/// Centavos in a real.
pub const REAL: i64 = 100;

/// Ticks to fine units: done before ticks meet fine units.
pub fn fine(ticks: i64) -> i64 {
    ticks * MILLION
}

#[derive(Clone, Copy, Debug, PartialEq, Eq)]
pub enum OptionType {
    Call,
    Put,
}

#[derive(Clone, Copy, Debug, PartialEq, Eq)]
pub enum Side {
    Held,
    Written,
}

/// One barrier a position, with its price in ticks.
#[derive(Clone, Copy, Debug, PartialEq, Eq)]
pub enum Barrier {
    None,
    UpAndIn(i64),
    DownAndIn(i64),
    UpAndOut(i64),
    DownAndOut(i64),
}

impl Barrier {
    pub fn price(&self) -> Option<i64> {
        match *self {
            Barrier::None => None,
            Barrier::UpAndIn(price)
            | Barrier::DownAndIn(price)
            | Barrier::UpAndOut(price)
            | Barrier::DownAndOut(price) => Some(price),
        }
    }
}

/// A limiter at 0 (possible for a put) is not the same as no limiter.
#[derive(Clone, Copy, Debug, PartialEq, Eq)]
pub enum Limiter {
    Absent,
    At(i64),
}

/// Positions of one series share underlying, type, expiry and way of
/// settlement.
#[derive(Clone, Copy, Debug, PartialEq, Eq)]
pub struct Series {
    /// PV, today's price, in ticks.
    pub pv: i64,
    /// High stress factor, in millionths.
    pub fa: i64,
    /// Low stress factor, in millionths.
    pub fb: i64,
    /// Minimum factor, in millionths.
    pub f3: i64,
    /// Centavos per tick per contract.
    pub m: i64,
    pub option_type: OptionType,
}

impl Series {
    /// H = PV × fa: ticks by millionths are fine units, exact.
    pub fn high(&self) -> i64 {
        self.pv * self.fa
    }

    /// L = PV × fb, in fine units.
    pub fn low(&self) -> i64 {
        self.pv * self.fb
    }

    /// MM = f3 × PV, in fine units.
    pub fn minimum_margin(&self) -> i64 {
        self.f3 * self.pv
    }
}

/// A position row as it stands in the file.
#[derive(Clone, Copy, Debug, PartialEq, Eq)]
pub struct Position {
    pub series: usize,
    pub side: Side,
    pub barrier: Barrier,
    pub limiter: Limiter,
    /// Flag 1.
    pub already_knocked_in: bool,
    /// Flag 16.
    pub already_knocked_out: bool,
    /// Flag 4.
    pub european: bool,
    /// Flag 8.
    pub opened_before_annex: bool,
    /// Q, contracts.
    pub quantity: i64,
    /// Of those the ones pledged elsewhere (document 02 [9]); 0 on a written row.
    pub blocked: i64,
    /// PE.
    pub strike: i64,
    /// REB.
    pub rebate: i64,
    /// Unsettled premium.
    pub premium: i64,
}

/// What margin, spread and payment depend on. Two positions of a series are
/// the same option exactly where their terms are equal.
#[derive(Clone, Copy, Debug, PartialEq, Eq)]
pub struct Terms {
    pub strike: i64,
    pub limiter: Limiter,
    pub barrier: Barrier,
    pub rebate: i64,
    /// Touched on an earlier day: nothing but REB is paid any more.
    pub knocked_out: bool,
}

impl Position {
    /// Flag 1 makes the position one without barrier and with REB 0.
    pub fn terms(&self) -> Terms {
        let of_row = Terms {
            strike: self.strike,
            limiter: self.limiter,
            barrier: self.barrier,
            rebate: self.rebate,
            knocked_out: self.already_knocked_out,
        };
        if self.already_knocked_in {
            Terms { barrier: Barrier::None, rebate: 0, ..of_row }
        } else {
            of_row
        }
    }

    /// The contracts that pairs may use. Document 02 [9]: "Pairs use at most Q
    /// less the blocked."
    pub fn free(&self) -> i64 {
        self.quantity - self.blocked
    }

    /// May this row stand in a pair at all? Asked of each row by itself.
    pub fn european_or_before_annex(&self) -> bool {
        self.european || self.opened_before_annex
    }
}

#[derive(Clone, Debug, PartialEq, Eq)]
pub struct Account {
    pub series: Vec<Series>,
    pub positions: Vec<Position>,
}

impl Account {
    pub fn series_of(&self, row: usize) -> &Series {
        &self.series[self.positions[row].series]
    }
}
