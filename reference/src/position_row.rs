//! A position row: 32 bytes to the position, or the first of refusals 7 to 11.

use crate::account::{Barrier, Limiter, OptionType, Position, Series, Side};
use crate::reader::{u16_at, u24_at, u32_at, within, HIGHEST_PRICE};

pub const FLAG_KNOCKED_IN: u8 = 1;
pub const FLAG_LIMITER: u8 = 2;
pub const FLAG_EUROPEAN: u8 = 4;
pub const FLAG_BEFORE_ANNEX: u8 = 8;
pub const FLAG_KNOCKED_OUT: u8 = 16;

/// The fields of a row, whatever they say.
struct Fields {
    series: usize,
    side: u8,
    kind: u8,
    flags: u8,
    blocked: i64,
    quantity: i64,
    strike: i64,
    limiter_price: i64,
    barrier_price: i64,
    rebate: i64,
    premium: i64,
}

/// The position, or the number of the refusal.
pub fn read_position(row: &[u8], all_series: &[Series]) -> Result<Position, i64> {
    let fields = Fields::of(row);
    if !fields.codes_right(all_series.len()) {
        return Err(7);
    }
    let series = &all_series[fields.series];
    if !fields.numbers_right() {
        return Err(8);
    }
    if !fields.limiter_right(series) {
        return Err(9);
    }
    if !fields.price_right() {
        return Err(10);
    }
    if !fields.side_of_pv_right(series) {
        return Err(11);
    }
    Ok(Position {
        series: fields.series,
        side: if fields.is_written() { Side::Written } else { Side::Held },
        barrier: fields.barrier(),
        limiter: fields.limiter(),
        already_knocked_in: fields.already_knocked_in(),
        already_knocked_out: fields.already_knocked_out(),
        european: fields.flag(FLAG_EUROPEAN),
        opened_before_annex: fields.flag(FLAG_BEFORE_ANNEX),
        quantity: fields.quantity,
        blocked: fields.blocked,
        strike: fields.strike,
        rebate: fields.rebate,
        premium: fields.premium,
    })
}

impl Fields {
    fn of(row: &[u8]) -> Fields {
        Fields {
            series: u16_at(row, 0),
            side: row[2],
            kind: row[3],
            flags: row[4],
            blocked: u24_at(row, 5),
            quantity: u32_at(row, 8),
            strike: u32_at(row, 12),
            limiter_price: u32_at(row, 16),
            barrier_price: u32_at(row, 20),
            rebate: u32_at(row, 24),
            premium: u32_at(row, 28),
        }
    }

    fn flag(&self, flag: u8) -> bool {
        self.flags & flag != 0
    }

    fn already_knocked_in(&self) -> bool {
        self.flag(FLAG_KNOCKED_IN)
    }

    fn already_knocked_out(&self) -> bool {
        self.flag(FLAG_KNOCKED_OUT)
    }

    fn is_written(&self) -> bool {
        self.side == 1
    }

    /// 7: series, side, kind, flags or a spare byte wrong. The spare bytes of a
    /// held row are the number blocked (document 02 [9]), and looked at with 8.
    fn codes_right(&self, series_count: usize) -> bool {
        self.series < series_count
            && self.side <= 1
            && self.kind <= 4
            && self.flags_right()
            && (!self.is_written() || self.blocked == 0)
    }

    /// Flag 1 with kinds 1 and 2 only, flag 16 with kinds 3 and 4 only; bits
    /// without a meaning zero.
    fn flags_right(&self) -> bool {
        let known =
            FLAG_KNOCKED_IN | FLAG_LIMITER | FLAG_EUROPEAN | FLAG_BEFORE_ANNEX | FLAG_KNOCKED_OUT;
        let may_be_knocked_in = self.kind == 1 || self.kind == 2;
        let may_be_knocked_out = self.kind == 3 || self.kind == 4;
        self.flags & !known == 0
            && (!self.already_knocked_in() || may_be_knocked_in)
            && (!self.already_knocked_out() || may_be_knocked_out)
    }

    /// 8: Q, PE, REB or premium wrong, or more than Q blocked.
    fn numbers_right(&self) -> bool {
        let highest_premium = if self.is_written() { 0 } else { HIGHEST_PRICE };
        within(1, self.quantity, 100_000)
            && within(1, self.strike, HIGHEST_PRICE)
            && within(0, self.rebate, HIGHEST_PRICE)
            && within(0, self.premium, highest_premium)
            && self.blocked <= self.quantity
    }

    /// 9: PB wrong.
    fn limiter_right(&self, series: &Series) -> bool {
        let (strike, price) = (self.strike, self.limiter_price);
        match (self.flag(FLAG_LIMITER), series.option_type) {
            (false, _) => price == 0,
            (true, OptionType::Call) => strike < price && price <= HIGHEST_PRICE,
            (true, OptionType::Put) => price < strike,
        }
    }

    /// 10: barrier price outside its rule or range, or REB with kind 0. Neither
    /// flag 1 nor flag 16 frees a price from this range.
    fn price_right(&self) -> bool {
        if self.kind == 0 {
            self.barrier_price == 0 && self.rebate == 0
        } else {
            within(1, self.barrier_price, HIGHEST_PRICE)
        }
    }

    /// 11: barrier on the wrong side of PV, except where flag 1 or flag 16 is
    /// set.
    fn side_of_pv_right(&self, series: &Series) -> bool {
        let side_right = match self.kind {
            1 | 3 => self.barrier_price > series.pv,
            2 | 4 => self.barrier_price < series.pv,
            _ => true,
        };
        side_right || self.already_knocked_in() || self.already_knocked_out()
    }

    fn barrier(&self) -> Barrier {
        match self.kind {
            1 => Barrier::UpAndIn(self.barrier_price),
            2 => Barrier::DownAndIn(self.barrier_price),
            3 => Barrier::UpAndOut(self.barrier_price),
            4 => Barrier::DownAndOut(self.barrier_price),
            _ => Barrier::None,
        }
    }

    fn limiter(&self) -> Limiter {
        if self.flag(FLAG_LIMITER) {
            Limiter::At(self.limiter_price)
        } else {
            Limiter::Absent
        }
    }
}
