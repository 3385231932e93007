//! The factors with the daily factors and the roots in tables, so that a call makes its multiplications and no search.

use reference::factors::{
    daily_factors, factors_by, root, DailyFactors, Factors, CODE_ROWS, MOST_DAYS,
};
use reference::reader::Refusal;

pub struct Tables {
    daily: [DailyFactors; 4],
    roots: Vec<i64>,
}

impl Tables {
    pub fn factors(&self, code: u64, days: u64) -> Result<Factors, Refusal> {
        if days > MOST_DAYS || code > 3 {
            return Err(Refusal { number: 14, row: 0 });
        }
        let (code, s) = (code as usize, self.roots[days as usize]);
        Ok(factors_by(&CODE_ROWS[code], self.daily[code], s, days as i64))
    }
}

impl Default for Tables {
    fn default() -> Tables {
        Tables {
            daily: CODE_ROWS.map(|row| daily_factors(&row)),
            roots: (0..=MOST_DAYS as i64).map(root).collect(),
        }
    }
}
