//! Ways of choosing pairs. Each makes the pairs of the reference's repeated choice, in the same order.

pub mod lanes;
pub mod repeated_search;
pub mod tournament;

use reference::account::{Account, Position, Series, Side, Terms};
use reference::pairing::{make_pair, Pair};
use reference::position::written_unit_margin;
use reference::reader::HIGHEST_PRICE;
use reference::spread::unit_spread_margin;

/// The highest strike, in ticks.
const HIGHEST: u64 = HIGHEST_PRICE as u64;

/// What the ways look at in a row.
struct Row<'a> {
    series: &'a Series,
    series_number: usize,
    /// May it stand in a pair as the written row, or as the held one?
    written: bool,
    held: bool,
    /// Flag 1 applied.
    terms: Terms,
}

impl<'a> Row<'a> {
    fn of(account: &'a Account, position: &Position) -> Row<'a> {
        let may = position.european_or_before_annex();
        Row {
            series: &account.series[position.series],
            series_number: position.series,
            written: may && position.side == Side::Written,
            held: may && position.side == Side::Held,
            terms: position.terms(),
        }
    }

    fn strike(&self) -> u64 {
        self.terms.strike as u64
    }

    fn unit_margin(&self) -> i64 {
        written_unit_margin(self.series, &self.terms)
    }

    /// Does a pair with a held row of the same series lower this row's unit margin?
    fn lowered_by(&self, held: &Row, unit_margin: i64) -> bool {
        unit_spread_margin(self.series, &held.terms, &self.terms)
            .is_some_and(|spread| spread < unit_margin)
    }
}

/// The rows of an account, made once a call.
struct Rows<'a> {
    account: &'a Account,
    list: Vec<Row<'a>>,
}

impl<'a> Rows<'a> {
    fn of(account: &'a Account) -> Rows<'a> {
        let rows = account.positions.iter().map(|position| Row::of(account, position));
        Rows { account, list: rows.collect() }
    }

    fn pair(&self, left: &mut [i64], written: usize, held: usize) -> Pair {
        let row = &self.list[written];
        let spread = unit_spread_margin(row.series, &self.list[held].terms, &row.terms);
        make_pair(self.account, left, written, held, spread.expect("the rows pair"))
    }
}
