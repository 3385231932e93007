//! Line amounts rounded up to a multiple of 100 centavos, and premiums that are
//! not (document 02 [6]).

use super::rows::{held, one_series, series_with_remainder, written};
use super::Cases;
use crate::draft::{Draft, PositionDraft, SeriesDraft, CALL, DOWN_AND_OUT, PUT, UP_AND_OUT};

/// Of a million: H or L in whole ticks, one fine unit above and below them.
const REMAINDERS: [u64; 3] = [0, 1, 999_999];
/// About 0, 100 and 200.
const TICKS: [u32; 7] = [0, 1, 99, 100, 101, 199, 200];

pub fn add(cases: &mut Cases) {
    cases.begin("whole reais");
    for type_byte in [CALL, PUT] {
        for remainder in REMAINDERS {
            rows_about_reais(cases, type_byte, remainder);
            pairs_about_reais(cases, type_byte, remainder);
        }
        spreads_in_ticks(cases, type_byte);
        pairs_that_raise_the_total(cases, type_byte);
        many_small_lines(cases, type_byte);
        premiums(cases, type_byte);
        rebates_knocked_out(cases, type_byte);
        nothing_to_call(cases, type_byte);
        largest_amounts(cases, type_byte);
    }
}

/// A series without a minimum and with this M, and H of a call or L of a put
/// in ticks, more or less its remainder's fine unit.
fn stressed(type_byte: u8, m: u32, remainder: u64) -> (SeriesDraft, u32) {
    let is_call = type_byte == CALL;
    let (series, edge) = match remainder {
        0 if is_call => (SeriesDraft::checked(type_byte), 3_600_000_000),
        0 => (SeriesDraft::checked(type_byte), 2_400_000_000),
        _ => series_with_remainder(type_byte, is_call, remainder),
    };
    (SeriesDraft { f3: 0, m, ..series }, ((edge + 1) / 1_000_000) as u32)
}

/// The strike that is so many ticks in the money at this price.
fn in_the_money(type_byte: u8, price: u32, ticks: u32) -> u32 {
    if type_byte == CALL {
        price - ticks
    } else {
        price + ticks
    }
}

/// Written rows whose margins are so many ticks, and a fine unit beside.
fn rows_about_reais(cases: &mut Cases, type_byte: u8, remainder: u64) {
    for (m, quantity) in
        [(1, 1), (1, 100), (100, 1), (5, 20), (7, 3), (999, 99_999), (1_000, 100_000)]
    {
        let (series, price) = stressed(type_byte, m, remainder);
        let of_ticks = |ticks| written(0, in_the_money(type_byte, price, ticks), quantity);
        let name = format!("rows, type {type_byte}, remainder {remainder}, M {m} Q {quantity}");
        cases.accept(name, Draft::new(vec![series], TICKS.map(of_ticks).to_vec()));
    }
}

/// The same of pairs: D of knock-outs with the held strike beyond H or L, and
/// rebates that make each row alone dearer.
fn pairs_about_reais(cases: &mut Cases, type_byte: u8, remainder: u64) {
    let (kind, barrier) = if type_byte == CALL { (DOWN_AND_OUT, 2500) } else { (UP_AND_OUT, 3500) };
    for (m, quantity) in [(1, 1), (7, 3)] {
        let (series, price) = stressed(type_byte, m, remainder);
        let out = |row: PositionDraft| row.with_barrier(kind, barrier, 500);
        let of_ticks = |ticks| out(written(0, in_the_money(type_byte, price, ticks), quantity));
        let mut rows = TICKS.map(of_ticks).to_vec();
        let beyond = if type_byte == CALL { price + 1 } else { price - 1 };
        rows.push(out(held(0, beyond, 7 * quantity)).with_premium(1));
        let name = format!("pairs, type {type_byte}, remainder {remainder}, M {m} Q {quantity}");
        cases.accept(name, Draft::new(vec![series], rows));
    }
}

/// A pair without barriers, and a contract left.
fn spreads_in_ticks(cases: &mut Cases, type_byte: u8) {
    for ticks in [0, 1, 49, 50, 51, 99, 100, 101] {
        let (series, price) = stressed(type_byte, 1, 0);
        let rows = vec![
            written(0, in_the_money(type_byte, price, 333), 3),
            held(0, in_the_money(type_byte, price, 333 - ticks), 2),
        ];
        let name = format!("spread of {ticks} ticks, type {type_byte}");
        cases.accept(name, Draft::new(vec![series], rows));
    }
}

/// Each pair lowers the unit margin, and is one more line to round up: together
/// they raise the total, and all but 1 of the 50 and 5 of the 255 by 100 each.
fn pairs_that_raise_the_total(cases: &mut Cases, type_byte: u8) {
    let strike = if type_byte == CALL { 11 } else { 9 };
    for pairs in [1, 2, 4, 49, 50, 255] {
        let mut rows = vec![written(0, 10, pairs + 1)];
        rows.extend((0..pairs).map(|_| held(0, strike, 1)));
        let name = format!("{pairs} pairs that together raise the total, type {type_byte}");
        cases.accept(name, Draft::new(vec![SeriesDraft::at_ten(type_byte)], rows));
    }
}

/// 256 rows of one centavo, of one fine unit, of 99 and 101 centavos, and 128
/// pairs of one centavo.
fn many_small_lines(cases: &mut Cases, type_byte: u8) {
    let one_tick = if type_byte == CALL { 11 } else { 9 };
    for (name, quantity) in [("one centavo", 1), ("99 centavos", 99), ("101 centavos", 101)] {
        let rows = vec![written(0, one_tick, quantity); 256];
        let name = format!("256 rows of {name}, type {type_byte}");
        cases.accept(name, Draft::new(vec![SeriesDraft::at_ten(type_byte)], rows));
    }
    let least = SeriesDraft { pv: 1, fa: 1_000_001, fb: 999_999, ..SeriesDraft::at_ten(type_byte) };
    let name = format!("256 rows of one fine unit, type {type_byte}");
    cases.accept(name, Draft::new(vec![least], vec![written(0, 1, 1); 256]));
    let rows = [written(0, 10, 1), held(0, one_tick, 1)].repeat(128);
    let name = format!("128 pairs of one centavo, type {type_byte}");
    cases.accept(name, Draft::new(vec![SeriesDraft::at_ten(type_byte)], rows));
}

/// Premiums that are no multiples of 100, of rows in pairs, in part and alone.
fn premiums(cases: &mut Cases, type_byte: u8) {
    for premium in [1, 7, 99, 100, 101] {
        let bought = |strike, quantity| held(0, strike, quantity).with_premium(premium);
        let accounts = [
            ("alone", vec![bought(10, 3)]),
            ("paired", vec![written(0, 10, 3), bought(10, 3)]),
            ("paired in part", vec![written(0, 10, 3), bought(10, 5), bought(12, 1)]),
            ("not paired", vec![written(0, 10, 3), bought(10, 3).style(false, false)]),
        ];
        for (name, rows) in accounts {
            let name = format!("premium {premium}, {name}, type {type_byte}");
            cases.accept(name, Draft::new(vec![SeriesDraft::at_ten(type_byte)], rows));
        }
    }
}

/// Flag 16, M 5: 0, 5, 95, 100 and 105 centavos a contract.
fn rebates_knocked_out(cases: &mut Cases, type_byte: u8) {
    for kind in [UP_AND_OUT, DOWN_AND_OUT] {
        for quantity in [1, 20] {
            let out =
                |row: PositionDraft, rebate| row.with_barrier(kind, 3000, rebate).knocked_out();
            let mut rows =
                [0, 1, 19, 20, 21].map(|rebate| out(written(0, 3000, quantity), rebate)).to_vec();
            rows.push(out(held(0, 3000, quantity), 1).with_premium(1));
            let name = format!("knocked out, type {type_byte} kind {kind} Q {quantity}");
            cases.accept(name, one_series(type_byte, rows));
        }
    }
}

/// Amounts of 0 stay: no margin, the same option, a spread of 0, held rows.
fn nothing_to_call(cases: &mut Cases, type_byte: u8) {
    let [worthless, one_tick, better] = if type_byte == CALL { [12, 11, 9] } else { [8, 9, 11] };
    for (name, rows) in [
        ("no margin", vec![written(0, worthless, 9); 3]),
        ("beside one centavo", vec![written(0, worthless, 9), written(0, one_tick, 1)]),
        ("the same option", vec![written(0, 10, 9), held(0, 10, 9)]),
        ("a spread of 0", vec![written(0, 10, 9), held(0, better, 10)]),
        ("held rows", vec![held(0, 10, 9), held(0, 11, 9)]),
    ] {
        let name = format!("nothing to call, {name}, type {type_byte}");
        cases.accept(name, Draft::new(vec![SeriesDraft::at_ten(type_byte)], rows));
    }
}

/// The largest amount; the largest that is no multiple of 100 before it is
/// rounded; and one that is several centavos beside a multiple.
fn largest_amounts(cases: &mut Cases, type_byte: u8) {
    let (strike, numbers) = if type_byte == CALL {
        (1, [(10_000_000, 10_000_000), (9_999_999, 9_999_999), (9_999_937, 9_999_871)])
    } else {
        (10_000_000, [(10_000_000, 0), (1, 1), (937, 871)])
    };
    for ((pv, factor), quantity) in numbers.into_iter().zip([100_000, 99_999, 99_999]) {
        let series = SeriesDraft { pv, f3: 0, m: 1_000, ..SeriesDraft::checked(type_byte) };
        let series = if type_byte == CALL {
            SeriesDraft { fa: factor, ..series }
        } else {
            SeriesDraft { fb: factor, ..series }
        };
        for count in [1, 256] {
            let rows = vec![written(0, strike, quantity); count];
            let name = format!("{count} rows, PV {pv}, factor {factor}, type {type_byte}");
            cases.accept(name, Draft::new(vec![series], rows));
        }
    }
}
