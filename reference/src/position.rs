//! One position (annex sections 1 to 4).

use std::cmp::{max, min};

use crate::account::{
    fine, Account, Barrier, Limiter, OptionType, Series, Side, Terms, MILLION, REAL,
};
use crate::reader::read_account;

/// Unit margin of a written position, in fine units: first rule that applies.
pub fn written_unit_margin(series: &Series, terms: &Terms) -> i64 {
    // Document 02 [5]: REB, whatever the minimum.
    if terms.knocked_out {
        return fine(terms.rebate);
    }
    match series.option_type {
        OptionType::Call => written_call(series, terms),
        OptionType::Put => written_put(series, terms),
    }
}

fn written_call(series: &Series, terms: &Terms) -> i64 {
    let mm = series.minimum_margin();
    let reb = fine(terms.rebate);
    let pe = fine(terms.strike);
    let h = series.high();
    let l = series.low();
    // No limiter: PB = H.
    let pb = match terms.limiter {
        Limiter::At(price) => fine(price),
        Limiter::Absent => h,
    };
    // C, for the high price in force.
    let payoff = |h: i64| min(pb, h) - pe;

    match terms.barrier {
        Barrier::None => max3(mm, reb, payoff(h)),

        Barrier::UpAndIn(iu) if h < fine(iu) => max(mm, reb),
        Barrier::UpAndIn(_) => max3(mm, reb, payoff(h)),

        Barrier::DownAndIn(id) if l > fine(id) => max(mm, reb),
        // The barrier is met on the way, and from there the price can rise
        // only to ID × fa.
        Barrier::DownAndIn(id) => max3(mm, reb, payoff(id * series.fa)),

        Barrier::DownAndOut(od) if l > fine(od) => max(mm, payoff(h)),
        Barrier::DownAndOut(_) => max3(mm, reb, payoff(h)),

        Barrier::UpAndOut(ou) if h < fine(ou) => max(mm, payoff(h)),
        Barrier::UpAndOut(ou) => max3(mm, reb, min(pb, fine(ou)) - pe),
    }
}

fn written_put(series: &Series, terms: &Terms) -> i64 {
    let mm = series.minimum_margin();
    let reb = fine(terms.rebate);
    let pe = fine(terms.strike);
    let h = series.high();
    let l = series.low();
    // No limiter: PB = L.
    let pb = match terms.limiter {
        Limiter::At(price) => fine(price),
        Limiter::Absent => l,
    };
    // P, for the low price in force.
    let payoff = |l: i64| pe - max(pb, l);

    match terms.barrier {
        Barrier::None => max3(mm, reb, payoff(l)),

        Barrier::DownAndIn(id) if l > fine(id) => max(mm, reb),
        Barrier::DownAndIn(_) => max3(mm, reb, payoff(l)),

        Barrier::UpAndIn(iu) if h < fine(iu) => max(mm, reb),
        // The barrier is met on the way, and from there the price can fall
        // only to IU × fb.
        Barrier::UpAndIn(iu) => max3(mm, reb, payoff(iu * series.fb)),

        Barrier::UpAndOut(ou) if h < fine(ou) => max(mm, payoff(l)),
        Barrier::UpAndOut(_) => max3(mm, reb, payoff(l)),

        Barrier::DownAndOut(od) if l > fine(od) => max(mm, payoff(l)),
        Barrier::DownAndOut(od) => max3(mm, reb, pe - max(pb, fine(od))),
    }
}

/// Unit × M × quantity, in millionths of a centavo: an amount before it is
/// rounded.
pub fn exact_amount(unit: i64, m: i64, quantity: i64) -> i128 {
    let [unit, m, quantity] = [unit, m, quantity].map(i128::from);
    unit * m * quantity
}

/// Fine units per contract to centavos: unit × M × quantity, divided by
/// 1,000,000 and rounded up once. Document 02 [6]: "Each line amount, and the
/// amount for one position, is rounded up to a multiple of 100 centavos instead
/// of to one centavo."
pub fn amount(unit: i64, m: i64, quantity: i64) -> i64 {
    let exact = exact_amount(unit, m, quantity);
    let [million, real] = [MILLION, REAL].map(i128::from);
    // A real, in millionths of a centavo as the product is.
    let one_real = real * million;
    let whole = exact / one_real;
    let reais = if whole * one_real == exact { whole } else { whole + 1 };
    (reais * real) as i64
}

/// Premium × M × Q of a held row; 0 for a written row, whose premium is 0.
/// Document 02 [6]: "Premiums remain exact, also as a held position's amount."
pub fn premium_amount(account: &Account, row: usize) -> i64 {
    let position = &account.positions[row];
    position.premium * account.series_of(row).m * position.quantity
}

/// The amount of one row by itself, over all its contracts.
pub fn position_amount(account: &Account, row: usize) -> i64 {
    let position = &account.positions[row];
    let series = account.series_of(row);
    match position.side {
        Side::Held => premium_amount(account, row),
        Side::Written => {
            let unit = written_unit_margin(series, &position.terms());
            amount(unit, series.m, position.quantity)
        }
    }
}

/// The call for one row: its amount, or the refusal number with a minus sign.
/// The file comes first; row p or above is refusal 13.
pub fn one_position(bytes: &[u8], row: u64) -> i64 {
    match read_account(bytes) {
        Err(refusal) => -refusal.number,
        Ok(account) => {
            if row >= account.positions.len() as u64 {
                -13
            } else {
                position_amount(&account, row as usize)
            }
        }
    }
}

fn max3(a: i64, b: i64, c: i64) -> i64 {
    max(a, max(b, c))
}
