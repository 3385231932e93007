//! Unit spread margin of one held and one written position (annex section 5).

use std::cmp::{max, min};

use crate::account::{fine, Barrier, Limiter, OptionType, Series, Terms};

/// The unit spread margin in fine units, or nothing where the two do not pair.
/// Terms are those after flag 1 is applied.
pub fn unit_spread_margin(series: &Series, held: &Terms, written: &Terms) -> Option<i64> {
    // Document 02 [5]: with flag 16 never, not even with the same option.
    if held.knocked_out || written.knocked_out {
        return None;
    }
    // a) The same option.
    if held == written {
        return Some(0);
    }
    if limiters_bar(series.option_type, held.limiter, written.limiter) {
        return None;
    }
    spread_by_barriers(series, held, written)
}

fn spread_by_barriers(series: &Series, held: &Terms, written: &Terms) -> Option<i64> {
    match (held.barrier, written.barrier) {
        // b) and c)
        (Barrier::None, Barrier::None) => {
            let difference = match series.option_type {
                OptionType::Call => fine(held.strike) - fine(written.strike),
                OptionType::Put => fine(written.strike) - fine(held.strike),
            };
            Some(max(0, difference))
        }
        // d) and f)
        (Barrier::DownAndOut(od_held), Barrier::DownAndOut(od_written))
            if od_held <= od_written =>
        {
            let reachable = series.low() <= fine(od_written);
            let highest = series.high();
            let lowest = if reachable { fine(od_written) } else { series.low() };
            Some(knock_out_spread(series, held, written, reachable, lowest, highest))
        }
        // e) and g)
        (Barrier::UpAndOut(ou_held), Barrier::UpAndOut(ou_written)) if ou_held >= ou_written => {
            let reachable = series.high() >= fine(ou_written);
            let highest = if reachable { fine(ou_written) } else { series.high() };
            let lowest = series.low();
            Some(knock_out_spread(series, held, written, reachable, lowest, highest))
        }
        // Nothing else pairs.
        _ => None,
    }
}

/// Document 02 [3]: "A limiter no longer bars a pair when the held row has none,
/// or when both have one and the held one is not nearer: PBh ≥ PBw for calls,
/// PBh ≤ PBw for puts. [...] A held limiter against an unlimited written row
/// still bars it."
fn limiters_bar(option_type: OptionType, held: Limiter, written: Limiter) -> bool {
    match (held, written) {
        (Limiter::Absent, _) => false,
        (Limiter::At(_), Limiter::Absent) => true,
        (Limiter::At(pb_held), Limiter::At(pb_written)) => match option_type {
            OptionType::Call => pb_held < pb_written,
            OptionType::Put => pb_held > pb_written,
        },
    }
}

/// `lowest` and `highest` are L and H, with the written barrier in place of
/// the one it cuts off where it is reachable.
fn knock_out_spread(
    series: &Series,
    held: &Terms,
    written: &Terms,
    reachable: bool,
    lowest: i64,
    highest: i64,
) -> i64 {
    let mm = series.minimum_margin();
    let pe_held = fine(held.strike);
    let pe_written = fine(written.strike);
    // The held rebate counts only where both are knocked out together.
    let r = if held.barrier == written.barrier {
        max(0, fine(written.rebate) - fine(held.rebate))
    } else {
        fine(written.rebate)
    };

    let held_pays_at_least_as_much = match series.option_type {
        OptionType::Call => pe_held <= pe_written,
        OptionType::Put => pe_held >= pe_written,
    };
    if held_pays_at_least_as_much {
        return if reachable { r } else { 0 };
    }

    let d = match series.option_type {
        OptionType::Call => min(pe_held, highest) - pe_written,
        OptionType::Put => pe_written - max(pe_held, lowest),
    };
    if reachable {
        max(mm, max(r, d))
    } else {
        max(mm, d)
    }
}
