//! For which accounts the cover and the least amount are promised.

use crate::account::{Account, Barrier, OptionType, Position, Side, MILLION};

/// Document 02 [11]: "We want the total shown sufficient for every accepted
/// account with any fb, provided that it has no written put with an up-and-in
/// barrier not yet knocked in within a series whose fb is above 1,000,000." The
/// amounts before all pairs are made (document 02 [7]) go with the total.
pub fn cover_promised(account: &Account) -> bool {
    !account.positions.iter().any(|position| excluded(account, position))
}

/// A row that the proviso of document 02 [11] names. Its margin is worked out
/// with IU × fb as the low price, and where fb is above 1,000,000 IU itself is
/// lower.
fn excluded(account: &Account, position: &Position) -> bool {
    let series = &account.series[position.series];
    position.side == Side::Written
        && series.option_type == OptionType::Put
        && matches!(position.barrier, Barrier::UpAndIn(_))
        && !position.already_knocked_in
        && series.fb > MILLION
}

/// Document 02 [11]: "The least amount remains tied to fb at most 1,000,000",
/// every fb of the account.
pub fn least_amount_promised(account: &Account) -> bool {
    account.series.iter().all(|series| series.fb <= MILLION)
}
