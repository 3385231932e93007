//! Amounts so far in whole reais, line by line, with exact premiums.

use super::lists::Lent;
use super::{amount, made, Cases};
use crate::draft::{Draft, SeriesDraft, CALL, PUT};
use crate::vectors::rows::{held, one_series, written};

/// Each pair and each remainder is rounded up to a real by itself, so that a
/// pair can raise the amount. A written contract at the money is 2 centavos,
/// and one in a spread of a tick 1.
pub fn add(cases: &mut Cases) {
    cases.begin("whole reais");
    for (type_byte, beside) in [(CALL, 11), (PUT, 9)] {
        let account = |rows| Draft::new(vec![SeriesDraft::at_ten(type_byte)], rows);
        let raising = account(vec![written(0, 10, 2), held(0, beside, 1)]);
        let asked = vec![amount(0, 100), made(0, 1, 1), amount(1, 200), made(1, 1, 0)];
        cases.add(format!("type {type_byte}, raised"), &raising, Lent::marked(4), asked);

        // Left are 120, 110, 100, 20 and 0 centavos, and each pair is rounded up to 100.
        let mut rows = vec![written(0, 10, 60)];
        rows.extend([5, 5, 40, 10].map(|quantity| held(0, beside, quantity)));
        let asked = vec![
            amount(0, 200),
            made(0, 1, 1),
            amount(1, 300),
            made(1, 1, 1),
            amount(2, 300),
            made(2, 1, 1),
            amount(3, 400),
            made(3, 1, 1),
            amount(4, 400),
            made(4, 1, 0),
        ];
        cases.add(format!("type {type_byte}, four pairs"), &account(rows), Lent::marked(10), asked);
    }
}

/// Premiums count from the first amount on, of rows in pairs and of others, and
/// are no multiples of 100. What is left of held rows counts 0.
pub fn add_premiums(cases: &mut Cases) {
    cases.begin("premiums and held rows");
    let rows = vec![
        written(0, 3000, 2),
        held(0, 3000, 5).with_premium(3),
        held(0, 3100, 4),
        held(0, 3500, 1).with_premium(1),
    ];
    let asked = vec![amount(0, 6_080), made(0, 2, 1), amount(1, 80)];
    cases.add("held contracts left", &one_series(CALL, rows), Lent::marked(8), asked);

    let rows = vec![held(0, 3000, 1).with_premium(1), held(0, 3001, 7).with_premium(11)];
    let asked = vec![amount(0, 390), made(0, 1, 0), amount(0, 390)];
    cases.add("held rows alone", &one_series(PUT, rows), Lent::marked(4), asked);

    // Two written rows and a held one that serves both, the nearer first.
    let rows = vec![
        written(0, 3200, 3),
        held(0, 3250, 5).with_premium(9),
        written(0, 3240, 4),
        held(0, 2900, 2).style(false, false).with_premium(10_000_000),
    ];
    let premiums = 225 + 100_000_000;
    let asked = vec![
        amount(0, 6_000 + 7_200 + premiums),
        made(0, 1, 1),
        amount(1, 6_000 + 200 + premiums),
        made(1, 1, 1),
        amount(2, 4_000 + 200 + 300 + premiums),
        made(2, 1, 0),
    ];
    cases.add("one held row for two", &one_series(CALL, rows), Lent::marked(8), asked);
}
