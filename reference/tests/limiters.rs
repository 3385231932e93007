//! Limiters inside a spread (document 02 [3]).

use reference::account::{fine, Account, Barrier, Limiter, OptionType, Series, Side, Terms};
use reference::draft::{
    Draft, PositionDraft, SeriesDraft, CALL, DOWN_AND_IN, DOWN_AND_OUT, HELD, PUT, UP_AND_IN,
    UP_AND_OUT, WRITTEN,
};
use reference::lines::margin;
use reference::output::margin_output;
use reference::pairing::allowed_spread;
use reference::position::written_unit_margin;
use reference::reader::read_account;
use reference::spread::unit_spread_margin;
use reference::vectors::all_cases;

/// The series of the checked values: H 3600, L 2400, MM 150.
fn account(type_byte: u8, rows: Vec<PositionDraft>) -> Account {
    let draft = Draft::new(vec![SeriesDraft::checked(type_byte)], rows);
    read_account(&draft.bytes()).expect("accepted")
}

/// The row with a limiter, or without one.
fn row(side: u8, strike: u32, limiter: Option<u32>) -> PositionDraft {
    let plain = PositionDraft::plain(0, side, strike, 1);
    match limiter {
        Some(price) => plain.with_limiter(price),
        None => plain,
    }
}

fn written(strike: u32, limiter: Option<u32>) -> PositionDraft {
    row(WRITTEN, strike, limiter)
}

fn held(strike: u32, limiter: Option<u32>) -> PositionDraft {
    row(HELD, strike, limiter)
}

/// The unit spread margin in ticks, which are whole here.
fn spread(type_byte: u8, w: PositionDraft, h: PositionDraft) -> Option<i64> {
    let account = account(type_byte, vec![w, h]);
    let [w, h] = [0, 1].map(|row| account.positions[row].terms());
    let spread = unit_spread_margin(&account.series[0], &h, &w)?;
    assert_eq!(spread % fine(1), 0);
    Some(spread / fine(1))
}

#[test]
fn calls() {
    let w = written(3100, Some(3300));
    let with = |limiter| spread(CALL, w, held(3110, limiter));
    assert_eq!(with(Some(3299)), None);
    assert_eq!(with(Some(3300)), Some(10));
    assert_eq!(with(Some(3301)), Some(10));
    assert_eq!(with(Some(10_000_000)), Some(10));
    assert_eq!(with(None), Some(10));
    // The held row is worth as much at every price.
    assert_eq!(spread(CALL, w, held(3090, Some(3299))), None);
    assert_eq!(spread(CALL, w, held(3090, Some(3300))), Some(0));
    assert_eq!(spread(CALL, w, held(3090, None)), Some(0));
    // One strike, other limiters: not the same option, and the spread is 0.
    assert_eq!(spread(CALL, w, held(3100, Some(3299))), None);
    assert_eq!(spread(CALL, w, held(3100, Some(3301))), Some(0));
    assert_eq!(spread(CALL, w, held(3100, None)), Some(0));
}

#[test]
fn puts() {
    let w = written(2900, Some(2700));
    let with = |limiter| spread(PUT, w, held(2890, limiter));
    assert_eq!(with(Some(2701)), None);
    assert_eq!(with(Some(2700)), Some(10));
    assert_eq!(with(Some(2699)), Some(10));
    assert_eq!(with(Some(0)), Some(10));
    assert_eq!(with(None), Some(10));
    assert_eq!(spread(PUT, w, held(2910, Some(2701))), None);
    assert_eq!(spread(PUT, w, held(2910, Some(2700))), Some(0));
    assert_eq!(spread(PUT, w, held(2910, None)), Some(0));
    assert_eq!(spread(PUT, w, held(2900, Some(2701))), None);
    assert_eq!(spread(PUT, w, held(2900, Some(2699))), Some(0));
    assert_eq!(spread(PUT, w, held(2900, None)), Some(0));
}

/// A held limiter against an unlimited written row bars, however far it stands.
#[test]
fn an_unlimited_written_row() {
    for strike in [2990, 3000, 3010] {
        for limiter in [3011, 3600, 10_000_000] {
            assert_eq!(spread(CALL, written(3000, None), held(strike, Some(limiter))), None);
        }
        for limiter in [2989, 2400, 1, 0] {
            assert_eq!(spread(PUT, written(3000, None), held(strike, Some(limiter))), None);
        }
    }
}

/// A put's limiter at 0 is a limiter.
#[test]
fn puts_with_a_limiter_at_0() {
    for (strike, difference) in [(3000, 0), (3010, 0), (2990, 10)] {
        let with =
            |of_held, of_written| spread(PUT, written(3000, of_written), held(strike, of_held));
        assert_eq!(with(Some(0), None), None);
        assert_eq!(with(None, Some(0)), Some(difference));
        assert_eq!(with(Some(0), Some(0)), Some(difference));
        assert_eq!(with(Some(0), Some(1)), Some(difference));
        assert_eq!(with(Some(1), Some(0)), None);
    }
}

/// Both the limiters and the barriers must stand in their order.
#[test]
fn knock_outs() {
    for (type_byte, kind, of_written, farther) in [
        (CALL, UP_AND_OUT, 3500, 3501),
        (CALL, DOWN_AND_OUT, 2500, 2499),
        (PUT, UP_AND_OUT, 3500, 3501),
        (PUT, DOWN_AND_OUT, 2500, 2499),
    ] {
        let (strike, limiter) = if type_byte == CALL { (3100, 3300) } else { (2900, 2700) };
        let beyond = if type_byte == CALL { limiter + 1 } else { limiter - 1 };
        let w = |barrier, limiter| written(strike, limiter).with_barrier(kind, barrier, 60);
        let h = |barrier, limiter| held(strike, limiter).with_barrier(kind, barrier, 25);
        let with = |w, h| spread(type_byte, w, h);
        // The barriers are equal and reachable: R is 60 - 25. Else it is 60.
        for not_nearer in [Some(limiter), Some(beyond), None] {
            let w = w(of_written, Some(limiter));
            assert_eq!(with(w, h(of_written, not_nearer)), Some(35));
            assert_eq!(with(w, h(farther, not_nearer)), Some(60));
        }
        // One of the two orders alone, or neither.
        assert_eq!(with(w(of_written, Some(beyond)), h(of_written, Some(limiter))), None);
        assert_eq!(with(w(of_written, Some(beyond)), h(farther, Some(limiter))), None);
        assert_eq!(with(w(farther, Some(limiter)), h(of_written, Some(beyond))), None);
        assert_eq!(with(w(farther, Some(limiter)), h(of_written, None)), None);
        assert_eq!(with(w(farther, Some(beyond)), h(of_written, Some(limiter))), None);
        // A limiter on the held row alone.
        assert_eq!(with(w(of_written, None), h(of_written, Some(beyond))), None);
        assert_eq!(with(w(of_written, None), h(farther, Some(beyond))), None);
    }
}

/// Knock-ins pair only when the same, limiter and all.
#[test]
fn knock_ins() {
    for type_byte in [CALL, PUT] {
        let (nearer, limiter, farther) =
            if type_byte == CALL { (3299, 3300, 3301) } else { (2701, 2700, 2699) };
        for (kind, barrier) in [(UP_AND_IN, 3500), (DOWN_AND_IN, 2500)] {
            let with = |of_held, strike| {
                let knock_in = |row: PositionDraft| row.with_barrier(kind, barrier, 7);
                let w = knock_in(written(3000, Some(limiter)));
                spread(type_byte, w, knock_in(held(strike, of_held)))
            };
            assert_eq!(with(Some(limiter), 3000), Some(0));
            for other in [Some(nearer), Some(farther), None] {
                assert_eq!(with(other, 3000), None);
            }
            for strike in [2990, 3010] {
                assert_eq!(with(Some(limiter), strike), None);
            }
        }
    }
}

/// Flag 1 takes the barrier and the rebate; the limiter stays.
#[test]
fn flag_1_keeps_the_limiter() {
    let knocked_in = |row: PositionDraft| row.with_barrier(DOWN_AND_IN, 2500, 700).knocked_in();
    let w = knocked_in(written(3100, Some(3300)));
    assert_eq!(spread(CALL, w, held(3100, Some(3300))), Some(0));
    assert_eq!(spread(CALL, w, knocked_in(held(3110, Some(3299)))), None);
    assert_eq!(spread(CALL, w, knocked_in(held(3110, Some(3300)))), Some(10));
    assert_eq!(spread(CALL, w, held(3110, None)), Some(10));
    assert_eq!(spread(CALL, written(3100, None), knocked_in(held(3100, Some(3300)))), None);
    // Not yet knocked in.
    let not_yet = held(3100, Some(3300)).with_barrier(DOWN_AND_IN, 2500, 700);
    assert_eq!(spread(CALL, w, not_yet), None);
    let w = knocked_in(written(2900, Some(2700)));
    assert_eq!(spread(PUT, w, knocked_in(held(2890, Some(2701)))), None);
    assert_eq!(spread(PUT, w, knocked_in(held(2890, Some(2700)))), Some(10));
}

/// "The spread formulas are those in force": PBw does not limit the spread.
#[test]
fn formulas_in_force() {
    // PBw - PEw is 100, and MM 150 is the margin of the written row.
    for (strike, allowed) in [(3120, true), (3149, true), (3150, false), (3400, false)] {
        let rows = vec![written(3000, Some(3100)), held(strike, None)];
        assert_eq!(spread(CALL, rows[0], rows[1]), Some(i64::from(strike) - 3000));
        assert_eq!(allowed_spread(&account(CALL, rows), 0, 1).is_some(), allowed, "{strike}");
    }
    // Nor does it limit D.
    let w = written(3000, Some(3100)).with_barrier(UP_AND_OUT, 3500, 590);
    let h = |strike| held(strike, None).with_barrier(UP_AND_OUT, 3500, 500);
    assert_eq!(spread(CALL, w, h(3250)), Some(250));
    assert_eq!(spread(CALL, w, h(3900)), Some(500));
}

/// The nearest strikes are barred by their limiters, and the next is taken.
#[test]
fn the_nearest_allowed() {
    let rows = vec![
        written(3000, Some(3300)),
        held(3001, Some(3299)),
        held(2998, Some(3200)),
        held(3004, Some(3300)),
        held(3003, Some(3301)),
    ];
    let rows = rows.into_iter().map(|row| PositionDraft { quantity: 20, ..row }).collect();
    let pairs = margin(&account(CALL, rows)).pairs;
    assert_eq!(
        pairs.iter().map(|p| (p.written, p.held, p.amount)).collect::<Vec<_>>(),
        [(0, 4, 300)]
    );
}

/// Calls and puts with their prices mirrored about PV have the same lines.
/// Knock-ins do not: from the barrier on, the price rises and falls by factors
/// that do not mirror each other.
#[test]
fn mirrored_accounts() {
    let cases = all_cases();
    let mut count = 0;
    for calls in cases.iter().filter(|case| case.group == "limited spreads") {
        let Some(name) = calls.name.strip_suffix(", calls") else { continue };
        let mirrored = format!("{name}, mirrored to puts");
        let puts = cases.iter().find(|case| case.name == mirrored).expect(name);
        if !name.ends_with("knock-ins") {
            assert_eq!(margin_output(&calls.bytes), margin_output(&puts.bytes), "{name}");
            count += 1;
        }
    }
    assert_eq!(count, 17);
}

/// How the limiters of a held and a written row stand to each other.
#[derive(Clone, Copy, Debug, PartialEq, Eq)]
enum Limiters {
    HeldAlone,
    WrittenAlone,
    /// The held one is so many ticks farther.
    Farther(i64),
}

fn limiters(option_type: OptionType, held: Limiter, written: Limiter) -> Option<Limiters> {
    match (held, written, option_type) {
        (Limiter::Absent, Limiter::Absent, _) => None,
        (Limiter::At(_), Limiter::Absent, _) => Some(Limiters::HeldAlone),
        (Limiter::Absent, Limiter::At(_), _) => Some(Limiters::WrittenAlone),
        (Limiter::At(h), Limiter::At(w), OptionType::Call) => Some(Limiters::Farther(h - w)),
        (Limiter::At(h), Limiter::At(w), OptionType::Put) => Some(Limiters::Farther(w - h)),
    }
}

/// Type, kind of barrier and limiters of two rows, where one has a limiter.
type Sort = (OptionType, u8, Limiters);

fn sort(series: &Series, held: &Terms, written: &Terms) -> Option<Sort> {
    let kind = match written.barrier {
        Barrier::None => 0,
        Barrier::UpAndIn(_) => 1,
        Barrier::DownAndIn(_) => 2,
        Barrier::UpAndOut(_) => 3,
        Barrier::DownAndOut(_) => 4,
    };
    let limiters = limiters(series.option_type, held.limiter, written.limiter)?;
    Some((series.option_type, kind, limiters))
}

/// Would a pair be allowed without the limiters?
fn barred_by_limiters(series: &Series, held: &Terms, written: &Terms) -> bool {
    let [of_held, of_written] = [held, written].map(|t| Terms { limiter: Limiter::Absent, ..*t });
    let alone = written_unit_margin(series, written);
    let otherwise = unit_spread_margin(series, &of_held, &of_written);
    unit_spread_margin(series, held, written).is_none()
        && otherwise.is_some_and(|spread| spread < alone)
}

/// The sorts of an account's pairs of different rows, and of those rows with
/// contracts left that are barred by their limiters.
fn sorts_made_and_barred(account: &Account) -> [Vec<Sort>; 2] {
    let answer = margin(account);
    let terms = |row: usize| account.positions[row].terms();
    let made =
        answer.pairs.iter().map(|p| (p.written, p.held)).filter(|(w, h)| terms(*w) != terms(*h));
    let left = || answer.left.iter().map(|left| left.row);
    let open = left().flat_map(|w| left().map(move |h| (w, h))).filter(|(w, h)| {
        let [w, h] = [w, h].map(|row| &account.positions[*row]);
        let both_may = w.european_or_before_annex() && h.european_or_before_annex();
        w.side == Side::Written && h.side == Side::Held && w.series == h.series && both_may
    });
    let barred =
        open.filter(|(w, h)| barred_by_limiters(account.series_of(*w), &terms(*h), &terms(*w)));
    let sort = |(w, h): (usize, usize)| sort(account.series_of(w), &terms(h), &terms(w));
    [made.filter_map(sort).collect(), barred.filter_map(sort).collect()]
}

/// The vectors have pairs of every sort, and rows that only their limiters bar.
#[test]
fn vectors_of_every_sort() {
    let (mut made, mut barred) = (Vec::new(), Vec::new());
    for account in all_cases().iter().filter_map(|case| read_account(&case.bytes).ok()) {
        let [of_pairs, of_barred] = sorts_made_and_barred(&account);
        made.extend(of_pairs);
        barred.extend(of_barred);
    }
    assert!(made.iter().all(|(_, kind, _)| ![1, 2].contains(kind)), "a knock-in");
    for option_type in [OptionType::Call, OptionType::Put] {
        for kind in [0, 3, 4] {
            for limiters in [Limiters::WrittenAlone, Limiters::Farther(0), Limiters::Farther(1)] {
                let sort = (option_type, kind, limiters);
                assert!(made.contains(&sort) && !barred.contains(&sort), "{sort:?}");
            }
            for limiters in [Limiters::HeldAlone, Limiters::Farther(-1)] {
                let sort = (option_type, kind, limiters);
                assert!(barred.contains(&sort) && !made.contains(&sort), "{sort:?}");
            }
        }
    }
}
