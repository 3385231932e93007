//! Cover for long expiries (document 02 [11]): where it is promised, and what
//! the brute force says there and elsewhere.

use reference::account::{fine, Account, Barrier, OptionType, Position, Side, MILLION};
use reference::brute_force::{
    check, check_cover, cover_promised, least_amount_promised, reference_claim, Claim,
};
use reference::draft::{
    Draft, PositionDraft, SeriesDraft, CALL, DOWN_AND_IN, DOWN_AND_OUT, HELD, NO_BARRIER, PUT,
    UP_AND_IN, UP_AND_OUT, WRITTEN,
};
use reference::factors::{daily_factors, factors, factors_by, root, Factors, CODE_ROWS, MOST_DAYS};
use reference::lines::Margin;
use reference::paths::{is_path, payment};
use reference::reader::read_account;
use reference::sample::LONG_EXPIRIES;
use reference::vectors::all_cases;

/// PV 1000, H 1300, L 1100, no minimum, M 1.
fn series(type_byte: u8) -> SeriesDraft {
    let checked = SeriesDraft::checked(type_byte);
    SeriesDraft { pv: 1000, fa: 1_300_000, fb: 1_100_000, f3: 0, m: 1, ..checked }
}

fn plain(side: u8) -> PositionDraft {
    PositionDraft::plain(0, side, 1250, 1)
}

/// PE 1250, up-and-in at 1200.
fn up_and_in(side: u8) -> PositionDraft {
    plain(side).with_barrier(UP_AND_IN, 1200, 0)
}

fn account(series: SeriesDraft, rows: Vec<PositionDraft>) -> Account {
    account_of(vec![series], rows)
}

fn account_of(series: Vec<SeriesDraft>, rows: Vec<PositionDraft>) -> Account {
    read_account(&Draft::new(series, rows).bytes()).expect("accepted")
}

/// No violation, and paths were tried.
fn covered(account: &Account) {
    let claim = reference_claim(account);
    let steps = check(account, &claim, 4).unwrap_or_else(|words| panic!("{words}\n{account:#?}"));
    assert!(cover_promised(account) && steps > 0, "{account:#?}");
}

/// A put knocked in at 1200 and exercised there pays 50 ticks. Its margin is
/// worked out with 1200 × fb, 1320, as the low price, and is 0.
#[test]
fn the_proviso_is_needed() {
    let account = account(series(PUT), vec![up_and_in(WRITTEN)]);
    let claim = reference_claim(&account);
    assert_eq!((claim.units[0], claim.margin.total), (0, 0));
    let path = [fine(1200)];
    assert!(is_path(&account.series[0], &path));
    assert_eq!(payment(OptionType::Put, &account.positions[0].terms(), &path), fine(50));

    assert!(!cover_promised(&account));
    assert_eq!(check(&account, &claim, 4), Ok(0), "no path is tried");
    let words = "the cover: total 0 centavos with 0 pairs, the worst paths take 50000000 \
                 millionths of a centavo: [[1200000000]]";
    assert_eq!(check_cover(&account, &claim, 4), Err(words.to_string()));
    let fifty = Claim { margin: Margin { total: 50, ..claim.margin }, ..claim };
    assert_eq!(check_cover(&account, &fifty, 4), Ok(()));
}

/// One change each from the account above, and the total then.
#[test]
fn near_misses_are_covered() {
    let put = series(PUT);
    let row = up_and_in(WRITTEN);
    for (name, series, row, total) in [
        ("fb 1,000,000", SeriesDraft { fb: 1_000_000, ..put }, row, 100),
        ("a call", series(CALL), row, 100),
        ("held", put, up_and_in(HELD), 0),
        ("flag 1", put, row.knocked_in(), 200),
        ("down-and-in", put, plain(WRITTEN).with_barrier(DOWN_AND_IN, 900, 0), 0),
        ("up-and-out", put, plain(WRITTEN).with_barrier(UP_AND_OUT, 1200, 0), 200),
        ("down-and-out", put, plain(WRITTEN).with_barrier(DOWN_AND_OUT, 900, 0), 200),
        ("no barrier", put, plain(WRITTEN), 200),
    ] {
        let account = account(series, vec![row]);
        covered(&account);
        let claim = reference_claim(&account);
        assert_eq!(claim.margin.total, total, "{name}");
        assert_eq!(check_cover(&account, &claim, 4), Ok(()), "{name}");
    }
}

/// The same row in a series whose fb is at most 1,000,000, beside a series with
/// other rows whose fb is above.
#[test]
fn the_fb_of_the_rows_own_series_tells() {
    let other_rows =
        [up_and_in(HELD), up_and_in(WRITTEN).knocked_in(), plain(WRITTEN), plain(HELD)];
    for fb in [0, 800_000, 999_999, 1_000_000, 1_000_001] {
        let both = vec![series(PUT), SeriesDraft { fb, ..series(PUT) }];
        let in_second = PositionDraft { series: 1, ..up_and_in(WRITTEN) };
        let mut rows = other_rows.to_vec();
        rows.push(in_second);
        let of_both = account_of(both.clone(), rows);
        if fb <= 1_000_000 {
            covered(&of_both);
        } else {
            assert!(!cover_promised(&of_both));
        }
        // In the first series the row is excluded wherever it stands.
        for at in 0..=other_rows.len() {
            let mut rows = other_rows.to_vec();
            rows.insert(at, up_and_in(WRITTEN));
            assert!(!cover_promised(&account_of(both.clone(), rows)));
        }
    }
}

/// Kinds with the flags that they may have.
fn kinds_and_flags(side: u8) -> [PositionDraft; 9] {
    let row = |kind, price| plain(side).with_barrier(kind, price, 30);
    [
        plain(side),
        row(UP_AND_IN, 1200),
        row(UP_AND_IN, 1200).knocked_in(),
        row(DOWN_AND_IN, 900),
        row(DOWN_AND_IN, 900).knocked_in(),
        row(UP_AND_OUT, 1200),
        row(UP_AND_OUT, 1200).knocked_out(),
        row(DOWN_AND_OUT, 900),
        row(DOWN_AND_OUT, 900).knocked_out(),
    ]
}

/// Of the kinds and flags of written and held rows, calls and puts, with fb at
/// both sides of 1,000,000, the proviso excludes one alone.
#[test]
fn the_rows_that_the_proviso_excludes() {
    let (mut tried, mut excluded) = (0, Vec::new());
    for type_byte in [CALL, PUT] {
        for side in [HELD, WRITTEN] {
            for row in kinds_and_flags(side) {
                for fb in [0, 999_999, 1_000_000, 1_000_001, 1_300_000] {
                    let account = account(SeriesDraft { fb, ..series(type_byte) }, vec![row]);
                    tried += 1;
                    if !cover_promised(&account) {
                        excluded.push((type_byte, side, row.kind, row.flags, fb));
                    }
                }
            }
        }
    }
    let european = 4;
    let of_factor = |fb| (PUT, WRITTEN, UP_AND_IN, european, fb);
    assert_eq!(excluded, [1_000_001, 1_300_000].map(of_factor));
    assert_eq!(tried, 180);
}

/// Limiter, rebate, style, barrier price and contracts do not matter, nor that
/// the same option is held.
#[test]
fn other_fields_do_not_matter_to_the_proviso() {
    let row = up_and_in(WRITTEN);
    for row in [
        row.with_limiter(1150),
        row.with_barrier(UP_AND_IN, 1200, 700),
        row.with_barrier(UP_AND_IN, 1001, 0),
        row.with_barrier(UP_AND_IN, 10_000_000, 0),
        row.style(false, false),
        row.style(false, true),
        PositionDraft { quantity: 100_000, ..row },
        PositionDraft { strike: 1, ..row },
    ] {
        for fb in [1_000_000, 1_000_001] {
            let of_written = SeriesDraft { fb, ..series(PUT) };
            for rows in [vec![row], vec![PositionDraft { side: HELD, ..row }, row]] {
                let account = account(of_written, rows);
                assert_eq!(cover_promised(&account), fb == 1_000_000, "{account:#?}");
            }
        }
    }
}

/// "The least amount remains tied to fb at most 1,000,000", every one of them.
/// An up-and-out call at 1050 is knocked out on every path from 1100 on and pays
/// nothing; its margin is 50 ticks.
#[test]
fn the_least_amount_stays_tied_to_fb() {
    let call = PositionDraft::plain(0, WRITTEN, 1000, 1).with_barrier(UP_AND_OUT, 1050, 0);
    let with = |fb: u32| SeriesDraft { fb, ..series(CALL) };
    let of_long = account(with(1_100_000), vec![call]);
    assert_eq!(reference_claim(&of_long).units[0], fine(50));
    covered(&of_long);

    let written = plain(WRITTEN);
    for (factors, tied) in [
        (vec![1_000_000], true),
        (vec![1_000_001], false),
        (vec![1_000_000, 999_999], true),
        (vec![1_000_000, 1_000_001], false),
        (vec![1_300_000, 0], false),
    ] {
        let account = account_of(factors.into_iter().map(with).collect(), vec![written]);
        assert_eq!(least_amount_promised(&account), tied);
        let mut claim = reference_claim(&account);
        claim.units[0] += 2;
        assert_eq!(check(&account, &claim, 4).is_err(), tied);
    }
}

/// The first days whose fb is above 1,000,000; FPI and OFV have none.
#[test]
fn codes_with_long_expiries() {
    for (code, row) in CODE_ROWS.iter().enumerate() {
        let daily = daily_factors(row);
        let above = |n: &i64| factors_by(row, daily, root(*n), *n).fb > MILLION;
        let days: Vec<i64> = (0..=MOST_DAYS as i64).filter(above).collect();
        let first = LONG_EXPIRIES.iter().find(|(of_code, _)| *of_code == code as u64);
        let expected = first.map_or(vec![], |&(_, n)| (n as i64..=MOST_DAYS as i64).collect());
        assert_eq!(days, expected, "code {code}");
    }
    assert_eq!(LONG_EXPIRIES, [(0, 496), (2, 1_038)]);
}

/// FCI at two years: H 1863.083 and L 1085.366.
fn two_years(type_byte: u8) -> SeriesDraft {
    let Factors { fa, fb } = factors(0, 720).unwrap();
    assert_eq!((fa, fb), (1_863_083, 1_085_366));
    SeriesDraft { fa: fa as u32, fb: fb as u32, f3: 50_000, ..series(type_byte) }
}

/// Written rows of a kind with barriers and strikes within and out of reach,
/// each with a limiter or without.
fn rows_of_kind(type_byte: u8, kind: u8, knocked_in: bool) -> Vec<PositionDraft> {
    let barriers: &[u32] = match kind {
        NO_BARRIER => &[0],
        UP_AND_IN | UP_AND_OUT => &[1001, 1085, 1086, 1400, 1863, 1864],
        _ => &[1, 900, 999],
    };
    let rebates: &[u32] = if kind == NO_BARRIER { &[0] } else { &[0, 60, 900] };
    let mut rows = Vec::new();
    for strike in [1000, 1085, 1086, 1500, 1863, 1864, 2500] {
        for &barrier in barriers {
            for &rebate in rebates {
                let row = PositionDraft::plain(0, WRITTEN, strike, 1);
                let row = row.with_barrier(kind, barrier, rebate);
                let row = if knocked_in { row.knocked_in() } else { row };
                let limiter = if type_byte == CALL { strike + 150 } else { strike - 150 };
                rows.extend([row, row.with_limiter(limiter)]);
            }
        }
    }
    rows
}

/// Alone and paired with the same and another held row.
#[test]
fn every_other_kind_at_two_years() {
    let mut accounts = 0;
    for type_byte in [CALL, PUT] {
        for (kind, knocked_in) in [
            (NO_BARRIER, false),
            (UP_AND_IN, false),
            (UP_AND_IN, true),
            (DOWN_AND_IN, false),
            (DOWN_AND_IN, true),
            (UP_AND_OUT, false),
            (DOWN_AND_OUT, false),
        ] {
            if (type_byte, kind, knocked_in) == (PUT, UP_AND_IN, false) {
                continue;
            }
            for row in rows_of_kind(type_byte, kind, knocked_in) {
                let written = PositionDraft { quantity: 3, ..row };
                let same = PositionDraft { side: HELD, ..row };
                let other = PositionDraft { strike: row.strike + 10, ..same };
                for rows in [vec![written], vec![written, same, other]] {
                    covered(&account(two_years(type_byte), rows));
                    accounts += 1;
                }
            }
        }
    }
    assert_eq!(accounts, 4_088);
}

/// Puts: written PE 1250 of ten contracts, held PE 1220 of four and PE 1300 of
/// three, M 5. At 1100 the written row pays 7,500 centavos, the held rows bring
/// in 2,400 and 3,000.
fn three_puts() -> Account {
    let rows = [(WRITTEN, 1250, 10), (HELD, 1220, 4), (HELD, 1300, 3)];
    let rows = rows.map(|(side, strike, quantity)| PositionDraft::plain(0, side, strike, quantity));
    account(SeriesDraft { m: 5, ..series(PUT) }, rows.to_vec())
}

/// The violation found in a changed answer to these.
fn found(change: impl Fn(&mut Claim)) -> Option<String> {
    let account = three_puts();
    let mut claim = reference_claim(&account);
    change(&mut claim);
    check(&account, &claim, 4).err()
}

#[test]
fn totals_that_do_not_cover_are_found() {
    let right = reference_claim(&three_puts());
    let amounts: Vec<i64> = right.half_paired.iter().map(|half| half.total).collect();
    assert_eq!((amounts, right.margin.total), (vec![7_500, 5_100], 2_900));
    assert_eq!(found(|_| {}), None);
    assert_eq!(found(|claim| claim.margin.total = 2_100), None);
    for total in [2_099, 0] {
        let words = found(|claim| claim.margin.total = total).unwrap();
        assert!(words.starts_with(&format!("the cover: total {total} centavos with 2 pairs")));
    }
    for (pairs, worst) in [(0, 7_500), (1, 5_100)] {
        assert_eq!(found(|claim| claim.half_paired[pairs].total = worst), None);
        for total in [worst - 1, 0] {
            let words = found(|claim| claim.half_paired[pairs].total = total).unwrap();
            let expected = format!("the cover: total {total} centavos with {pairs} pairs");
            assert!(words.starts_with(&expected), "{words}");
        }
    }
}

/// What is found says that the document promises the cover alone here.
#[test]
fn unit_margins_too_small_are_found() {
    assert_eq!(
        found(|claim| claim.units[0] -= 1).unwrap(),
        "a unit margin (with an fb above 1,000,000 the cover alone is promised): row 0 pays \
         150000000 on path [1100000000], its unit margin is 149999999"
    );
    // Too large is none of the cover's.
    assert_eq!(found(|claim| claim.units[0] = 1 << 60), None);
}

#[test]
fn contracts_and_pairs_are_checked_as_before() {
    assert!(found(|claim| claim.margin.left.clear()).unwrap().starts_with("contracts"));
    assert!(found(|claim| claim.half_paired[1].left.clear()).unwrap().starts_with("contracts"));
    let unpaired = |claim: &mut Claim| claim.margin = claim.half_paired[0].clone();
    assert!(found(unpaired).unwrap().starts_with("pairs left unmade"));
}

fn kind(position: &Position) -> u8 {
    match position.barrier {
        Barrier::None => NO_BARRIER,
        Barrier::UpAndIn(_) => UP_AND_IN,
        Barrier::DownAndIn(_) => DOWN_AND_IN,
        Barrier::UpAndOut(_) => UP_AND_OUT,
        Barrier::DownAndOut(_) => DOWN_AND_OUT,
    }
}

/// Among the vectors that are accepted: in series whose fb is above 1,000,000,
/// rows of every kind, written and held, calls and puts, knock-ins with flag 1
/// and without.
#[test]
fn the_vectors_have_long_expiries() {
    let mut found = Vec::new();
    let (mut covered, mut excluded) = (0, 0);
    for account in all_cases().iter().filter_map(|case| read_account(&case.bytes).ok()) {
        let long = |p: &&Position| account.series[p.series].fb > MILLION;
        let rows: Vec<&Position> = account.positions.iter().filter(long).collect();
        for p in &rows {
            let option_type = account.series[p.series].option_type;
            found.push((option_type, p.side, kind(p), p.already_knocked_in));
        }
        match (rows.is_empty(), cover_promised(&account)) {
            (true, _) => {}
            (false, true) => covered += 1,
            (false, false) => excluded += 1,
        }
    }
    for option_type in [OptionType::Call, OptionType::Put] {
        for side in [Side::Written, Side::Held] {
            for kind in [NO_BARRIER, UP_AND_IN, DOWN_AND_IN, UP_AND_OUT, DOWN_AND_OUT] {
                for knocked_in in [false, true] {
                    let may_be = kind == UP_AND_IN || kind == DOWN_AND_IN;
                    let row = (option_type, side, kind, knocked_in);
                    assert!((knocked_in && !may_be) || found.contains(&row), "{row:?}");
                }
            }
        }
    }
    assert!(covered > 100 && excluded > 15, "{covered} covered, {excluded} excluded");
}

/// The vectors with an fb above 1,000,000, by paths of up to two prices.
#[test]
fn the_vectors_are_covered() {
    let mut tried = 0;
    for case in all_cases() {
        let Ok(account) = read_account(&case.bytes) else { continue };
        if least_amount_promised(&account) || !cover_promised(&account) {
            continue;
        }
        let words = check(&account, &reference_claim(&account), 2).err();
        assert_eq!(words, None, "{}: {}", case.group, case.name);
        tried += 1;
    }
    assert!(tried > 100, "{tried}");
}
