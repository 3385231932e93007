//! The paths of series whose fb is above 1,000,000 (document 02 [11]), on
//! accounts at random.

use reference::account::{Account, Barrier, OptionType, Position, Series, Side, MILLION};
use reference::brute_force::{
    check, check_cover, cover_promised, prices_of_interest, reference_claim, Claim,
};
use reference::draft::{
    Draft, PositionDraft, SeriesDraft, CALL, HELD, NO_BARRIER, PUT, UP_AND_IN, UP_AND_OUT, WRITTEN,
};
use reference::paths::{is_path, may_follow, nearest_following, payment};
use reference::random::Random;
use reference::reader::read_account;
use reference::sample::{
    at_long_expiries, limited_alike, sample_account, some_blocked, some_knocked_out, SMALL, WIDE,
};

/// An account at random, in every other one with limiters beside each other,
/// knock-outs touched and contracts blocked.
fn random_account(random: &mut Random, number: usize) -> Account {
    let mut draft = sample_account(random, if number % 8 == 7 { &WIDE } else { &SMALL });
    if number % 2 == 1 {
        draft = limited_alike(random, draft);
        draft = some_knocked_out(random, draft);
        draft = some_blocked(random, draft);
    }
    read_account(&at_long_expiries(random, draft).bytes()).expect("accepted")
}

/// The rows in series whose fb is above 1,000,000.
fn long_rows(account: &Account) -> impl Iterator<Item = (&Series, &Position)> {
    let with_series = |position: &Position| account.series[position.series].fb > MILLION;
    let rows = account.positions.iter().filter(move |position| with_series(position));
    rows.map(|position| (&account.series[position.series], position))
}

/// Type, side, number of the kind, and flag 1.
type Sort = (OptionType, Side, usize, bool);

fn sort((series, position): (&Series, &Position)) -> Sort {
    let kind = match position.barrier {
        Barrier::None => 0,
        Barrier::UpAndIn(_) => 1,
        Barrier::DownAndIn(_) => 2,
        Barrier::UpAndOut(_) => 3,
        Barrier::DownAndOut(_) => 4,
    };
    (series.option_type, position.side, kind, position.already_knocked_in)
}

fn every_sort() -> Vec<Sort> {
    let mut sorts = Vec::new();
    for option_type in [OptionType::Call, OptionType::Put] {
        for side in [Side::Held, Side::Written] {
            for (kind, knocked_in) in
                [(0, false), (1, false), (1, true), (2, false), (2, true), (3, false), (4, false)]
            {
                sorts.push((option_type, side, kind, knocked_in));
            }
        }
    }
    sorts
}

/// What came up among accounts whose cover was checked, and those excluded.
#[derive(Default)]
struct Counts {
    long: usize,
    excluded: usize,
    pairs: usize,
    half_paired: usize,
    /// Barriers at H, and strikes at L or H.
    met_exactly: usize,
    sorts: Vec<Sort>,
}

impl Counts {
    fn add(&mut self, account: &Account, claim: &Claim) {
        self.long += long_rows(account).next().is_some() as usize;
        let half = claim.half_paired.iter().filter(|half| !half.pairs.is_empty());
        self.half_paired += half.count();
        let of_long = |written: usize| account.series_of(written).fb > MILLION;
        self.pairs += claim.margin.pairs.iter().filter(|pair| of_long(pair.written)).count();
        self.sorts.extend(long_rows(account).map(sort));
        let met_exactly = |(series, position): &(&Series, &Position)| {
            let strike = position.strike * MILLION;
            let barrier = position.barrier.price().map(|price| price * MILLION);
            [series.low(), series.high()].contains(&strike) || barrier == Some(series.high())
        };
        self.met_exactly += long_rows(account).filter(met_exactly).count();
    }
}

#[test]
fn random_accounts_are_covered() {
    let mut random = Random::new(11);
    let mut counts = Counts::default();
    for number in 0..1_200 {
        let account = random_account(&mut random, number);
        let claim = reference_claim(&account);
        let steps = check(&account, &claim, 4)
            .unwrap_or_else(|words| panic!("{words}\n{account:#?}\n{claim:#?}"));
        assert_eq!(steps > 0, cover_promised(&account));
        if cover_promised(&account) {
            counts.add(&account, &claim);
        } else {
            counts.excluded += 1;
        }
    }
    let Counts { long, excluded, pairs, half_paired, met_exactly, sorts } = counts;
    assert!(long > 900 && excluded > 10, "{long} with fb above 1, {excluded} excluded");
    assert!(pairs > 300 && half_paired > 100, "{pairs} pairs, {half_paired} half-paired");
    assert!(met_exactly > 50, "{met_exactly} met exactly");
    for sort in every_sort() {
        let found = sorts.iter().filter(|of_row| **of_row == sort).count();
        let excluded = sort == (OptionType::Put, Side::Written, 1, false);
        assert!(if excluded { found == 0 } else { found >= 15 }, "{found} {sort:?}");
    }
}

/// The account with its held up-and-in puts written.
fn all_written(mut account: Account) -> Account {
    for position in &mut account.positions {
        let put = account.series[position.series].option_type == OptionType::Put;
        if put && matches!(position.barrier, Barrier::UpAndIn(_)) {
            (position.side, position.premium, position.blocked) = (Side::Written, 0, 0);
        }
    }
    account
}

/// Of the accounts that the proviso excludes, some are not covered.
#[test]
fn some_excluded_accounts_are_not_covered() {
    let mut random = Random::new(12);
    let (mut excluded, mut not_covered) = (0, 0);
    for number in 0..1_200 {
        let account = all_written(random_account(&mut random, number));
        if !cover_promised(&account) {
            excluded += 1;
            not_covered += check_cover(&account, &reference_claim(&account), 2).is_err() as usize;
        }
    }
    assert!(excluded > 50 && not_covered > 3, "{not_covered} of {excluded}");
}

#[test]
fn the_nearest_price_that_may_follow() {
    let mut random = Random::new(13);
    for number in 0..600 {
        for series in random_account(&mut random, number).series {
            if series.fb <= MILLION {
                continue;
            }
            let p = random.between(series.low(), series.high());
            let nearest = nearest_following(&series, p);
            assert!(p < nearest && !may_follow(&series, p, nearest - 1));
            // Above every such price is H: fa bars none.
            assert!(i128::from(p) * i128::from(series.fa) > i128::from(series.high()) * 1_000_000);
            assert!(nearest > series.high() || may_follow(&series, p, series.high()));
            assert!(nearest > series.high() || may_follow(&series, p, nearest));
        }
    }
}

/// FCI at two years, PV 1000, a put at 1250: L, the price nearest after it, the
/// strike, the price nearest after that, and H.
#[test]
fn prices_of_interest_that_follow_others() {
    let series = SeriesDraft { fa: 1_863_083, fb: 1_085_366, pv: 1000, ..narrow(PUT) };
    let rows = vec![PositionDraft::plain(0, WRITTEN, 1250, 1)];
    let mut account = read_account(&Draft::new(vec![series], rows).bytes()).expect("accepted");
    let prices = [1_085_366_000, 1_178_019_354, 1_250_000_000, 1_356_707_500, 1_863_083_000];
    assert_eq!(prices_of_interest(&account, 0), prices);
    // Five paths of one price, nine of two, seven of three and two of four: all but
    // the strike, and all but the price nearest after L.
    let [low, nearest, strike, after_strike, high] = prices;
    assert!(is_path(&account.series[0], &[low, nearest, after_strike, high]));
    assert!(is_path(&account.series[0], &[low, strike, after_strike, high]));
    let steps = |longest| check(&account, &reference_claim(&account), longest).unwrap();
    assert_eq!([1, 2, 3, 4].map(steps), [5, 14, 21, 23]);
    // Not where fb is at most 1,000,000.
    account.series[0].fb = 1_000_000;
    let prices = [1_000_000_000, 1_250_000_000, 1_863_083_000];
    assert_eq!(prices_of_interest(&account, 0), prices);
}

/// Paths of two and three prices of interest of a series.
fn longer_paths(series: &Series, prices: &[i64]) -> Vec<Vec<i64>> {
    let mut paths = Vec::new();
    for &first in prices {
        for &second in prices {
            paths.push(vec![first, second]);
            paths.extend(prices.iter().map(|&third| vec![first, second, third]));
        }
    }
    paths.retain(|path| is_path(series, path));
    paths
}

/// Where fb is above 1,000,000 a position pays on every path what it pays on
/// the path of the last price alone: paths of one price leave nothing out.
#[test]
fn the_last_price_tells() {
    let mut random = Random::new(14);
    let (mut of_two, mut of_three) = (0, 0);
    for number in 0..600 {
        let account = random_account(&mut random, number);
        for (series_number, series) in account.series.iter().enumerate() {
            if series.fb <= MILLION {
                continue;
            }
            let paths = longer_paths(series, &prices_of_interest(&account, series_number));
            let rows = account.positions.iter().filter(|p| p.series == series_number);
            for (position, path) in rows.flat_map(|p| paths.iter().map(move |path| (p, path))) {
                let pays = |prices| payment(series.option_type, &position.terms(), prices);
                assert_eq!(pays(path), pays(&path[path.len() - 1..]), "{position:?} {path:?}");
            }
            of_two += paths.iter().filter(|path| path.len() == 2).count();
            of_three += paths.iter().filter(|path| path.len() == 3).count();
        }
    }
    assert!(of_two > 5_000 && of_three > 5_000, "{of_two} of two prices, {of_three} of three");
}

/// PV 3, L 3.999 and H 4.0011: 2,101 prices, one of them in whole ticks.
fn narrow(type_byte: u8) -> SeriesDraft {
    let checked = SeriesDraft::checked(type_byte);
    SeriesDraft { pv: 3, fa: 1_333_700, fb: 1_333_000, f3: 0, m: 1_000, ..checked }
}

fn narrow_account(random: &mut Random) -> Account {
    let type_byte = random.pick(&[CALL, PUT]);
    let mut rows = Vec::new();
    for _ in 0..random.between(2, 5) {
        let side = random.pick(&[HELD, WRITTEN]);
        let strike = random.between(3, 6) as u32;
        let row = PositionDraft::plain(0, side, strike, random.between(1, 90_000) as u32);
        let row = match random.pick(&[NO_BARRIER, UP_AND_IN, UP_AND_OUT]) {
            NO_BARRIER => row,
            kind => row.with_barrier(kind, random.pick(&[4, 5]), random.pick(&[0, 1, 2])),
        };
        rows.push(match (random.chance(30), type_byte) {
            (false, _) => row,
            (true, CALL) => row.with_limiter(strike + 1),
            (true, _) => row.with_limiter(strike - 1),
        });
    }
    read_account(&Draft::new(vec![narrow(type_byte)], rows).bytes()).expect("accepted")
}

/// What the written rows pay out less what the pairs bring in, at worst of all
/// prices from L to H, in centavos rounded up.
fn worst_of_all_prices(account: &Account, claim: &Claim) -> i64 {
    let series = &account.series[0];
    let out = |price: i64| -> i128 {
        let money = |row: usize, quantity: i64| {
            let pays = payment(series.option_type, &account.positions[row].terms(), &[price]);
            i128::from(pays) * i128::from(series.m) * i128::from(quantity)
        };
        let rows = account.positions.iter().enumerate();
        let written = rows.filter(|(_, position)| position.side == Side::Written);
        let paid: i128 = written.map(|(row, position)| money(row, position.quantity)).sum();
        paid - claim.margin.pairs.iter().map(|p| money(p.held, p.quantity)).sum::<i128>()
    };
    let worst = (series.low()..=series.high()).map(out).max().unwrap();
    (-(-worst).div_euclid(i128::from(MILLION))) as i64
}

/// The prices of interest show the worst of all prices, to the centavo. Rows
/// that the proviso excludes are among them: here the worst alone is asked for.
#[test]
fn no_price_is_worse_than_those_of_interest() {
    let mut random = Random::new(15);
    let (mut paired, mut owing) = (0, 0);
    for _ in 0..400 {
        let account = narrow_account(&mut random);
        let mut claim = reference_claim(&account);
        claim.half_paired.clear();
        let worst = worst_of_all_prices(&account, &claim);
        claim.margin.total = worst;
        assert_eq!(check_cover(&account, &claim, 4), Ok(()));
        claim.margin.total = worst - 1;
        assert!(check_cover(&account, &claim, 4).is_err(), "{worst}: {account:#?}");
        paired += !claim.margin.pairs.is_empty() as usize;
        owing += (worst > 0) as usize;
    }
    assert!(paired > 40 && owing > 200, "{paired} with pairs, {owing} owing");
}
