//! Factors from the days: the values that are known, the rule of every number
//! by itself, the promises on growth in exact numbers, and the limits.

use std::cmp::Ordering;

use reference::draft::{Draft, SeriesDraft, CALL};
use reference::factors::{
    daily_factors, factors, factors_by, growth, high_rate, low_rate, root, CodeRow, DailyFactors,
    Factors, Rounding, CODE_ROWS, FCI, FPI, MOST_DAYS, OFC, OFV, ONE, YEAR,
};
use reference::factors_list::{codes_and_days, factors_list};
use reference::reader::{read_account, Refusal};

const REFUSED: Result<Factors, Refusal> = Err(Refusal { number: 14, row: 0 });

fn given(code: u64, days: u64) -> Factors {
    factors(code, days).expect("given")
}

#[test]
fn roots() {
    for (n, s) in [(0, 0), (1, 52_705), (90, 500_000), (360, 1_000_000), (1_800, 2_236_068)] {
        assert_eq!(root(n), s);
    }
    for n in 0..=MOST_DAYS as i64 {
        let s = root(n);
        assert!(s * s * 360 >= n * 1_000_000_000_000);
        assert!(s == 0 || (s - 1) * (s - 1) * 360 < n * 1_000_000_000_000);
    }
}

#[test]
fn base_rates() {
    let rates = CODE_ROWS.map(|row| (high_rate(&row), low_rate(&row)));
    let expected = [
        (123_520_000, 118_480_000),
        (126_040_000, 115_960_000),
        (118_400_000, 113_600_000),
        (120_800_000, 111_200_000),
    ];
    assert_eq!(rates, expected);
}

#[test]
fn daily_factors_of_every_code() {
    for (row, high, low) in [
        (FCI, 100_058_694, 100_047_114),
        (FPI, 100_064_307, 100_041_139),
        (OFC, 100_046_928, 100_035_426),
        (OFV, 100_052_505, 100_029_492),
    ] {
        assert_eq!(daily_factors(&row), DailyFactors { high, low });
    }
}

/// The same by trying one number after the other.
#[test]
fn daily_factors_one_after_the_other() {
    let reaches = |d, ga| growth(d, YEAR, Rounding::Down) >= ga;
    let stays = |d, gb| growth(d, YEAR, Rounding::Up) <= gb;
    for row in CODE_ROWS {
        let DailyFactors { high, low } = daily_factors(&row);
        assert_eq!((ONE..).find(|d| reaches(*d, high_rate(&row))), Some(high));
        assert_eq!((ONE..).find(|d| !stays(*d, low_rate(&row))), Some(low + 1));
        // Where 360 reach, every later d reaches; where they pass, every later d passes.
        for d in high..high + 2_000 {
            assert!(reaches(d, high_rate(&row)));
        }
        for d in low + 1..low + 2_000 {
            assert!(!stays(d, low_rate(&row)));
        }
    }
}

/// "Stay" is asked of each of the 360, and the last one tells.
#[test]
fn low_multiplications_stay_on_the_way() {
    for row in CODE_ROWS {
        let d = daily_factors(&row).low;
        let on_the_way: Vec<i64> = (0..=YEAR).map(|times| growth(d, times, Rounding::Up)).collect();
        assert!(on_the_way.windows(2).all(|two| two[0] <= two[1]));
        assert!(on_the_way[YEAR as usize] <= low_rate(&row));
    }
}

#[test]
fn growth_is_rounded_at_every_step() {
    for row in CODE_ROWS {
        let DailyFactors { high, low } = daily_factors(&row);
        for n in 0..MOST_DAYS as i64 {
            let (before, after) =
                (growth(high, n, Rounding::Up), growth(high, n + 1, Rounding::Up));
            assert!(after * ONE >= before * high && (after - 1) * ONE < before * high);
            let (before, after) =
                (growth(low, n, Rounding::Down), growth(low, n + 1, Rounding::Down));
            assert!(after * ONE <= before * low && (after + 1) * ONE > before * low);
        }
    }
}

#[test]
fn known_factors() {
    assert_eq!(given(0, 720), Factors { fa: 1_863_083, fb: 1_085_366 });
    let longest = [0, 1, 2, 3].map(|code| given(code, 1_800).fa);
    assert_eq!(longest, [3_682_641, 4_845_674, 3_101_200, 4_102_929]);
}

/// Without a day there is no growth and no root: 1 + F4 and 1 − F4.
#[test]
fn no_days() {
    for (code, f4) in [(0, 100_000), (1, 100_000), (2, 150_000), (3, 150_000)] {
        assert_eq!(given(code, 0), Factors { fa: 1_000_000 + f4, fb: 1_000_000 - f4 });
    }
}

/// After 90 days S is a half, and the exact numbers have eighteen digits: fa
/// is the first millionth at or above, fb the last one at or below.
#[test]
fn factors_are_rounded_once() {
    for (code, row) in CODE_ROWS.iter().enumerate() {
        let DailyFactors { high, low } = daily_factors(row);
        let Factors { fa, fb } = given(code as u64, 90);
        // In units of 10^-18, from F2 / 2 in units of 10^-4.
        let wide = |x: i64| i128::from(x);
        let half = wide(row.f2 / 2);
        let f4 = wide(row.f4) * 100_000_000_000_000;
        let exact_fa = wide(growth(high, 90, Rounding::Up)) * (10_000 + half) * 1_000_000 + f4;
        let exact_fb = wide(growth(low, 90, Rounding::Down)) * (10_000 - half) * 1_000_000 - f4;
        let millionth = 1_000_000_000_000;
        assert!(wide(fa) * millionth >= exact_fa && wide(fa - 1) * millionth < exact_fa);
        assert!(wide(fb) * millionth <= exact_fb && wide(fb + 1) * millionth > exact_fb);
    }
}

/// With 1 − F2 × S below 0, or a growth that F4 uses up.
#[test]
fn fb_is_at_least_0() {
    for row in [CodeRow { f2: 9_000, ..OFV }, CodeRow { f2: 10_000, ..FCI }] {
        assert_eq!(factors_by(&row, daily_factors(&row), root(1_800), 1_800).fb, 0);
    }
    let row = CodeRow { f4: 10_000, ..FCI };
    assert_eq!(factors_by(&row, daily_factors(&row), 0, 0), Factors { fa: 2_000_000, fb: 0 });
    let row = CodeRow { f4: 9_999, ..FCI };
    assert_eq!(factors_by(&row, daily_factors(&row), 0, 0), Factors { fa: 1_999_900, fb: 100 });
}

/// fa 1,000,000 to 10,000,000, and fb at most fa: a series row with them is
/// accepted.
#[test]
fn every_factor_keeps_the_limits_of_a_series_row() {
    for code in 0..4 {
        for days in 0..=MOST_DAYS {
            let Factors { fa, fb } = given(code, days);
            assert!((1_000_000..=10_000_000).contains(&fa), "{code} {days}: fa {fa}");
            assert!((0..=fa).contains(&fb), "{code} {days}: fb {fb}");
            let series = SeriesDraft { fa: fa as u32, fb: fb as u32, ..SeriesDraft::checked(CALL) };
            let account = read_account(&Draft::new(vec![series], vec![]).bytes());
            let read = account.map(|account| (account.series[0].fa, account.series[0].fb));
            assert_eq!(read, Ok((fa, fb)));
        }
    }
}

#[test]
fn refusals() {
    let far = [1 << 32, 1 << 63, u64::MAX];
    for code in [0, 1, 2, 3, 4, u64::MAX] {
        for days in [1_801, 1_802].into_iter().chain(far) {
            assert_eq!(factors(code, days), REFUSED);
        }
    }
    for code in [4, 5, 256, 65_536, (1 << 32) + 1, (1 << 32) + 2].into_iter().chain(far) {
        for days in [0, 1, 1_800, 1_801] {
            assert_eq!(factors(code, days), REFUSED);
        }
    }
}

/// A whole number of any size, its 32-bit digits from the lowest.
struct Exact(Vec<u32>);

impl Exact {
    /// The product of two powers.
    fn powers(powers: [(i64, i64); 2]) -> Exact {
        let mut product = Exact(vec![1]);
        for (base, exponent) in powers {
            for _ in 0..exponent {
                product.multiply(u32::try_from(base).expect("a base of 32 bits"));
            }
        }
        product
    }

    fn multiply(&mut self, factor: u32) {
        let mut carry = 0;
        for digit in &mut self.0 {
            carry += u64::from(*digit) * u64::from(factor);
            *digit = carry as u32;
            carry >>= 32;
        }
        if carry > 0 {
            self.0.push(carry as u32);
        }
    }

    fn compare(&self, other: &Exact) -> Ordering {
        let from_the_top = |number: &Exact| number.0.iter().rev().copied().collect::<Vec<u32>>();
        let lengths = self.0.len().cmp(&other.0.len());
        lengths.then_with(|| from_the_top(self).cmp(&from_the_top(other)))
    }
}

/// Growth to the power 360 against the base rate to the power n, in the
/// common scale.
fn growth_against_rate(growth: i64, rate: i64, n: i64) -> Ordering {
    let grown = Exact::powers([(growth, 360), (ONE, n)]);
    grown.compare(&Exact::powers([(rate, n), (ONE, 360)]))
}

/// After one day growth is the daily factor itself. That day and the rounding
/// of every step give all others; some are tried here by themselves.
#[test]
fn high_growth_is_never_below_and_low_growth_never_above() {
    let days = [0, 1, 2, 30, 89, 90, 91, 180, 359, 360, 361, 719, 720, 1_080, 1_440, 1_799, 1_800];
    for row in CODE_ROWS {
        let DailyFactors { high, low } = daily_factors(&row);
        for n in days {
            let high = growth_against_rate(growth(high, n, Rounding::Up), high_rate(&row), n);
            assert_ne!(high, Ordering::Less, "{row:?}, {n} days");
            let low = growth_against_rate(growth(low, n, Rounding::Down), low_rate(&row), n);
            assert_ne!(low, Ordering::Greater, "{row:?}, {n} days");
        }
    }
}

/// The exact comparison itself: equal, and one unit beside.
#[test]
fn exact_powers() {
    for (growth, expected) in
        [(ONE, Ordering::Equal), (ONE + 1, Ordering::Greater), (ONE - 1, Ordering::Less)]
    {
        assert_eq!(growth_against_rate(growth, ONE, 360), expected);
    }
    assert_eq!(growth_against_rate(121_000_000, 110_000_000, 720), Ordering::Equal);
    assert_eq!(growth_against_rate(121_000_000, 110_000_001, 720), Ordering::Less);
}

#[test]
fn the_list() {
    let text = factors_list();
    let lines: Vec<&str> = text.split_terminator('\n').collect();
    assert_eq!(lines.len(), 7_211);
    assert_eq!(lines[..2], ["0 0 1100000 900000", "0 1 1106388 894670"]);
    assert_eq!(lines[720], "0 720 1863083 1085366");
    assert_eq!(lines[1_801], "0 1801 refused 14 0");
    assert_eq!(lines[1_802], "1 0 1100000 900000");
    assert_eq!(
        lines[7_207..],
        [
            "3 1801 refused 14 0",
            "4 0 refused 14 0",
            "18446744073709551615 0 refused 14 0",
            "0 18446744073709551615 refused 14 0"
        ]
    );
    for (line, (code, days)) in lines.iter().zip(codes_and_days()) {
        assert!(line.starts_with(&format!("{code} {days} ")));
    }
    assert_eq!(lines.iter().filter(|line| line.ends_with(" refused 14 0")).count(), 7);
}

/// The list that stands in the repository is the one that is made here.
#[test]
fn the_stored_list_is_up_to_date() {
    let stored = concat!(env!("CARGO_MANIFEST_DIR"), "/../crates/factors_list/stdout");
    assert!(std::fs::read(stored).expect("stdout") == factors_list().into_bytes());
}
