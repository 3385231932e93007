//! A load for the bench (document 02 [10]): the states, files worked out apart
//! from the code, what every file has, the buffer after it, and refusals.

use std::collections::BTreeSet;

use reference::account::{Account, Barrier, Limiter, OptionType, Series, Side};
use reference::load::{load, State, MODULUS};
use reference::load_list::{cases, load_list, load_output, Case};
use reference::random::Random;
use reference::reader::{read_account, Refusal};

const MOST_SEED: u64 = 2_147_483_646;

/// From seed 1, each 48271 times the one before, mod 2147483647.
const STATES: [u64; 23] = [
    48_271,
    182_605_794,
    1_291_394_886,
    1_914_720_637,
    2_078_669_041,
    407_355_683,
    1_105_902_161,
    854_716_505,
    564_586_691,
    1_596_680_831,
    192_302_371,
    1_203_428_207,
    1_250_328_747,
    1_738_531_149,
    1_271_135_913,
    1_098_894_339,
    1_882_556_969,
    2_136_927_794,
    1_559_527_823,
    2_075_782_095,
    638_022_372,
    914_937_185,
    1_931_656_580,
];

/// Side, kind, Q, PE, barrier price and REB.
type Row = (Side, u8, i64, i64, i64, i64);

/// The file, in a buffer of its own length.
fn made(seed: u64, p: u64) -> Vec<u8> {
    let bytes = 36 + 32 * p as usize;
    let mut buffer = vec![165; bytes];
    assert_eq!(load(seed, p, &mut buffer), Ok(bytes), "{seed} {p}");
    buffer
}

fn read(seed: u64, p: u64) -> Account {
    read_account(&made(seed, p)).expect("accepted")
}

/// The rows as they are read; a row without barrier has price 0.
fn rows(account: &Account) -> Vec<Row> {
    let row = |p: &reference::account::Position| {
        let (kind, price) = match p.barrier {
            Barrier::None => (0, 0),
            Barrier::UpAndIn(price) => (1, price),
            Barrier::DownAndIn(price) => (2, price),
            Barrier::UpAndOut(price) => (3, price),
            Barrier::DownAndOut(price) => (4, price),
        };
        (p.side, kind, p.quantity, p.strike, price, p.rebate)
    };
    account.positions.iter().map(row).collect()
}

/// So many seeds over the whole range, with both ends.
fn seeds(count: u64) -> impl Iterator<Item = u64> {
    let mut random = Random::new(10);
    [1, 2, MOST_SEED - 1, MOST_SEED]
        .into_iter()
        .chain((4..count).map(move |_| random.between(1, MOST_SEED as i64) as u64))
}

#[test]
fn states() {
    let mut state = State::seeded(1);
    for expected in STATES {
        assert_eq!(state.step(), expected);
    }
    // As seed 2147483646 is -1 mod 2147483647, its states are those of seed 1, subtracted.
    let mut state = State::seeded(MOST_SEED);
    for expected in STATES {
        assert_eq!(state.step(), MODULUS - expected);
    }
}

/// The C++ standard has this generator too, as `minstd_rand`, and gives the
/// 10,000th state from seed 1.
#[test]
fn the_state_after_10_000_steps() {
    let mut state = State::seeded(1);
    let last = (0..10_000).map(|_| state.step()).last();
    assert_eq!(last, Some(399_268_537));
}

/// draw(k) is of the state after the step.
#[test]
fn draws() {
    let mut state = State::seeded(1);
    let drawn = [9_000, 500_000, 500_001, 10, 2].map(|k| state.draw(k));
    assert_eq!(drawn, [3_271, 105_794, 392_304, 7, 1]);
    let mut state = State::seeded(MOST_SEED);
    let drawn = [9_000, 500_000, 500_001, 10, 2].map(|k| state.draw(k));
    assert_eq!(drawn, [8_376, 377_853, 87_049, 0, 0]);
}

/// PV 4271 = 0x10AF, fa 1105794 = 0x10DF82, fb 892304 = 0xD9D90, f3 50000 =
/// 0xC350, M 8, put; written, up-and-in, Q 6, PE 6692 = 0x1A24, barrier 4271 +
/// 1 + 831 = 5103 = 0x13EF, REB 71.
#[test]
fn bytes_of_seed_1() {
    #[rustfmt::skip]
    let expected = [
        0xAF, 0x10, 0, 0,  0x82, 0xDF, 0x10, 0,  0x90, 0x9D, 0x0D, 0,  0x50, 0xC3, 0, 0,  8, 0, 0, 0,  1, 0, 0, 0,
        0, 0,  1,  1,  4,  0, 0, 0,  6, 0, 0, 0,  0x24, 0x1A, 0, 0,
        0, 0, 0, 0,  0xEF, 0x13, 0, 0,  71, 0, 0, 0,  0, 0, 0, 0,
        1, 0,  1, 0,  68, 0, 0, 0,  0, 0, 0, 0,
    ];
    assert_eq!(made(1, 1), expected);
}

/// States 6 to 11 are the first row's, 12 to 17 the second's, and 18 to 23 the
/// third's.
#[test]
fn rows_of_seed_1() {
    let account = read(1, 3);
    let series = Series {
        pv: 4_271,
        fa: 1_105_794,
        fb: 892_304,
        f3: 50_000,
        m: 8,
        option_type: OptionType::Put,
    };
    assert_eq!(account.series, [series]);
    let expected = [
        (Side::Written, 1, 6, 6_692, 4_271 + 1 + 831, 71),
        (Side::Written, 2, 50, 5_914, 1 + 1_299, 69),
        (Side::Held, 3, 96, 2_373, 4_271 + 1 + 185, 80),
    ];
    assert_eq!(rows(&account), expected);
}

/// From 2147483647 less the states of seed 1. The second row has kind 0: it
/// takes states 12 to 15, and the third row begins with state 16.
#[test]
fn rows_of_the_greatest_seed() {
    let account = read(MOST_SEED, 3);
    let series = Series {
        pv: 9_376,
        fa: 1_377_853,
        fb: 587_049,
        f3: 50_000,
        m: 1,
        option_type: OptionType::Call,
    };
    assert_eq!(account.series, [series]);
    let expected = [
        (Side::Held, 1, 43, 6_957, 9_376 + 1 + 816, 76),
        (Side::Held, 0, 99, 7_735, 0, 0),
        (Side::Held, 3, 54, 5_825, 9_376 + 1 + 552, 75),
    ];
    assert_eq!(rows(&account), expected);
    assert_eq!((MODULUS - STATES[15]) % 2, 0);
    assert_eq!((MODULUS - STATES[16]) % 5, 3);
}

/// Every number is in the range that document 02 [10] gives it, and what it
/// leaves out is not there.
fn assert_as_drawn(account: &Account) {
    let [series] = account.series[..] else { panic!("one series") };
    assert!((1_000..=9_999).contains(&series.pv));
    assert!((1_000_000..=1_499_999).contains(&series.fa));
    assert!((500_000..=1_000_000).contains(&series.fb));
    assert!(series.f3 == 50_000 && (1..=10).contains(&series.m));
    for position in &account.positions {
        assert_eq!(position.series, 0);
        assert!((1..=100).contains(&position.quantity) && (1..=10_000).contains(&position.strike));
        assert!(position.european && !position.opened_before_annex);
        assert!(!position.already_knocked_in && !position.already_knocked_out);
        assert_eq!((position.limiter, position.premium), (Limiter::Absent, 0));
        assert_eq!(position.blocked, 0);
    }
    for (_, kind, _, _, price, rebate) in rows(account) {
        let prices = match kind {
            0 => 0..=0,
            1 | 3 => series.pv + 1..=series.pv + 1_000,
            _ => 1..=series.pv - 1,
        };
        assert!(prices.contains(&price), "{kind}: {price}");
        assert!((0..=if kind == 0 { 0 } else { 99 }).contains(&rebate), "{kind}: {rebate}");
    }
}

/// With every p, and with many seeds.
#[test]
fn every_file_is_accepted() {
    for p in 1..=256 {
        for seed in [1, 48_271, 20_030_814, MOST_SEED] {
            let account = read(seed, p);
            assert_eq!(account.positions.len() as u64, p);
            assert_as_drawn(&account);
        }
    }
    for (turn, seed) in seeds(60_000).enumerate() {
        let p = 1 + turn as u64 % 11;
        let account = read(seed, p);
        assert_eq!(account.positions.len() as u64, p);
        assert_as_drawn(&account);
    }
}

/// Of the series' numbers.
#[test]
fn ends_of_the_series_ranges_occur() {
    let (mut pvs, mut others) = (BTreeSet::new(), BTreeSet::new());
    for seed in seeds(200_000) {
        let series = read(seed, 1).series[0];
        pvs.insert(series.pv);
        others.insert((series.m, series.option_type == OptionType::Put));
    }
    assert!(pvs.contains(&1_000) && pvs.contains(&9_999));
    assert_eq!(others.len(), 10 * 2);
}

/// Of the rows' numbers. Barriers are looked at from PV, and from 0.
#[test]
fn ends_of_the_row_ranges_occur() {
    let mut found = BTreeSet::new();
    let (mut quantities, mut strikes) = (BTreeSet::new(), BTreeSet::new());
    let (mut barriers, mut rebates) = (BTreeSet::new(), BTreeSet::new());
    for seed in seeds(3_000) {
        let account = read(seed, 100);
        let pv = account.series[0].pv;
        for (side, kind, quantity, strike, price, rebate) in rows(&account) {
            found.insert((side == Side::Held, kind));
            quantities.insert(quantity);
            strikes.insert(strike);
            rebates.insert((kind, rebate));
            barriers.insert((kind, price - pv));
            barriers.insert((kind, price));
        }
    }
    assert_eq!(found.len(), 2 * 5);
    assert_eq!(quantities, (1..=100).collect());
    assert!(strikes.contains(&1) && strikes.contains(&10_000));
    let every_rebate = (1..=4).flat_map(|kind| (0..100).map(move |rebate| (kind, rebate)));
    assert_eq!(rebates, every_rebate.chain([(0, 0)]).collect());
    for end in [(1, 1), (1, 1_000), (2, 1), (2, -1), (3, 1), (3, 1_000), (4, 1), (4, -1)] {
        assert!(barriers.contains(&end), "{end:?}");
    }
}

/// The rows of a load are the first rows of every longer one.
#[test]
fn rows_follow_each_other() {
    for seed in seeds(20) {
        let longest = made(seed, 256);
        for p in [1, 2, 3, 17, 255] {
            let rows_end = 24 + 32 * p as usize;
            assert!(made(seed, p)[..rows_end] == longest[..rows_end], "{seed} {p}");
        }
        let rows: BTreeSet<&[u8]> = longest[24..24 + 32 * 256].chunks_exact(32).collect();
        assert!(rows.len() > 250, "{seed}");
    }
}

/// Whatever the buffer holds before: its bytes after the file stay, and the
/// file does not depend on it.
#[test]
fn bytes_after_the_file_stay() {
    let mut random = Random::new(11);
    for seed in seeds(200) {
        let p = random.between(1, 20) as u64;
        let file = made(seed, p);
        for more in [0, 1, 4, 5, 31, 32, 33, 8_228] {
            let before: Vec<u8> = (0..file.len() + more).map(|_| random.draw() as u8).collect();
            let mut buffer = before.clone();
            assert_eq!(load(seed, p, &mut buffer), Ok(file.len()));
            assert!(buffer[..file.len()] == file, "{seed} {p} {more}");
            assert!(buffer[file.len()..] == before[file.len()..], "{seed} {p} {more}");
        }
    }
}

/// Refused with 20 at row 0, and every byte stays.
fn assert_refused(seed: u64, p: u64, room: usize) {
    let mut buffer: Vec<u8> = (0..room).map(|at| at as u8 ^ 0xA5).collect();
    let before = buffer.clone();
    let answer = load(seed, p, &mut buffer);
    assert_eq!(answer, Err(Refusal { number: 20, row: 0 }), "{seed} {p} {room}");
    assert!(buffer == before, "{seed} {p} {room}");
}

/// Some of them would be in their range by their low bits.
#[test]
fn seed_and_p_out_of_their_ranges() {
    let high_bits = (32..64).map(|bit| 1 + (1 << bit));
    let beside = [0, MOST_SEED + 1, MOST_SEED + 2, 1 << 32, u64::MAX];
    for seed in beside.into_iter().chain(high_bits) {
        for (p, room) in [(1, 68), (256, 8_228), (0, 68), (257, 8_260)] {
            assert_refused(seed, p, room);
        }
    }
    let high_bits = (9..64).flat_map(|bit| [1 << bit, 1 + (1 << bit), 256 + (1 << bit)]);
    for p in [0, 257, 258, 512, u64::MAX].into_iter().chain(high_bits) {
        for room in [0, 36, 68, 8_228, 8_260, 70_000] {
            assert_refused(1, p, room);
            assert_refused(MOST_SEED, p, room);
        }
    }
}

/// Every shorter one, and one byte more is enough.
#[test]
fn buffers_that_are_too_short() {
    for p in [1, 2, 7, 255, 256] {
        let needed = 36 + 32 * p as usize;
        for room in 0..needed {
            assert_refused(MOST_SEED, p, room);
        }
        assert_eq!(load(MOST_SEED, p, &mut vec![0; needed]), Ok(needed));
    }
}

#[test]
fn the_list() {
    let all = cases();
    assert_eq!(all.len(), 4 + 300 + 12);
    assert_eq!(all[4], Case { seed: 7_158_278, p: 2, room: 105 });
    assert_eq!(all[303], Case { seed: 2_147_483_400, p: 5, room: 201 });
    for (at, case) in all.iter().enumerate() {
        let outcome = match at {
            0..304 => format!("made {}", 36 + 32 * case.p),
            _ => "refused 20 0".to_string(),
        };
        let line = format!("{} {} {} {outcome}\n", case.seed, case.p, case.room);
        let output = load_output(case);
        assert!(output.starts_with(line.as_bytes()), "{case:?}");
        assert_eq!(output.len(), line.len() + case.room + 1);
        let rest = if at < 304 { 36 + 32 * case.p as usize } else { 0 };
        assert!(output[line.len() + rest..output.len() - 1].iter().all(|byte| *byte == 165));
    }
    let first = [b"1 1 68 made 68\n", &made(1, 1)[..], b"\n"].concat();
    assert_eq!(load_output(&all[0]), first);
}

/// The list that stands in the repository is the one that is made here.
#[test]
fn the_stored_list_is_up_to_date() {
    let stored = concat!(env!("CARGO_MANIFEST_DIR"), "/../crates/load_list/stdout");
    assert!(std::fs::read(stored).expect("stdout") == load_list());
}
