//! What the day crossed (document 02 [5]): a file brought up to date.

use reference::account::fine;
use reference::day::{apply_day, day_output, Day, FLAGS_AT};
use reference::draft::{
    example, Draft, PositionDraft, SeriesDraft, CALL, DOWN_AND_IN, DOWN_AND_OUT, HELD, PUT,
    UP_AND_IN, UP_AND_OUT, WRITTEN,
};
use reference::output::margin_output;
use reference::paths::payment;
use reference::random::Random;
use reference::reader::{distance, read_account, Refusal, POSITION_BYTES, SERIES_BYTES};
use reference::sample::{sample_account, sample_day, some_knocked_out, Shape};

const SMALL: Shape = Shape {
    series: (1, 4),
    positions: (0, 9),
    pv: (2, 60),
    quantity: (1, 9),
    m: (1, 9),
    fb_above_one: true,
};
const WIDE: Shape = Shape { pv: (1, 10_000_000), quantity: (1, 100_000), m: (1, 1_000), ..SMALL };

fn day(high: u64, low: u64, close: u64) -> Day {
    Day { series: 0, high, low, close }
}

fn row(side: u8, kind: u8, price: u32) -> PositionDraft {
    PositionDraft::plain(0, side, 3100, 10).with_barrier(kind, price, 40)
}

fn calls(rows: Vec<PositionDraft>) -> Draft {
    Draft::new(vec![SeriesDraft::checked(CALL)], rows)
}

/// The file after a day that is applied.
fn after(draft: &Draft, day: Day) -> Vec<u8> {
    let mut bytes = draft.bytes();
    assert_eq!(apply_day(&mut bytes, &day), Ok(()), "{day:?}");
    bytes
}

/// The same account with this PV in series 0, and with these flags more.
fn changed(draft: &Draft, pv: u32, flags: &[(usize, u8)]) -> Vec<u8> {
    let mut draft = draft.clone();
    draft.series[0].pv = pv;
    for &(row, flag) in flags {
        draft.positions[row].flags |= flag;
    }
    draft.bytes()
}

/// The refusal of a day, which leaves the bytes as they were.
fn refusal(bytes: &[u8], day: Day) -> (i64, usize) {
    let mut found = bytes.to_vec();
    let Refusal { number, row } = apply_day(&mut found, &day).expect_err("refused");
    assert!(found == bytes, "{day:?}");
    (number, row)
}

#[test]
fn barriers_met_exactly_and_missed_by_a_tick() {
    for side in [WRITTEN, HELD] {
        for (kind, flag) in [(UP_AND_IN, 1), (UP_AND_OUT, 16)] {
            let draft = calls(vec![row(side, kind, 3400)]);
            assert_eq!(after(&draft, day(3399, 2000, 3000)), changed(&draft, 3000, &[]));
            assert_eq!(after(&draft, day(3400, 2000, 3000)), changed(&draft, 3000, &[(0, flag)]));
            assert_eq!(after(&draft, day(3401, 2000, 3401)), changed(&draft, 3401, &[(0, flag)]));
            // The low at the barrier is the high's affair alone.
            assert_eq!(after(&draft, day(3400, 3400, 3400)), changed(&draft, 3400, &[(0, flag)]));
        }
        for (kind, flag) in [(DOWN_AND_IN, 1), (DOWN_AND_OUT, 16)] {
            let draft = calls(vec![row(side, kind, 2600)]);
            assert_eq!(after(&draft, day(4000, 2601, 3000)), changed(&draft, 3000, &[]));
            assert_eq!(after(&draft, day(4000, 2600, 3000)), changed(&draft, 3000, &[(0, flag)]));
            assert_eq!(after(&draft, day(4000, 2599, 2599)), changed(&draft, 2599, &[(0, flag)]));
            assert_eq!(after(&draft, day(2600, 2600, 2600)), changed(&draft, 2600, &[(0, flag)]));
        }
    }
}

/// An up barrier is not touched from above by the low, nor a down barrier by
/// the high.
#[test]
fn each_barrier_by_its_own_price() {
    let draft = calls(vec![row(WRITTEN, UP_AND_IN, 3400), row(WRITTEN, DOWN_AND_OUT, 2600)]);
    assert_eq!(after(&draft, day(3399, 2601, 3399)), changed(&draft, 3399, &[]));
    assert_eq!(after(&draft, day(9_000, 8_000, 8_500)), changed(&draft, 8_500, &[(0, 1)]));
    assert_eq!(after(&draft, day(200, 100, 150)), changed(&draft, 150, &[(1, 16)]));
}

/// A row without barrier is never flagged.
#[test]
fn no_barrier() {
    let draft = calls(vec![PositionDraft::plain(0, WRITTEN, 3100, 10)]);
    assert_eq!(after(&draft, day(10_000_000, 1, 7)), changed(&draft, 7, &[]));
}

#[test]
fn flags_2_4_and_8_stay() {
    for (kind, price, flag) in [(UP_AND_IN, 3400, 1), (UP_AND_OUT, 3400, 16)] {
        for style in [(false, false), (true, false), (false, true), (true, true)] {
            let plain = row(WRITTEN, kind, price).style(style.0, style.1);
            for row in [plain, plain.with_limiter(3900)] {
                let draft = calls(vec![row]);
                let expected = changed(&draft, 3000, &[(0, flag)]);
                assert_eq!(after(&draft, day(3400, 3000, 3000)), expected);
                assert_eq!(after(&draft, day(3399, 3000, 3000)), changed(&draft, 3000, &[]));
            }
        }
    }
}

/// Set before and touched, set before and not touched.
#[test]
fn rows_already_flagged() {
    let rows = vec![
        row(WRITTEN, UP_AND_IN, 3400).knocked_in(),
        row(HELD, DOWN_AND_IN, 2600).knocked_in(),
        row(WRITTEN, UP_AND_OUT, 3400).knocked_out(),
        row(HELD, DOWN_AND_OUT, 2600).knocked_out(),
    ];
    let draft = calls(rows);
    for day in [day(3400, 2600, 3000), day(3399, 2601, 3000), day(9_000, 1, 5_000)] {
        assert_eq!(after(&draft, day), changed(&draft, day.close as u32, &[]));
    }
}

/// Every series has rows with the same barriers, in turn.
#[test]
fn rows_of_other_series() {
    let series: Vec<SeriesDraft> = (0..32u32)
        .map(|number| SeriesDraft { pv: 3000 + number, ..SeriesDraft::checked(PUT) })
        .collect();
    let kinds = [(UP_AND_IN, 3400), (DOWN_AND_IN, 2600), (UP_AND_OUT, 3400), (DOWN_AND_OUT, 2600)];
    let rows = kinds.iter().flat_map(|(kind, price)| {
        (0..32).map(|series| PositionDraft { series, ..row(WRITTEN, *kind, *price) })
    });
    let draft = Draft::new(series, rows.collect());
    for series in [0, 1, 30, 31] {
        let mut expected = draft.clone();
        expected.series[series].pv = 2700;
        for (turn, flag) in [1, 1, 16, 16].into_iter().enumerate() {
            expected.positions[32 * turn + series].flags |= flag;
        }
        let day = Day { series: series as u64, ..day(3400, 2600, 2700) };
        assert_eq!(after(&draft, day), expected.bytes());
    }
}

#[test]
fn cover_sheets_stay() {
    let draft = calls(vec![row(WRITTEN, UP_AND_OUT, 3400), row(HELD, DOWN_AND_IN, 2600)]);
    let whole = draft.bytes();
    for cover in [
        vec![0],
        SeriesDraft::checked(CALL).bytes(),
        row(WRITTEN, UP_AND_OUT, 3400).bytes(),
        whole[..whole.len() - 12].to_vec(),
        whole.clone(),
        draft.trailer(),
        [&whole[..], &[1, 2, 3]].concat(),
        vec![0xA5; 65_536 - whole.len()],
    ] {
        let draft = Draft { cover, ..draft.clone() };
        let expected = changed(&draft, 3333, &[(0, 16), (1, 1)]);
        assert_eq!(after(&draft, day(3400, 2600, 3333)), expected);
    }
}

#[test]
fn an_account_without_positions() {
    for series_count in [1, 32] {
        let draft = Draft::new(vec![SeriesDraft::checked(CALL); series_count], vec![]);
        let draft = Draft { cover: example().bytes(), ..draft };
        assert_eq!(after(&draft, day(3400, 2600, 2601)), changed(&draft, 2601, &[]));
        let series = series_count as u64;
        assert_eq!(refusal(&draft.bytes(), Day { series, ..day(2, 1, 1) }), (16, 0));
        assert_eq!(refusal(&draft.bytes(), day(2, 1, 3)), (17, 0));
    }
}

/// The reading's first, then 16, then 17.
#[test]
fn the_order_of_refusals() {
    let draft = calls(vec![row(WRITTEN, UP_AND_OUT, 3400), row(HELD, DOWN_AND_IN, 2600)]);
    let right = day(3400, 2600, 3000);
    let no_series = Day { series: 1, ..right };
    let no_day = Day { close: 9_000, ..right };
    let neither = Day { series: 1, ..no_day };
    assert_eq!(refusal(&draft.bytes(), no_series), (16, 0));
    assert_eq!(refusal(&draft.bytes(), no_day), (17, 0));
    assert_eq!(refusal(&draft.bytes(), neither), (16, 0));
    let mut wrong = draft.clone();
    wrong.positions[1].quantity = 0;
    for day in [right, no_series, no_day, neither] {
        assert_eq!(refusal(&wrong.bytes(), day), (8, 1));
        assert_eq!(refusal(&draft.bytes()[1..], day), (4, 0));
        assert_eq!(refusal(&[], day), (1, 0));
    }
    // No refusal has the number 15.
    for number in 0..20 {
        let day = Day { series: number, ..right };
        assert_eq!(apply_day(&mut draft.bytes(), &day).map_err(|r| r.number).is_ok(), number == 0);
    }
}

#[test]
fn series_not_in_the_account() {
    let draft = Draft::new(vec![SeriesDraft::checked(CALL); 32], vec![row(HELD, UP_AND_IN, 3400)]);
    for series in 0..32 {
        assert_eq!(apply_day(&mut draft.bytes(), &Day { series, ..day(3400, 1, 1) }), Ok(()));
    }
    for series in [32, 33, 255, 256, 65_535, 65_536, 1 << 32, (1 << 32) + 31, 1 << 63, u64::MAX] {
        assert_eq!(refusal(&draft.bytes(), Day { series, ..day(3400, 1, 1) }), (16, 0));
        assert_eq!(refusal(&draft.bytes(), Day { series, ..day(0, 1, u64::MAX) }), (16, 0));
    }
}

#[test]
fn prices_that_no_day_has() {
    let bytes = calls(vec![row(WRITTEN, UP_AND_OUT, 3400)]).bytes();
    let highest = 10_000_000;
    for (high, low, close) in [
        (highest, 1, 1),
        (highest, 1, highest),
        (highest, highest, highest),
        (1, 1, 1),
        (3001, 3000, 3000),
        (3001, 3000, 3001),
    ] {
        assert_eq!(apply_day(&mut bytes.clone(), &day(high, low, close)), Ok(()));
    }
    for (high, low, close) in [
        // High below low.
        (2999, 3000, 3000),
        (2999, 3000, 2999),
        (1, 2, 1),
        // Close outside them.
        (3001, 3000, 2999),
        (3001, 3000, 3002),
        (3000, 3000, 3001),
        // Not 1 to 10,000,000.
        (highest + 1, 1, 1),
        (highest + 1, highest + 1, highest + 1),
        (highest + 1, highest, highest),
        (3000, 0, 1),
        (3000, 0, 0),
        (0, 0, 0),
    ] {
        assert_eq!(refusal(&bytes, day(high, low, close)), (17, 0), "{high} {low} {close}");
    }
}

/// Numbers whose low bits alone would be accepted.
#[test]
fn numbers_of_64_bits() {
    let bytes = calls(vec![row(WRITTEN, UP_AND_OUT, 3400)]).bytes();
    for bit in 24..64 {
        let more = 1 << bit;
        for (high, low, close) in [
            (3400 + more, 2600, 3000),
            (3400, 2600 + more, 3000),
            (3400, 2600, 3000 + more),
            (3400 + more, 2600 + more, 3000 + more),
            (3400 + more, 2600, 3000 + more),
        ] {
            assert_eq!(refusal(&bytes, day(high, low, close)), (17, 0), "bit {bit}");
        }
        assert_eq!(refusal(&bytes, Day { series: more, ..day(3400, 2600, 3000) }), (16, 0));
    }
    for (high, low, close) in [(u64::MAX, 1, 1), (u64::MAX, u64::MAX, u64::MAX), (1, 1, u64::MAX)] {
        assert_eq!(refusal(&bytes, day(high, low, close)), (17, 0));
    }
}

#[test]
fn what_the_program_writes() {
    let draft = calls(vec![row(WRITTEN, UP_AND_OUT, 3400)]);
    let applied = day_output(&draft.bytes(), &day(3400, 3000, 3100));
    let expected = [b"day\n", &changed(&draft, 3100, &[(0, 16)])[..], b"\n"].concat();
    assert_eq!(applied, expected);
    let refused = day_output(&draft.bytes(), &day(3400, 3000, 3401));
    assert_eq!(refused, [b"refused 17 0\n", &draft.bytes()[..], b"\n"].concat());
    assert_eq!(day_output(&[], &day(0, 0, 0)), b"refused 1 0\n\n");
}

/// The day knocks a written call out, and its margin falls from 400 ticks to
/// its rebate; the knock-in's margin rises from MM to H less PE.
#[test]
fn margins_after_the_day() {
    let rows = vec![row(WRITTEN, UP_AND_OUT, 3500), row(WRITTEN, UP_AND_IN, 3700)];
    let draft = calls(rows);
    assert_eq!(
        margin_output(&draft.bytes()),
        "left 0 10 20000\nleft 1 10 7500\npremium 0\ntotal 27500\n"
    );
    assert_eq!(
        margin_output(&after(&draft, day(3700, 2900, 3000))),
        "left 0 10 2000\nleft 1 10 25000\npremium 0\ntotal 27000\n"
    );
}

/// Random files with days, often at a barrier.
fn random_days(count: usize) -> Vec<(Vec<u8>, Day)> {
    let mut random = Random::new(11);
    let make = |turn: usize| {
        let shape = if turn.is_multiple_of(4) { WIDE } else { SMALL };
        let mut draft = sample_account(&mut random, &shape);
        if turn.is_multiple_of(2) {
            draft = some_knocked_out(&mut random, draft);
        }
        if turn.is_multiple_of(3) {
            draft.cover = draft.bytes();
        }
        let account = read_account(&draft.bytes()).expect("accepted");
        (draft.bytes(), sample_day(&mut random, &account))
    };
    (0..count).map(make).collect()
}

#[test]
fn accepted_before_accepted_after_and_the_same_day_again() {
    let mut flagged = [0; 2];
    for (before, day) in random_days(20_000) {
        let mut bytes = before.clone();
        assert_eq!(apply_day(&mut bytes, &day), Ok(()));
        assert!(read_account(&bytes).is_ok(), "{day:?}");
        flagged[usize::from(bytes[..] != before[..])] += 1;
        let once = bytes.clone();
        assert_eq!(apply_day(&mut bytes, &day), Ok(()));
        assert!(bytes == once, "{day:?}");
    }
    assert!(flagged.iter().all(|count| *count > 200), "{flagged:?}");
}

/// Only the flags of the series' rows and its PV are written.
#[test]
fn no_other_byte() {
    let mut found = [0; 2];
    for (before, day) in random_days(10_000) {
        let account = read_account(&before).expect("accepted");
        let mut bytes = before.clone();
        apply_day(&mut bytes, &day).expect("applied");
        let first_series = before.len() - distance(account.series.len(), account.positions.len());
        let pv_at = first_series + SERIES_BYTES * day.series as usize;
        let first_position = first_series + SERIES_BYTES * account.series.len();
        let flags_at: Vec<usize> = (0..account.positions.len())
            .filter(|row| account.positions[*row].series as u64 == day.series)
            .map(|row| first_position + POSITION_BYTES * row + FLAGS_AT)
            .collect();
        assert_eq!(bytes[pv_at..pv_at + 4], (day.close as u32).to_le_bytes());
        for at in (0..before.len()).filter(|at| before[*at] != bytes[*at]) {
            let in_pv = (pv_at..pv_at + 4).contains(&at);
            assert!(in_pv || flags_at.contains(&at), "byte {at}");
            if !in_pv {
                // One bit more.
                let flag = bytes[at] ^ before[at];
                assert_eq!(bytes[at], before[at] | flag);
                found[[1, 16].iter().position(|known| *known == flag).expect("a flag")] += 1;
            }
        }
    }
    assert!(found.iter().all(|count| *count > 1_000), "{found:?}");
}

/// A row after the day pays on a path what the row before it pays on the same
/// path with the day's high and low ahead of it.
#[test]
fn the_flags_say_what_the_day_touched() {
    let mut random = Random::new(12);
    for (before, day) in random_days(5_000) {
        let mut bytes = before.clone();
        apply_day(&mut bytes, &day).expect("applied");
        let [account, updated] = [before, bytes].map(|file| read_account(&file).expect("accepted"));
        let of_day = [fine(day.high as i64), fine(day.low as i64)];
        for (old, new) in account.positions.iter().zip(&updated.positions) {
            let option_type = account.series[old.series].option_type;
            let path = [0; 2].map(|_| random.between(1, fine(90)));
            let ahead = if old.series as u64 == day.series { &of_day[..] } else { &[] };
            let with_day = [ahead, &path].concat();
            assert_eq!(
                payment(option_type, &new.terms(), &path),
                payment(option_type, &old.terms(), &with_day)
            );
        }
    }
}
