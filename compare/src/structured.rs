//! Accepted accounts of various shapes, with cover sheets. In many of them limiters stand at and
//! beside each other, in many some knock-outs were touched on an earlier day, and in about half
//! contracts of held rows are blocked.

use reference::draft::Draft;
use reference::random::Random;
use reference::sample::{
    limited_alike, sample_account, sample_series, some_blocked, some_knocked_out, Shape,
};

use crate::files::{random_bytes, weighted, LONGEST_FILE};

type Named = (&'static str, Shape);

const MIDDLE: Shape = Shape {
    series: (1, 3),
    positions: (1, 10),
    pv: (900, 4_000),
    quantity: (1, 500),
    m: (1, 100),
    fb_above_one: true,
};
const LOW: Shape = Shape { pv: (2, 60), quantity: (1, 9), m: (1, 9), ..MIDDLE };
const ALL: Shape = Shape { pv: (1, 10_000_000), quantity: (1, 100_000), m: (1, 1_000), ..MIDDLE };
const LEAST: Shape = Shape { pv: (1, 3), quantity: (1, 2), m: (1, 1), ..MIDDLE };
const MOST: Shape =
    Shape { pv: (9_999_990, 10_000_000), quantity: (99_999, 100_000), m: (999, 1_000), ..MIDDLE };
const ONE_ROW: Shape = Shape { series: (1, 1), positions: (1, 1), ..ALL };
const TENS: Shape = Shape { series: (1, 6), positions: (12, 40), ..MIDDLE };
const CROWDED: Shape = Shape { series: (1, 1), positions: (12, 40), ..LOW };
const ALL_SERIES: Shape = Shape { series: (32, 32), positions: (1, 40), ..MIDDLE };
const FULL: Shape = Shape { series: (32, 32), positions: (256, 256), ..MIDDLE };
const FULL_ALL: Shape = Shape { series: (2, 32), positions: (200, 256), ..ALL };
const FULL_CROWDED: Shape = Shape { series: (1, 1), positions: (256, 256), ..LOW };
const NO_ROWS: Shape = Shape { series: (1, 32), positions: (0, 0), ..ALL };
const NO_ROWS_ONE_SERIES: Shape = Shape { series: (1, 1), ..NO_ROWS };
const NO_ROWS_ALL_SERIES: Shape = Shape { series: (32, 32), ..NO_ROWS };

/// Large accounts are few, because the reference takes long for them.
const SHAPES: [(i64, Named); 15] = [
    (3_000, ("low prices", LOW)),
    (2_400, ("middle prices", MIDDLE)),
    (1_800, ("all prices", ALL)),
    (500, ("least numbers", LEAST)),
    (500, ("greatest numbers", MOST)),
    (400, ("one row", ONE_ROW)),
    (600, ("12 to 40 rows", TENS)),
    (400, ("12 to 40 rows of one series", CROWDED)),
    (150, ("32 series", ALL_SERIES)),
    (50, ("256 rows, 32 series", FULL)),
    (50, ("200 to 256 rows, all prices", FULL_ALL)),
    (50, ("256 rows of one series", FULL_CROWDED)),
    (200, ("no rows", NO_ROWS)),
    (200, ("no rows, one series", NO_ROWS_ONE_SERIES)),
    (200, ("no rows, 32 series", NO_ROWS_ALL_SERIES)),
];

pub fn structured_file(random: &mut Random) -> (Vec<&'static str>, Vec<u8>) {
    let (name, draft) = structured_draft(random);
    (vec![name], draft.bytes())
}

pub fn structured_draft(random: &mut Random) -> (&'static str, Draft) {
    let (name, mut shape) = weighted(random, &SHAPES);
    shape.fb_above_one = random.chance(50);
    let mut draft = sample_account(random, &shape);
    if random.chance(40) {
        draft = limited_alike(random, draft);
    }
    if random.chance(40) {
        draft = some_knocked_out(random, draft);
    }
    if random.chance(50) {
        draft = some_blocked(random, draft);
    }
    draft.cover = cover_sheet(random, &draft, &shape);
    (name, draft)
}

fn cover_sheet(random: &mut Random, draft: &Draft, shape: &Shape) -> Vec<u8> {
    let length = random.between(1, 70) as usize;
    match random.between(1, 1_000) {
        1..=480 => Vec::new(),
        481..=600 => random_bytes(random, length),
        601..=640 => vec![random.pick(&[0, 255]); length],
        641..=800 => rows_like(random, draft, shape),
        801..=870 => draft.trailer(),
        871..=940 => draft.bytes(),
        941..=996 => [draft.bytes(), random_bytes(random, length)].concat(),
        997..=998 => vec![0xA5; LONGEST_FILE - draft.bytes().len()],
        _ => {
            let longest = LONGEST_FILE - draft.bytes().len();
            let length = random.between(1, longest as i64) as usize;
            random_bytes(random, length)
        }
    }
}

/// Series rows of the shape, and position rows of the account itself. Where it has none they are
/// those of another account.
fn rows_like(random: &mut Random, draft: &Draft, shape: &Shape) -> Vec<u8> {
    let mut rows = Vec::new();
    for _ in 0..random.between(1, 3) {
        rows.extend(sample_series(random, shape).bytes());
    }
    let mut positions = draft.positions.clone();
    if positions.is_empty() {
        positions = sample_account(random, &Shape { positions: (3, 3), ..*shape }).positions;
    }
    for _ in 0..random.between(0, 3) {
        rows.extend(random.pick(&positions).bytes());
    }
    rows
}
