//! Faults of a position row.

use crate::draft::{PositionDraft, DOWN_AND_IN, DOWN_AND_OUT, HELD, UP_AND_IN, UP_AND_OUT};
use crate::position_row::FLAG_KNOCKED_IN;

pub struct PositionFault {
    /// Of the refusal.
    pub number: i64,
    pub what: &'static str,
    /// Given `row_to_spoil`.
    pub spoil: fn(&mut PositionDraft),
}

const fn fault(number: i64, what: &'static str, spoil: fn(&mut PositionDraft)) -> PositionFault {
    PositionFault { number, what, spoil }
}

#[rustfmt::skip]
pub const POSITION_FAULTS: [PositionFault; 64] = [
    fault(7, "series 3 of 3", |r| r.series = 3),
    fault(7, "series 256", |r| r.series = 256),
    fault(7, "series 65,535", |r| r.series = 65_535),
    fault(7, "side 2", |r| r.side = 2),
    fault(7, "side 255", |r| r.side = 255),
    fault(7, "kind 5", |r| { r.kind = 5; r.barrier = 3500 }),
    fault(7, "kind 255", |r| r.kind = 255),
    fault(7, "flag 16 with kind 0", |r| r.flags |= 16),
    fault(7, "flag 32", |r| r.flags |= 32),
    fault(7, "flag 64", |r| r.flags |= 64),
    fault(7, "flag 128", |r| r.flags |= 128),
    fault(7, "knocked in without barrier", |r| r.flags |= FLAG_KNOCKED_IN),
    fault(7, "knocked in with kind 3", |r| *r = r.with_barrier(UP_AND_OUT, 3500, 0).knocked_in()),
    fault(7, "knocked in with kind 4", |r| *r = r.with_barrier(DOWN_AND_OUT, 2500, 0).knocked_in()),
    fault(7, "spare byte 0", |r| r.blocked = 1),
    fault(7, "spare byte 1", |r| r.blocked = 1 << 8),
    fault(7, "spare byte 2", |r| r.blocked = 255 << 16),
    fault(8, "Q 0", |r| r.quantity = 0),
    fault(8, "Q 100,001", |r| r.quantity = 100_001),
    fault(8, "Q highest", |r| r.quantity = u32::MAX),
    fault(8, "PE 0", |r| r.strike = 0),
    fault(8, "PE 10,000,001", |r| r.strike = 10_000_001),
    fault(8, "REB 10,000,001", |r| *r = r.with_barrier(UP_AND_OUT, 3500, 10_000_001)),
    fault(8, "REB 10,000,001 with kind 0", |r| r.rebate = 10_000_001),
    fault(8, "REB 10,000,001, knocked in", |r| *r = r.with_barrier(UP_AND_IN, 3500, 10_000_001).knocked_in()),
    fault(8, "premium on a written row", |r| r.premium = 1),
    fault(8, "premium 10,000,001 on a held row", |r| { r.side = HELD; r.premium = 10_000_001 }),
    fault(8, "premium highest on a held row", |r| { r.side = HELD; r.premium = u32::MAX }),
    fault(9, "PB without limiter", |r| r.limiter = 1),
    fault(9, "PB above PE without limiter", |r| r.limiter = 3500),
    fault(9, "call PB = PE", |r| *r = r.with_limiter(3100)),
    fault(9, "call PB below PE", |r| *r = r.with_limiter(3099)),
    fault(9, "call PB 0", |r| *r = r.with_limiter(0)),
    fault(9, "call PB 10,000,001", |r| *r = r.with_limiter(10_000_001)),
    fault(9, "call PE and PB 10,000,000", |r| { r.strike = 10_000_000; *r = r.with_limiter(10_000_000) }),
    fault(9, "put PB = PE", |r| { r.series = 1; *r = r.with_limiter(3100) }),
    fault(9, "put PB above PE", |r| { r.series = 1; *r = r.with_limiter(3101) }),
    fault(9, "put PB highest", |r| { r.series = 1; *r = r.with_limiter(u32::MAX) }),
    fault(9, "put PB without limiter", |r| { r.series = 1; r.limiter = 2000 }),
    fault(10, "kind 0 with a price", |r| r.barrier = 1),
    fault(10, "kind 0 with a price above PV", |r| r.barrier = 3500),
    fault(10, "kind 0 with a rebate", |r| r.rebate = 1),
    fault(10, "kind 0 with the highest rebate", |r| r.rebate = 10_000_000),
    fault(10, "kind 1 price 0", |r| *r = r.with_barrier(UP_AND_IN, 0, 0)),
    fault(10, "kind 2 price 0", |r| *r = r.with_barrier(DOWN_AND_IN, 0, 0)),
    fault(10, "kind 3 price 0", |r| *r = r.with_barrier(UP_AND_OUT, 0, 0)),
    fault(10, "kind 4 price 0", |r| *r = r.with_barrier(DOWN_AND_OUT, 0, 0)),
    fault(10, "kind 1 price 10,000,001", |r| *r = r.with_barrier(UP_AND_IN, 10_000_001, 0)),
    fault(10, "kind 2 price 10,000,001", |r| *r = r.with_barrier(DOWN_AND_IN, 10_000_001, 0)),
    fault(10, "kind 3 price 10,000,001", |r| *r = r.with_barrier(UP_AND_OUT, 10_000_001, 0)),
    fault(10, "kind 4 price highest", |r| *r = r.with_barrier(DOWN_AND_OUT, u32::MAX, 0)),
    fault(10, "knocked in, kind 1 price 0", |r| *r = r.with_barrier(UP_AND_IN, 0, 0).knocked_in()),
    fault(10, "knocked in, kind 1 price 10,000,001", |r| *r = r.with_barrier(UP_AND_IN, 10_000_001, 0).knocked_in()),
    fault(10, "knocked in, kind 2 price 0", |r| *r = r.with_barrier(DOWN_AND_IN, 0, 0).knocked_in()),
    fault(10, "knocked in, kind 2 price 10,000,001", |r| *r = r.with_barrier(DOWN_AND_IN, 10_000_001, 0).knocked_in()),
    fault(11, "kind 1 at PV", |r| *r = r.with_barrier(UP_AND_IN, 3000, 0)),
    fault(11, "kind 1 below PV", |r| *r = r.with_barrier(UP_AND_IN, 2999, 0)),
    fault(11, "kind 2 at PV", |r| *r = r.with_barrier(DOWN_AND_IN, 3000, 0)),
    fault(11, "kind 2 above PV", |r| *r = r.with_barrier(DOWN_AND_IN, 3001, 0)),
    fault(11, "kind 3 at PV", |r| *r = r.with_barrier(UP_AND_OUT, 3000, 0)),
    fault(11, "kind 3 at 1", |r| *r = r.with_barrier(UP_AND_OUT, 1, 0)),
    fault(11, "kind 4 at PV", |r| *r = r.with_barrier(DOWN_AND_OUT, 3000, 0)),
    fault(11, "kind 4 at 10,000,000", |r| *r = r.with_barrier(DOWN_AND_OUT, 10_000_000, 0)),
    fault(11, "held, put, kind 1 at PV", |r| { r.side = HELD; r.series = 1; *r = r.with_barrier(UP_AND_IN, 3000, 0) }),
];
