//! Files from fields. A draft may be wrong in any field: nothing is checked
//! here, so that faulty files can be made as well as good ones.

use crate::position_row::{
    FLAG_BEFORE_ANNEX, FLAG_EUROPEAN, FLAG_KNOCKED_IN, FLAG_KNOCKED_OUT, FLAG_LIMITER,
};

#[derive(Clone, Copy, Debug, PartialEq, Eq)]
pub struct SeriesDraft {
    pub pv: u32,
    pub fa: u32,
    pub fb: u32,
    pub f3: u32,
    pub m: u32,
    pub type_byte: u8,
    pub spare: [u8; 3],
}

#[derive(Clone, Copy, Debug, PartialEq, Eq)]
pub struct PositionDraft {
    pub series: u16,
    pub side: u8,
    pub kind: u8,
    pub flags: u8,
    /// Of 24 bits (document 02 [9]); what a written row has there is refused.
    pub blocked: u32,
    pub quantity: u32,
    pub strike: u32,
    pub limiter: u32,
    pub barrier: u32,
    pub rebate: u32,
    pub premium: u32,
}

/// Counts and distance are taken from the rows unless given.
#[derive(Clone, Debug, Default, PartialEq, Eq)]
pub struct Draft {
    pub cover: Vec<u8>,
    pub series: Vec<SeriesDraft>,
    pub positions: Vec<PositionDraft>,
    pub stated_s: Option<u16>,
    pub stated_p: Option<u16>,
    pub stated_distance: Option<u32>,
    pub last_four: [u8; 4],
}

pub const CALL: u8 = 0;
pub const PUT: u8 = 1;
pub const HELD: u8 = 0;
pub const WRITTEN: u8 = 1;
pub const NO_BARRIER: u8 = 0;
pub const UP_AND_IN: u8 = 1;
pub const DOWN_AND_IN: u8 = 2;
pub const UP_AND_OUT: u8 = 3;
pub const DOWN_AND_OUT: u8 = 4;

impl SeriesDraft {
    /// The series of the checked values: PV 3000, H 3600, L 2400, MM 150, M 5.
    pub fn checked(type_byte: u8) -> SeriesDraft {
        SeriesDraft {
            pv: 3000,
            fa: 1_200_000,
            fb: 800_000,
            f3: 50_000,
            m: 5,
            type_byte,
            spare: [0; 3],
        }
    }

    /// PV 10, H 12, L 8, no minimum, M 1: a written row at the money has 2 ticks
    /// a contract, and a spread of one tick 1.
    pub fn at_ten(type_byte: u8) -> SeriesDraft {
        SeriesDraft { pv: 10, f3: 0, m: 1, ..SeriesDraft::checked(type_byte) }
    }

    pub fn bytes(&self) -> Vec<u8> {
        let mut bytes = Vec::new();
        for field in [self.pv, self.fa, self.fb, self.f3, self.m] {
            bytes.extend(field.to_le_bytes());
        }
        bytes.push(self.type_byte);
        bytes.extend(self.spare);
        bytes
    }
}

impl PositionDraft {
    /// A European row without limiter, barrier, rebate or premium.
    pub fn plain(series: u16, side: u8, strike: u32, quantity: u32) -> PositionDraft {
        PositionDraft {
            series,
            side,
            kind: NO_BARRIER,
            flags: FLAG_EUROPEAN,
            blocked: 0,
            quantity,
            strike,
            limiter: 0,
            barrier: 0,
            rebate: 0,
            premium: 0,
        }
    }

    pub fn with_barrier(mut self, kind: u8, price: u32, rebate: u32) -> PositionDraft {
        self.kind = kind;
        self.barrier = price;
        self.rebate = rebate;
        self
    }

    pub fn with_limiter(mut self, price: u32) -> PositionDraft {
        self.flags |= FLAG_LIMITER;
        self.limiter = price;
        self
    }

    pub fn with_premium(mut self, premium: u32) -> PositionDraft {
        self.premium = premium;
        self
    }

    /// So many contracts pledged elsewhere.
    pub fn with_blocked(mut self, blocked: u32) -> PositionDraft {
        self.blocked = blocked;
        self
    }

    /// Already knocked in.
    pub fn knocked_in(mut self) -> PositionDraft {
        self.flags |= FLAG_KNOCKED_IN;
        self
    }

    /// Already knocked out.
    pub fn knocked_out(mut self) -> PositionDraft {
        self.flags |= FLAG_KNOCKED_OUT;
        self
    }

    /// The bits of flags 4 and 8 are set as given, the others stay.
    pub fn style(mut self, european: bool, before_annex: bool) -> PositionDraft {
        self.flags &= !(FLAG_EUROPEAN | FLAG_BEFORE_ANNEX);
        if european {
            self.flags |= FLAG_EUROPEAN;
        }
        if before_annex {
            self.flags |= FLAG_BEFORE_ANNEX;
        }
        self
    }

    pub fn bytes(&self) -> Vec<u8> {
        let mut bytes = Vec::new();
        bytes.extend(self.series.to_le_bytes());
        bytes.push(self.side);
        bytes.push(self.kind);
        bytes.push(self.flags);
        bytes.extend(&self.blocked.to_le_bytes()[..3]);
        for field in
            [self.quantity, self.strike, self.limiter, self.barrier, self.rebate, self.premium]
        {
            bytes.extend(field.to_le_bytes());
        }
        bytes
    }
}

impl Draft {
    pub fn new(series: Vec<SeriesDraft>, positions: Vec<PositionDraft>) -> Draft {
        Draft { series, positions, ..Draft::default() }
    }

    pub fn trailer(&self) -> Vec<u8> {
        let (series, positions) = (self.series.len(), self.positions.len());
        let s = self.stated_s.unwrap_or(series as u16);
        let p = self.stated_p.unwrap_or(positions as u16);
        let distance = self.stated_distance.unwrap_or(distance_for(series, positions));
        let mut bytes = Vec::new();
        bytes.extend(s.to_le_bytes());
        bytes.extend(p.to_le_bytes());
        bytes.extend(distance.to_le_bytes());
        bytes.extend(self.last_four);
        bytes
    }

    pub fn bytes(&self) -> Vec<u8> {
        let mut bytes = self.cover.clone();
        for series in &self.series {
            bytes.extend(series.bytes());
        }
        for position in &self.positions {
            bytes.extend(position.bytes());
        }
        bytes.extend(self.trailer());
        bytes
    }
}

/// The trailer that states these counts, and the distance for them.
pub fn trailer_for(series: usize, positions: usize) -> Vec<u8> {
    let draft = Draft {
        stated_s: Some(series as u16),
        stated_p: Some(positions as u16),
        stated_distance: Some(distance_for(series, positions)),
        ..Draft::default()
    };
    draft.trailer()
}

fn distance_for(series: usize, positions: usize) -> u32 {
    12 + 24 * series as u32 + 32 * positions as u32
}

/// The account of the document's example output.
pub fn example() -> Draft {
    Draft::new(
        vec![SeriesDraft::checked(CALL)],
        vec![
            PositionDraft::plain(0, WRITTEN, 3100, 10),
            PositionDraft::plain(0, HELD, 3250, 4),
            PositionDraft::plain(0, HELD, 3000, 3).with_premium(20),
        ],
    )
}

/// A plain written row of series 0, and a plain held one.
pub fn written(strike: u32, quantity: u32) -> PositionDraft {
    PositionDraft::plain(0, WRITTEN, strike, quantity)
}

pub fn held(strike: u32, quantity: u32) -> PositionDraft {
    PositionDraft::plain(0, HELD, strike, quantity)
}

/// The file of an account with one series.
pub fn file(series: SeriesDraft, rows: &[PositionDraft]) -> Vec<u8> {
    Draft::new(vec![series], rows.to_vec()).bytes()
}
