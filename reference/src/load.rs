//! A load for the bench (document 02 [10]): an account made from a seed, the
//! same on every machine.
//!
//! One series and p rows, their numbers drawn in the document's order, and the
//! file of them as document 01 describes it.

use crate::draft::{Draft, PositionDraft, SeriesDraft, NO_BARRIER, UP_AND_IN, UP_AND_OUT};
use crate::position_row::FLAG_EUROPEAN;
use crate::reader::{distance, Refusal};

/// The state goes from t to 48271 × t mod 2147483647.
pub const MULTIPLIER: u64 = 48_271;
pub const MODULUS: u64 = 2_147_483_647;

/// Seeds are 1 to 2147483646.
pub const LEAST_SEED: u64 = 1;
pub const MOST_SEED: u64 = 2_147_483_646;

/// Rows are 1 to 256.
pub const LEAST_ROWS: u64 = 1;
pub const MOST_ROWS: u64 = 256;

/// Makes the file of a seed and p rows at the buffer's start and gives its
/// bytes. The buffer's bytes after the file stay. Refusal 20 is given for a
/// seed or p out of its range and for a buffer that is too short; nothing is
/// written then.
pub fn load(seed: u64, p: u64, buffer: &mut [u8]) -> Result<usize, Refusal> {
    let refused = Err(Refusal { number: 20, row: 0 });
    if !(LEAST_SEED..=MOST_SEED).contains(&seed) {
        return refused;
    }
    if !(LEAST_ROWS..=MOST_ROWS).contains(&p) {
        return refused;
    }
    // Of a p in its range: of others the product can pass 64 bits.
    if buffer.len() < distance(1, p as usize) {
        return refused;
    }
    let file = drawn_account(seed, p).bytes();
    buffer[..file.len()].copy_from_slice(&file);
    Ok(file.len())
}

/// The state between draws.
pub struct State(u64);

impl State {
    pub fn seeded(seed: u64) -> State {
        State(seed)
    }

    /// Goes to the next state and gives it. A state is below 2^31, and its product below 2^47.
    pub fn step(&mut self) -> u64 {
        self.0 = MULTIPLIER * self.0 % MODULUS;
        self.0
    }

    /// draw(k): the next state mod k.
    pub fn draw(&mut self, k: u32) -> u32 {
        (self.step() % u64::from(k)) as u32
    }
}

/// The series first, then the rows.
fn drawn_account(seed: u64, p: u64) -> Draft {
    let mut state = State::seeded(seed);
    let series = drawn_series(&mut state);
    let rows = (0..p).map(|_| drawn_row(&mut state, series.pv)).collect();
    Draft::new(vec![series], rows)
}

/// M and the type are drawn in this order; f3 is not drawn.
fn drawn_series(state: &mut State) -> SeriesDraft {
    let pv = 1_000 + state.draw(9_000);
    let fa = 1_000_000 + state.draw(500_000);
    let fb = 500_000 + state.draw(500_001);
    let m = 1 + state.draw(10);
    let type_byte = state.draw(2) as u8;
    let f3 = 50_000;
    SeriesDraft { pv, fa, fb, f3, m, type_byte, spare: [0; 3] }
}

/// For kind 0 neither the barrier nor REB is drawn.
fn drawn_row(state: &mut State, pv: u32) -> PositionDraft {
    let side = state.draw(2) as u8;
    let kind = state.draw(5) as u8;
    let quantity = 1 + state.draw(100);
    let strike = 1 + state.draw(10_000);
    let (mut barrier, mut rebate) = (0, 0);
    if kind != NO_BARRIER {
        barrier = drawn_barrier(state, kind, pv);
        rebate = state.draw(100);
    }
    PositionDraft {
        series: 0,
        side,
        kind,
        flags: FLAG_EUROPEAN,
        blocked: 0,
        quantity,
        strike,
        limiter: 0,
        barrier,
        rebate,
        premium: 0,
    }
}

/// Above PV when up, below it when down.
fn drawn_barrier(state: &mut State, kind: u8, pv: u32) -> u32 {
    match kind {
        UP_AND_IN | UP_AND_OUT => pv + 1 + state.draw(1_000),
        _ => 1 + state.draw(pv - 1),
    }
}
