//! Deliberate changes of a load: of the file, of the buffer and of the answer.

use reference::day::FLAGS_AT;
use reference::draft::trailer_for;
use reference::load::{State, MODULUS, MOST_ROWS, MOST_SEED};
use reference::reader::{distance, POSITION_BYTES, SERIES_BYTES, TRAILER_BYTES};

use crate::changed_days::write_beside;
use crate::changes::Change;
use crate::implementation::{Answer, Implementation, Margin};

/// 48271 times it is 1 mod 2147483647.
const STEP_BACK: u64 = 1_899_818_559;

const REFUSED: Answer = Answer { refusal: 20, row: 0, value: 0 };

/// Places in the series row and in a position row.
const M_AT: usize = 16;
const TYPE_AT: usize = 20;
const KIND_AT: usize = 3;
const Q_AT: usize = 8;
const PE_AT: usize = 12;
const BARRIER_AT: usize = 20;
const PREMIUM_AT: usize = 28;

/// The load made in another way.
pub fn answer(
    change: Change,
    of: &dyn Implementation,
    (seed, p): (u64, u64),
    buffer: &mut [u8],
) -> Answer {
    let before = buffer.to_vec();
    let (asked_seed, asked_p) = (seed_asked(change, seed), p_asked(change, p));
    let answer = match change {
        Change::LoadPZero if p == 0 => without_rows(of, seed, buffer),
        _ => of.load(asked_seed, asked_p, buffer),
    };
    if answer.refusal > 0 {
        return change_refused(change, of, (seed, p), buffer);
    }
    let file = &mut buffer[..answer.value as usize];
    change_series(change, seed, &before, file);
    change_rows(change, seed, &before, file);
    change_trailer(change, &before, file);
    change_buffer(change, (p, answer), &before, buffer)
}

fn seed_asked(change: Change, seed: u64) -> u64 {
    let in_range = (1..=MOST_SEED).contains(&seed);
    match change {
        Change::LoadSeedCut => seed % (1 << 32),
        Change::LoadSeedZero if seed == 0 => 1,
        Change::LoadSeedEnd if seed == MODULUS => 1,
        Change::LoadStateBefore if in_range => STEP_BACK * seed % MODULUS,
        Change::LoadStepMore if in_range => State::seeded(seed).step(),
        _ => seed,
    }
}

fn p_asked(change: Change, p: u64) -> u64 {
    match change {
        Change::LoadPCut => p % (1 << 32),
        Change::LoadPMore if p == MOST_ROWS + 1 => MOST_ROWS,
        // Where 32 × p is made in 64 bits.
        Change::LoadBytesCut => p % (1 << 59),
        _ => p,
    }
}

/// The file of a series alone.
fn without_rows(of: &dyn Implementation, seed: u64, buffer: &mut [u8]) -> Answer {
    let mut with_row = vec![0; distance(1, 1)];
    let answer = of.load(seed, 1, &mut with_row);
    if answer.refusal > 0 || buffer.len() < distance(1, 0) {
        return REFUSED;
    }
    let file = [&with_row[..SERIES_BYTES], &trailer_for(1, 0)].concat();
    buffer[..file.len()].copy_from_slice(&file);
    Answer { value: file.len() as u64, ..answer }
}

/// After a load that was refused, by its numbers or by its buffer.
fn change_refused(
    change: Change,
    of: &dyn Implementation,
    (seed, p): (u64, u64),
    buffer: &mut [u8],
) -> Answer {
    match change {
        Change::LoadRefusalNumber => return Answer { refusal: 19, ..REFUSED },
        Change::LoadRefusalRow => return Answer { row: 1, ..REFUSED },
        Change::LoadRefusalValue => return Answer { value: 1, ..REFUSED },
        Change::LoadOnRefusal => buffer.iter_mut().take(1).for_each(|byte| *byte ^= 1),
        _ => {}
    }
    let mut longer = vec![0; buffer.len() + distance(1, MOST_ROWS as usize)];
    let answer = of.load(seed, p, &mut longer);
    if answer.refusal > 0 {
        return REFUSED;
    }
    let (fitting, missing) = (&longer[..buffer.len()], answer.value as usize - buffer.len());
    match change {
        Change::LoadRoomShort if missing == 1 => buffer.copy_from_slice(fitting),
        Change::LoadRoomAny => buffer.copy_from_slice(fitting),
        Change::LoadShortWritten => {
            buffer.copy_from_slice(fitting);
            return REFUSED;
        }
        _ => return REFUSED,
    }
    answer
}

/// Puts back what stood there before.
fn keep(before: &[u8], file: &mut [u8], at: usize, bytes: usize) {
    file[at..at + bytes].copy_from_slice(&before[at..at + bytes]);
}

fn change_series(change: Change, seed: u64, before: &[u8], file: &mut [u8]) {
    match change {
        // The fourth and the fifth state, exchanged.
        Change::LoadTypeFirst => {
            let mut state = State::seeded(seed);
            let states = [(); 5].map(|()| state.step());
            file[TYPE_AT] = (states[3] % 2) as u8;
            file[M_AT] = 1 + (states[4] % 10) as u8;
        }
        Change::LoadGreatestSeed if seed == MOST_SEED => file[M_AT] ^= 1,
        Change::LoadSeriesSpareKept => keep(before, file, TYPE_AT + 1, 3),
        _ => {}
    }
}

fn change_rows(change: Change, seed: u64, before: &[u8], file: &mut [u8]) {
    let starts = (SERIES_BYTES..file.len() - TRAILER_BYTES).step_by(POSITION_BYTES);
    let count = starts.len();
    for (row, at) in starts.enumerate() {
        match change {
            Change::LoadDrawsSwapped if row == 0 => exchange_quantity_and_strike(seed, file),
            Change::LoadRowsAlike => {
                file.copy_within(SERIES_BYTES..SERIES_BYTES + POSITION_BYTES, at);
            }
            Change::LoadLastRow if row + 1 == count => keep(before, file, at, POSITION_BYTES),
            Change::LoadRow256 if row + 1 == 256 => file[at + Q_AT] ^= 1,
            Change::LoadFlags => file[at + FLAGS_AT] = 8,
            Change::LoadNoFlags => file[at + FLAGS_AT] = 0,
            Change::LoadSpareKept => keep(before, file, at + FLAGS_AT + 1, 3),
            Change::LoadPremiumKept => keep(before, file, at + PREMIUM_AT, 4),
            Change::LoadKindZero if file[at + KIND_AT] == 0 => file[at + BARRIER_AT] = 1,
            _ => {}
        }
    }
}

/// Of the first row, from the eighth and the ninth state.
fn exchange_quantity_and_strike(seed: u64, file: &mut [u8]) {
    let mut state = State::seeded(seed);
    let states = [(); 9].map(|()| state.step());
    let (quantity, strike) = (1 + states[8] % 100, 1 + states[7] % 10_000);
    for (at, number) in [(Q_AT, quantity), (PE_AT, strike)] {
        let bytes = (number as u32).to_le_bytes();
        file[SERIES_BYTES + at..][..4].copy_from_slice(&bytes);
    }
}

fn change_trailer(change: Change, before: &[u8], file: &mut [u8]) {
    let at = file.len() - TRAILER_BYTES;
    match change {
        // The distance of the whole buffer.
        Change::LoadDistance => {
            file[at + 4..at + 8].copy_from_slice(&(before.len() as u32).to_le_bytes());
        }
        Change::LoadLastFourKept => keep(before, file, at + 8, 4),
        _ => {}
    }
}

/// The buffer beside the file, and the answer.
fn change_buffer(
    change: Change,
    (p, answer): (u64, Answer),
    before: &[u8],
    buffer: &mut [u8],
) -> Answer {
    let (bytes, room) = (answer.value as usize, buffer.len());
    match change {
        Change::LoadRoomExact if bytes < room => buffer.copy_from_slice(before),
        Change::LoadRoomRefused if bytes == room => buffer.copy_from_slice(before),
        Change::LoadByteAfter => {
            buffer[bytes..].iter_mut().take(1).for_each(|byte| *byte = 0);
            return answer;
        }
        Change::LoadRestZeroed => {
            buffer[bytes..].fill(0);
            return answer;
        }
        Change::LoadAtEnd => {
            buffer.copy_within(..bytes, room - bytes);
            return answer;
        }
        Change::LoadBeside => {
            write_beside(buffer);
            return answer;
        }
        Change::LoadValueRoom => return Answer { value: room as u64, ..answer },
        Change::LoadValueRows => return Answer { value: p, ..answer },
        _ => return answer,
    }
    REFUSED
}

/// The total of a file that a load can have made.
pub fn change_lines(change: Change, file: &[u8], margin: &mut Margin) {
    let f3 = 50_000_u32.to_le_bytes();
    let rows = file.len().saturating_sub(distance(1, 0)) / POSITION_BYTES;
    let alike = rows > 0 && file.len() == distance(1, rows) && file[12..16] == f3;
    if change == Change::LoadLines && alike {
        margin.total += 1;
    }
}
