//! `brute_force [count] [seed] [long]` tries paths on random small accounts and
//! stops at the first violation, with the account printed. With the word `long`
//! five accounts in sixteen have long expiries (document 02 [11]).

use std::process::ExitCode;

use reference::account::{Account, MILLION};
use reference::brute_force::{
    check, cover_promised, least_amount_promised, limited_pairs, reference_claim,
};
use reference::day::apply_day;
use reference::random::Random;
use reference::reader::read_account;
use reference::sample::{
    at_long_expiries, limited_alike, sample_account, sample_day, some_blocked, some_knocked_out,
    Shape, SMALL, WIDE,
};

const LONGEST_PATH: usize = 4;

/// The least amount is not promised here, and not always the cover.
const HIGH_FB: Shape = Shape { fb_above_one: true, ..SMALL };
/// No positions: nothing is owed on any path.
const EMPTY: Shape = Shape { series: (1, 32), positions: (0, 0), ..WIDE };
const EMPTY_HIGH_FB: Shape = Shape { fb_above_one: true, ..EMPTY };

/// What was tried.
#[derive(Default)]
struct Tried {
    pairs: usize,
    /// Accounts with some pairs made and others not, each number of them.
    half_paired: usize,
    limited_pairs: usize,
    /// Rows with flag 16, and rows with blocked contracts.
    knocked_out: usize,
    blocked: usize,
    /// Accounts with rows in a series whose fb is above 1,000,000: those whose
    /// cover was checked, and those that the proviso of document 02 [11] excludes.
    long_expiries: usize,
    excluded: usize,
    /// Path steps of accounts in which every fb is at most 1,000,000, and of others.
    steps: u64,
    long_steps: u64,
}

impl Tried {
    fn in_words(&self, long: bool) -> String {
        let Tried { half_paired, pairs, limited_pairs, knocked_out, blocked, .. } = self;
        let Tried { long_expiries, excluded, steps, long_steps, .. } = self;
        let of_all = format!(
            "{half_paired} half-paired, {pairs} pairs, {limited_pairs} limited, \
             {knocked_out} rows knocked out, {blocked} rows with blocked contracts"
        );
        if !long {
            return format!("{of_all}, {steps} path steps");
        }
        format!(
            "{of_all}, {long_expiries} accounts with rows at fb above 1 whose cover was checked, \
             {excluded} accounts that the proviso excludes, {} path steps",
            steps + long_steps
        )
    }
}

fn main() -> ExitCode {
    let arguments: Vec<String> = std::env::args().skip(1).collect();
    let number = |at: usize, otherwise: u64| match arguments.get(at) {
        None => Some(otherwise),
        Some(word) => word.parse::<u64>().ok(),
    };
    let long = arguments.get(2).is_some_and(|word| word == "long");
    let (Some(count), Some(seed)) = (number(0, 1_000), number(1, 1)) else {
        eprintln!("usage: brute_force [count] [seed] [long]");
        return ExitCode::from(2);
    };
    match try_accounts(count, seed, long) {
        Ok(all) => {
            println!("seed {seed}: {count} accounts, {}, no violation", all.in_words(long));
            ExitCode::SUCCESS
        }
        Err(words) => {
            println!("seed {seed}, {words}");
            ExitCode::FAILURE
        }
    }
}

fn try_accounts(count: u64, seed: u64, long: bool) -> Result<Tried, String> {
    let mut random = Random::new(seed);
    let mut all = Tried::default();
    for tried in 0..count {
        let account = account_to_try(&mut random, tried, long)
            .map_err(|words| format!("account {tried}: {words}"))?;
        let claim = reference_claim(&account);
        let steps = check(&account, &claim, LONGEST_PATH)
            .map_err(|words| format!("account {tried}: {words}\n{account:#?}\n{claim:#?}"))?;
        if least_amount_promised(&account) {
            all.steps += steps;
        } else {
            all.long_steps += steps;
        }
        all.pairs += claim.margin.pairs.len();
        all.half_paired += claim.half_paired.iter().filter(|half| !half.pairs.is_empty()).count();
        all.limited_pairs += limited_pairs(&account, &claim.margin);
        all.knocked_out += account.positions.iter().filter(|p| p.already_knocked_out).count();
        all.blocked += account.positions.iter().filter(|p| p.blocked > 0).count();
        if !cover_promised(&account) {
            all.excluded += 1;
        } else if (0..account.positions.len()).any(|row| account.series_of(row).fb > MILLION) {
            all.long_expiries += 1;
        }
    }
    Ok(all)
}

/// In every other sixteen accounts limiters stand at and beside each other; in
/// every other thirty-two knock-outs have flag 16; every other sixty-four are
/// as they are after a day; in every other 128 contracts are blocked.
/// With `long` five in sixteen have long expiries.
fn account_to_try(random: &mut Random, tried: u64, long: bool) -> Result<Account, String> {
    let shape = match (tried % 16, long) {
        (5, false) => EMPTY,
        (5, true) => EMPTY_HIGH_FB,
        (6 | 14, _) => WIDE,
        (7 | 15, false) => HIGH_FB,
        _ => SMALL,
    };
    let mut draft = sample_account(random, &shape);
    if tried / 16 % 2 == 1 {
        draft = limited_alike(random, draft);
    }
    if tried / 32 % 2 == 1 {
        draft = some_knocked_out(random, draft);
    }
    if tried / 128 % 2 == 1 {
        draft = some_blocked(random, draft);
    }
    if long && matches!(tried % 16, 3 | 7 | 11 | 14 | 15) {
        draft = at_long_expiries(random, draft);
    }
    let mut bytes = draft.bytes();
    let account =
        read_account(&bytes).map_err(|refusal| format!("the sample is refused: {refusal:?}"))?;
    if tried / 64 % 2 == 1 {
        let day = sample_day(random, &account);
        apply_day(&mut bytes, &day).map_err(|refusal| format!("{day:?}: {refusal:?}"))?;
        return read_account(&bytes).map_err(|refusal| format!("after {day:?}: {refusal:?}"));
    }
    Ok(account)
}
