//! Pairing in instalments: a list begun without lines and gone on with by allowances from the seed, the amount between;
//! pairs taken apart and made again; and then lists, counts, allowances and k that are something else.

use reference::instalment_cases::Call;
use reference::random::Random;

use crate::comparison::{Asking, Difference};
use crate::files::weighted;
use crate::implementation::Answer;
use crate::list::List;

/// Up to this many rows every instalment is made and every spoiled list tried.
const FEW_ROWS: usize = 12;

/// From this many rows on the reference takes long, and one file in four is asked about.
const MANY_ROWS: usize = 100;

/// Instalments of a file, before the rest is made at once.
const MOST_INSTALMENTS: usize = 5;

type Compared = Result<(), Box<Difference>>;

/// The position count is given where the file is accepted.
pub fn compare_instalments(
    asking: &mut Asking,
    seed: u64,
    position_count: Option<usize>,
) -> Compared {
    // Other numbers than those that decide the questions and the days.
    let mut random = Random::new(seed.rotate_left(32));
    let Some(p) = position_count else {
        return of_refused(asking, &mut random);
    };
    if p >= MANY_ROWS && random.chance(75) {
        return Ok(());
    }
    let mut list = List::marked(2 * p + random.pick(&[0, 0, 1, 5]));
    let count = made_in_instalments(asking, &mut random, &mut list, p)?;
    taken_apart(asking, &mut random, &mut list, count, p)?;
    let mut others = spoiled(&mut random, &list, count);
    others.push(short(&mut random, &list, p));
    if p > FEW_ROWS {
        others = vec![others.swap_remove(random.between(0, others.len() as i64 - 1) as usize)];
    }
    for Spoiled { mut list, calls } in others {
        for call in calls {
            asking.ask(&mut list, call)?;
        }
    }
    let k = random.pick(&[0, 1]);
    asking.ask(&mut List::marked(0), Call::Pair { count: 0, allowance: 1 })?;
    asking.ask(&mut List::marked(0), Call::Apart { count: 0, k })?;
    asking.ask(&mut List::marked(0), Call::Amount { count: 0 }).map(|_| ())
}

/// All pairs, and how many they are. With many rows there are two instalments.
fn made_in_instalments(
    asking: &mut Asking,
    random: &mut Random,
    list: &mut List,
    p: usize,
) -> Result<u64, Box<Difference>> {
    let mut count = 0;
    for _ in 0..if p > FEW_ROWS { 1 } else { MOST_INSTALMENTS } {
        if p <= FEW_ROWS || random.chance(30) {
            asking.ask(list, Call::Amount { count })?;
        }
        let allowance = allowance(random, p);
        let Answer { value: made, .. } = asking.ask(list, Call::Pair { count, allowance })?;
        count += made;
        if made < allowance {
            break;
        }
    }
    count += asking.ask(list, Call::Pair { count, allowance: u64::MAX })?.value;
    asking.ask(list, Call::Amount { count })?;
    Ok(count)
}

/// Some of all pairs taken apart and made again, with few rows all of them too; and more than there are.
fn taken_apart(
    asking: &mut Asking,
    random: &mut Random,
    list: &mut List,
    count: u64,
    p: usize,
) -> Compared {
    let some = random.between(0, count as i64) as u64;
    for k in if p > FEW_ROWS || some == count { vec![some] } else { vec![some, count] } {
        asking.ask(list, Call::Apart { count, k })?;
        if p <= FEW_ROWS {
            asking.ask(list, Call::Amount { count: count - k })?;
        }
        asking.ask(list, Call::Pair { count: count - k, allowance: k })?;
    }
    let (above, most) = (above(random, some), u64::MAX);
    let k = weighted(random, &[(50, count + 1), (40, above), (10, most)]);
    asking.ask(list, Call::Apart { count, k }).map(|_| ())
}

/// Below the count, at it and above it.
fn any_k(random: &mut Random, count: u64) -> u64 {
    let few = random.between(0, count.min(4) as i64) as u64;
    let (above, next) = (above(random, few), count.saturating_add(1));
    weighted(random, &[(40, few), (20, count), (20, next), (10, above), (10, u64::MAX)])
}

/// Mostly a small number or one about half of the rows.
pub fn allowance(random: &mut Random, p: usize) -> u64 {
    let (few, any) = (random.pick(&[1, 1, 1, 2, 3]), random.draw());
    let (half, above) = (random.between(0, p as i64 / 2) as u64, above(random, few));
    weighted(random, &[(60, few), (20, half), (12, 0), (4, above), (4, any)])
}

/// The number with one high bit more, or nearly the largest number.
fn above(random: &mut Random, low: u64) -> u64 {
    let with_bit = low + (1 << random.between(8, 63));
    weighted(random, &[(80, with_bit), (20, u64::MAX - low)])
}

/// Calls one after the other on a list that need not hold the first pairs.
#[derive(Clone, Debug)]
pub struct Spoiled {
    pub list: List,
    pub calls: Vec<Call>,
}

/// Lists and counts that are refused in various ways, given the list with so many pairs in it, which are all.
pub fn spoiled(random: &mut Random, list: &List, count: u64) -> Vec<Spoiled> {
    let mut all = vec![count_above(random, list, count)];
    let allowance = random.pick(&[0, 1, count, u64::MAX]);
    // The low bits alone would be accepted.
    let low = random.pick(&[0, count]);
    let cut = above(random, low);
    let calls = calls(cut, allowance, any_k(random, cut));
    all.push(Spoiled { list: list.clone(), calls });
    if count == 0 {
        return all;
    }
    let line = random.between(0, count as i64 - 1) as usize;
    all.push(changed_line(random, list, count, line));
    // From here on all pairs are made anew, however many the low bits allow.
    let (from, low) = (line as u64, random.between(0, count as i64 - line as i64) as u64);
    let allowance = above(random, low);
    all.push(Spoiled { list: list.clone(), calls: vec![Call::Pair { count: from, allowance }] });
    // Behind this count there are other pairs, which are not taken apart.
    let least = count.min(2) - 1;
    let before = random.between(least as i64, count as i64 - 1) as u64;
    let k = any_k(random, before);
    all.push(Spoiled { list: list.clone(), calls: vec![Call::Apart { count: before, k }] });
    all
}

/// Each call with this count.
fn calls(count: u64, allowance: u64, k: u64) -> Vec<Call> {
    vec![Call::Pair { count, allowance }, Call::Amount { count }, Call::Apart { count, k }]
}

/// One of the lines with a number changed or in another's place; refused, but not where it is not looked at.
fn changed_line(random: &mut Random, list: &List, count: u64, line: usize) -> Spoiled {
    let mut list = list.clone();
    let place = random.between(0, 4) as usize;
    let (bit, other) = (1 << random.between(0, 63), random.between(0, count as i64 - 1) as usize);
    let lines = list.lines_mut();
    let number = lines[line][place];
    match random.between(0, 9) {
        0 => lines.swap(line, other),
        1 => lines[line] = [0; 5],
        2 | 3 => lines[line][place] = number.wrapping_add(1),
        4 | 5 => lines[line][place] = number.wrapping_sub(1),
        _ => lines[line][place] = number ^ bit,
    }
    let least = line as u64;
    let between = random.between(line as i64 + 1, count as i64) as u64;
    let calls = vec![
        Call::Pair { count, allowance: random.pick(&[0, 1, u64::MAX]) },
        Call::Amount { count: between },
        Call::Apart { count: between, k: any_k(random, between) },
        Call::Pair { count: least, allowance: 0 },
        Call::Amount { count: least },
        Call::Pair { count: least, allowance: random.pick(&[1, u64::MAX]) },
    ];
    Spoiled { list, calls }
}

/// One count above the pairs, or more, with a left line, a pair or something else standing there.
fn count_above(random: &mut Random, list: &List, count: u64) -> Spoiled {
    let mut list = list.clone();
    let pairs = count as usize;
    let any = random.draw();
    let row = random.between(0, 3) as u64;
    let last = list.lines()[..pairs].last().copied();
    if let Some(entry) = list.lines_mut().get_mut(pairs) {
        match random.between(0, 3) {
            0 => *entry = last.unwrap_or(*entry),
            1 => *entry = [0; 5],
            2 => *entry = [2, row, 1, 100, 0],
            _ => {}
        }
    }
    let room = list.room as u64;
    let counts = [(60, count + 1), (10, count + 2), (10, room), (10, room + 1), (10, any)];
    let count = weighted(random, &counts).max(count + 1);
    let allowance = random.pick(&[0, 1, u64::MAX]);
    Spoiled { list, calls: calls(count, allowance, any_k(random, count)) }
}

/// A list of fewer than 2 × p entries, of which there may be none; the count may be wrong too.
fn short(random: &mut Random, list: &List, p: usize) -> Spoiled {
    let most = (2 * p).saturating_sub(1);
    let any = random.between(0, most as i64) as usize;
    let room = weighted(random, &[(50, any), (25, most), (25, p.min(most))]);
    let any = random.draw();
    let count = random.pick(&[0, 1, room as u64, p as u64, any]);
    let calls = calls(count, 1, any_k(random, count));
    Spoiled { list: list.with_room(room), calls }
}

/// The reading's refusal, whatever the list and the numbers.
fn of_refused(asking: &mut Asking, random: &mut Random) -> Compared {
    let room = random.between(0, 4) as usize;
    let any = random.draw();
    let (count, allowance) = (random.pick(&[0, 0, 1, any]), random.pick(&[0, 1, any]));
    let mut list = List::marked(room);
    for call in calls(count, allowance, any_k(random, count)) {
        asking.ask(&mut list, call)?;
    }
    Ok(())
}
