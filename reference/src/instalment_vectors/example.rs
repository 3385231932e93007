//! The document's example and another account worked out by hand, step by step.

use super::accounts::{document, three_pairs, Known};
use super::lists::Lent;
use super::{amount, made, Asked, Cases};

pub fn add(cases: &mut Cases) {
    cases.begin("worked out by hand");
    for (name, known) in [("the example", document()), ("three pairs", three_pairs())] {
        let room = Lent::needed(&known.draft);
        let (pairs, asked) = (known.pairs.len() as u64, one_by_one(&known));
        cases.add(format!("{name}, one by one"), &known.draft, Lent::marked(room), asked);
        for count in 0..=pairs {
            let rest = pairs - count;
            let mut asked = vec![
                amount(count, known.amounts[count as usize]),
                made(count, 0, 0),
                made(count, rest, rest),
                made(pairs, rest + 1, 0),
                amount(pairs, known.amounts[pairs as usize]),
            ];
            // Made once more: the same lines.
            asked.extend([made(count, u64::MAX, rest), made(0, u64::MAX, pairs)]);
            let lent = Lent::with(&known.pairs[..count as usize], room);
            cases.add(format!("{name} from {count} pairs"), &known.draft, lent, asked);
        }
        // The amount alone, of any number of the lines that are there.
        let asked = (0..).zip(&known.amounts).map(|(count, centavos)| amount(count, *centavos));
        let lent = Lent::with(&known.lines(), room);
        cases.add(format!("{name}, amounts alone"), &known.draft, lent, asked.collect());
    }
}

/// An allowance of 1 until nothing is left to be made, and the amount each time.
fn one_by_one(known: &Known) -> Vec<Asked> {
    let mut asked = vec![amount(0, known.amounts[0])];
    for count in 0..known.pairs.len() as u64 {
        asked.extend([made(count, 1, 1), amount(count + 1, known.amounts[count as usize + 1])]);
    }
    let all = known.pairs.len() as u64;
    asked.extend([
        made(all, 1, 0),
        made(all, u64::MAX, 0),
        amount(all, known.amounts[all as usize]),
    ]);
    asked
}
