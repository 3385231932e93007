//! The tournament, the fastest way. Every queue of written rows has the rank of its nearest pair, and a tree of minima the
//! least rank of all. Ranks only rise while contracts fall: a rank whose held row is spent is too low at worst, so that a
//! queue searches again only where its rank is the least. Where that comes up often, all such queues search in one pass.

mod keys;
mod queues;
mod tree;

use reference::account::Account;
use reference::pairing::Pair;

use super::Rows;
use keys::{row_of, NONE};
use queues::Queues;
use tree::Tree;

/// So many spent held rows one after the other call for a pass.
const SPENT_IN_A_ROW: u32 = 8;

pub fn pairs(account: &Account, left: &mut [i64]) -> Vec<Pair> {
    let rows = Rows::of(account);
    let mut queues = Queues::of(&rows);
    let mut tree = Tree::over((0..queues.count()).map(|queue| queues.rank(queue, left)));
    let mut made = Vec::with_capacity(left.len());
    let mut spent_in_a_row = 0;
    while tree.least() < NONE {
        let (written, held) = (row_of(tree.least() >> 8), row_of(tree.least()));
        if left[held] > 0 {
            made.push(rows.pair(left, written, held));
            spent_in_a_row = 0;
        } else {
            spent_in_a_row += 1;
        }
        if spent_in_a_row < SPENT_IN_A_ROW {
            let queue = queues.queue_of(written);
            tree.set(queue, queues.rank(queue, left));
        } else {
            pass(&mut queues, &mut tree, left);
            spent_in_a_row = 0;
        }
    }
    made
}

/// Every queue whose held row is spent searches again.
fn pass(queues: &mut Queues, tree: &mut Tree, left: &[i64]) {
    for queue in 0..queues.count() {
        let rank = tree.leaf(queue);
        if rank < NONE && left[row_of(rank)] == 0 {
            tree.set_leaf(queue, queues.rank(queue, left));
        }
    }
    tree.fill();
}
