//! The applied set once more, straight from its definition: of all subsets of the pending messages that are
//! allowed, the one with the most members. Only for few pending messages.

use crate::reference::Marks;
use std::collections::{BTreeMap, BTreeSet};

pub const MOST: usize = 10;

/// Line 16 once more: x has the smaller mark at more than half of the controllers.
pub fn before(n: usize, x: &Marks, y: &Marks) -> bool {
    let pairs = x[..n].iter().zip(&y[..n]);
    2 * pairs.filter(|(a, b)| a.is_some() && (b.is_none() || a < b)).count() > n
}

/// The largest set of pending messages, each of which is told from the others in any way. A subset is a number with a bit
/// for each of them.
pub fn largest<X: Ord + Copy>(n: usize, pending: &BTreeMap<X, Marks>) -> BTreeSet<X> {
    let all: Vec<(&X, &Marks)> = pending.iter().collect();
    let bits = |yes: &dyn Fn(usize) -> bool| (0..all.len()).filter(|i| yes(*i)).fold(0u32, |bits, i| bits | 1 << i);
    let marked = bits(&|i| 2 * all[i].1[..n].iter().flatten().count() > n);
    let after: Vec<u32> = (0..all.len()).map(|i| bits(&|j| before(n, all[i].1, all[j].1))).collect();
    let whole = bits(&|_| true);
    let allowed = |subset: u32| {
        let mut members = (0..all.len()).filter(|i| subset >> i & 1 == 1);
        subset & !marked == 0 && members.all(|i| whole & !subset & !after[i] == 0)
    };
    let best = (0..=whole).filter(|subset| allowed(*subset)).max_by_key(|subset| subset.count_ones()).unwrap_or(0);
    (0..all.len()).filter(|i| best >> i & 1 == 1).map(|i| *all[i].0).collect()
}
