//! The set that is applied: "goes before", and the largest set of lines 15 and 16 of Algorithm 1, found by leaving out
//! one message after the other.

use super::*;

/// Absent is greater than every forward number, and not less than absent.
pub(super) const ABSENT: usize = usize::MAX;

/// Half of n rounded down, plus one.
pub(super) fn majority(n: usize) -> usize {
    n / 2 + 1
}

/// How many of the controllers 1 to n say yes?
pub(super) fn how_many(n: usize, yes: impl Fn(usize) -> bool) -> usize {
    (0..n).filter(|f| yes(*f)).count()
}

/// Does a majority of the controllers 1 to n say yes?
pub(super) fn majority_says(n: usize, yes: impl Fn(usize) -> bool) -> bool {
    how_many(n, yes) >= majority(n)
}

/// "Goes before": how many controllers have a smaller forward number for x than for y.
pub(super) fn goes_before(n: usize, x: &Marks, y: &Marks) -> usize {
    how_many(n, |f| x[f].unwrap_or(ABSENT) < y[f].unwrap_or(ABSENT))
}

/// The relation of line 16: a majority puts x before y.
pub fn precedes(n: usize, x: &Marks, y: &Marks) -> bool {
    goes_before(n, x, y) >= majority(n)
}

/// Line 16: is there a pending message outside the set that x does not go before?
pub(super) fn must_leave(n: usize, pending: &BTreeMap<Name, Marks>, set: &BTreeSet<Name>, x: &Name) -> bool {
    pending.keys().any(|y| !set.contains(y) && !precedes(n, &pending[x], &pending[y]))
}

/// Lines 15 and 16: the largest set of pending messages in which each has a majority of marks and
/// goes before each pending message outside the set.
pub fn largest(n: usize, pending: &BTreeMap<Name, Marks>) -> BTreeSet<Name> {
    let marked = |x: &Name| majority_says(n, |f| pending[x][f].is_some());
    let mut set: BTreeSet<Name> = pending.keys().copied().filter(marked).collect();
    while let Some(x) = set.iter().copied().find(|x| must_leave(n, pending, &set, x)) {
        set.remove(&x);
    }
    set
}
