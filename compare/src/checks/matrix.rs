//! The applied set by a matrix, as it can be found in 4,096 bytes of scratch: a row for each slot of a buffer, with a flag
//! for each slot, whether the one goes before the other; then one removal after the other by these flags, until none is
//! left. A buffer is read as it lies in a table, whatever its marks are.

use furnacejade::{Pending, MESSAGES};

/// What a controller keeps of the messages in all slots.
pub type Buffer = [Pending; MESSAGES];

/// A row for each slot, with a flag for each slot.
pub type Flags = [[bool; MESSAGES]; MESSAGES];

const ABSENT: u8 = 255;

/// The relation of line 16 by the bytes of the marks, of which absent is the greatest.
fn goes_before(n: usize, x: &Pending, y: &Pending) -> bool {
    let smaller = (0..n).filter(|f| x.marks[*f].0 < y.marks[*f].0);
    smaller.count() > n / 2
}

/// The flags of pending messages; those of other slots are never read.
pub fn flags(n: usize, buffer: &Buffer) -> Flags {
    let held = |slot: usize| buffer[slot].held != 0;
    let flag = |s: usize, t: usize| held(s) && held(t) && goes_before(n, &buffer[s], &buffer[t]);
    std::array::from_fn(|s| std::array::from_fn(|t| flag(s, t)))
}

/// Whether the message in a slot is pending and has the marks of a majority.
pub fn candidate(n: usize, x: &Pending) -> bool {
    let marked = (0..n).filter(|f| x.marks[*f].0 != ABSENT);
    x.held != 0 && marked.count() > n / 2
}

/// The slots of the largest set, in order.
pub fn largest(n: usize, buffer: &Buffer) -> Vec<usize> {
    let (flags, mut set) = (flags(n, buffer), buffer.map(|x| candidate(n, &x)));
    let pending: Vec<usize> = (0..MESSAGES).filter(|slot| buffer[*slot].held != 0).collect();
    'removals: loop {
        for s in pending.iter().filter(|s| set[**s]) {
            for t in pending.iter().filter(|t| !set[**t]) {
                if !flags[*s][*t] {
                    set[*s] = false;
                    continue 'removals;
                }
            }
        }
        return (0..MESSAGES).filter(|slot| set[*slot]).collect();
    }
}
