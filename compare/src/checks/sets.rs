//! The set of one handover, on any well-formed table, by two other ways than the reference's: by all subsets, and by the
//! matrix. The buffer in which the set is looked for is read from the table before the handover.

use super::matrix::{self, Buffer};
use super::{demand3, subsets};
use crate::reference::{self, Marks, Name};
use furnacejade::{ForwardNumber, Pair, Pending, Table, MESSAGES};
use std::collections::{BTreeMap, BTreeSet};

/// The kind of a record that hands an entry over.
pub const HANDOVER: u8 = 3;

/// The buffer of a receiver after it has read the next entry of an owner's log (lines 3 to 14). The receiver has one
/// unread.
pub fn buffer(t: &Table, Pair { receiver, owner }: Pair) -> Buffer {
    let own = &t.controllers[receiver - 1];
    let place = own.read[owner - 1];
    let slot = t.controllers[owner - 1].log[place] as usize;
    let (message, mut buffer) = (&t.messages[slot], own.pending);
    if message.number > own.highest[message.sender as usize - 1] {
        if buffer[slot].held == 0 {
            buffer[slot] = Pending { held: 1, marks: [ForwardNumber::ABSENT; 7] };
        }
        buffer[slot].marks[owner - 1] = ForwardNumber(place as u8 + 1);
    }
    buffer
}

/// The pending messages of a buffer by their slots.
pub fn pending(buffer: &Buffer) -> BTreeMap<usize, Marks> {
    let marks = |slot: usize| buffer[slot].marks.map(|mark| (mark != ForwardNumber::ABSENT).then_some(mark.0 as usize));
    (0..MESSAGES).filter(|slot| buffer[*slot].held != 0).map(|slot| (slot, marks(slot))).collect()
}

/// The slots of the set that a buffer gives, or how the two ways differ.
pub fn by_both_ways(n: usize, buffer: &Buffer) -> Result<Vec<usize>, String> {
    let (by_matrix, pending) = (matrix::largest(n, buffer), pending(buffer));
    if pending.len() <= subsets::MOST {
        let by_subsets: Vec<usize> = subsets::largest(n, &pending).into_iter().collect();
        if by_subsets != by_matrix {
            return Err(format!("set: all subsets give slots {by_subsets:?}, the matrix {by_matrix:?}"));
        }
    }
    Ok(by_matrix)
}

/// The set of the reference, if both other ways give the same.
pub fn agreed(n: usize, named: &BTreeMap<Name, Marks>) -> Result<BTreeSet<Name>, String> {
    let mut buffer = [Pending { held: 0, marks: [ForwardNumber(0); 7] }; MESSAGES];
    for (x, marks) in buffer.iter_mut().zip(named.values()) {
        *x = Pending {
            held: 1,
            marks: marks.map(|mark| mark.map_or(ForwardNumber::ABSENT, |mark| ForwardNumber(mark as u8))),
        };
    }
    let (set, slots) = (reference::largest(n, named), by_both_ways(n, &buffer)?);
    let names: Vec<&Name> = named.keys().collect();
    match set.iter().eq(slots.into_iter().map(|slot| names[slot])) {
        true => Ok(set),
        false => Err(format!("set: not the matrix's: {set:?}")),
    }
}

/// The set that was answered to a handover, by whichever call, is the set of both ways.
pub fn law(t: &Table, pair: Pair, answered: &[demand3::Name]) -> Result<(), String> {
    let slots = by_both_ways(t.n, &buffer(t, pair))?;
    let name = |slot: usize| (t.messages[slot].sender as usize, t.messages[slot].number.0 as usize);
    let mut right: Vec<demand3::Name> = slots.into_iter().map(name).collect();
    right.sort();
    match right == answered {
        true => Ok(()),
        false => Err(format!("set: not the matrix's: to {} from {}", pair.receiver, pair.owner)),
    }
}

/// The rounds of removals in a buffer, and the slots that are left. The first round has the pending messages that are no
/// candidates; each round after it has the candidates that do not go before all those outside by then.
fn rounds(n: usize, buffer: &Buffer) -> (Vec<Vec<usize>>, Vec<usize>) {
    let flags = matrix::flags(n, buffer);
    let pending = (0..MESSAGES).filter(|slot| buffer[*slot].held != 0);
    let (mut set, first): (Vec<usize>, Vec<usize>) = pending.partition(|slot| matrix::candidate(n, &buffer[*slot]));
    let mut rounds = vec![first];
    loop {
        let goes_first = |s: &usize| rounds.iter().flatten().all(|t| flags[*s][*t]);
        let (left, out): (Vec<usize>, Vec<usize>) = set.into_iter().partition(goes_first);
        if out.is_empty() {
            return (rounds, left);
        }
        rounds.push(out);
        set = left;
    }
}

/// How often a set was looked for, and in which buffers.
#[derive(Default)]
pub struct Tally {
    pub all: usize,
    /// The most messages that were pending, and how often there were 64.
    pub most: usize,
    pub full: usize,
    /// Candidates were pending, and messages that are none.
    pub mixed: usize,
    /// No candidate was taken out; all were; or some were.
    pub none_out: usize,
    pub all_out: usize,
    pub some_out: usize,
    /// By the number of rounds of removals, up to seven and more; and the most rounds.
    pub rounds: [usize; 8],
    pub most_rounds: usize,
    /// A message that was taken out forced out one that stands before it in slot order; and one that stands after it.
    pub forced_before: usize,
    pub forced_after: usize,
}

impl Tally {
    pub fn see(&mut self, n: usize, buffer: &Buffer) {
        let (rounds, set) = rounds(n, buffer);
        let (first, removals) = (&rounds[0], &rounds[1..]);
        let out: usize = removals.iter().map(Vec::len).sum();
        let held = first.len() + out + set.len();
        self.all += 1;
        self.most = self.most.max(held);
        self.full += (held == MESSAGES) as usize;
        self.mixed += (!first.is_empty() && held > first.len()) as usize;
        self.none_out += (out == 0 && !set.is_empty()) as usize;
        self.all_out += (out > 0 && set.is_empty()) as usize;
        self.some_out += (out > 0 && !set.is_empty()) as usize;
        self.rounds[removals.len().min(7)] += 1;
        self.most_rounds = self.most_rounds.max(removals.len());
        let flags = matrix::flags(n, buffer);
        let forces = |y: usize, x: usize| !flags[x][y];
        let forced = |order: fn(&usize, &usize) -> bool| {
            let one =
                |pair: &[Vec<usize>]| pair[1].iter().any(|x| pair[0].iter().any(|y| order(x, y) && forces(*y, *x)));
            removals.windows(2).any(one) as usize
        };
        self.forced_before += forced(|x, y| x < y);
        self.forced_after += forced(|x, y| x > y);
    }
}
