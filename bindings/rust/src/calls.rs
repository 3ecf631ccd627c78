//! The library's calls as they are, with its own integer types. Each writes its whole answer, refused or not, to a
//! place that the caller lends. What a call answers and leaves is proved in `crates/engine`. This file is the boundary,
//! which nothing proves: it only passes arguments on.

use crate::{Answer, AskAnswer, CountAnswer, DispatchAnswer, FreshAnswer, LookAnswer, Name, Pair, RunAnswer, Table};

extern "C" {
    fn furnacejade_interface() -> usize;
    fn furnacejade_event(
        t: *mut Table,
        bytes: *const u8,
        bytes_length: usize,
        scratch: *mut u8,
        scratch_length: usize,
        answer: *mut Answer,
    ) -> usize;
    fn furnacejade_dispatch(
        t: *mut Table,
        receiver: usize,
        owner: usize,
        scratch: *mut u8,
        scratch_length: usize,
        answer: *mut DispatchAnswer,
    );
    fn furnacejade_ask(
        t: *const Table,
        receiver: usize,
        owner: usize,
        scratch: *mut u8,
        scratch_length: usize,
        answer: *mut AskAnswer,
    );
    fn furnacejade_commit(
        t: *mut Table,
        receiver: usize,
        owner: usize,
        acts: usize,
        scratch: *mut u8,
        scratch_length: usize,
        answer: *mut Answer,
    );
    fn furnacejade_look(t: *const Table, c: usize, answer: *mut LookAnswer);
    fn furnacejade_count_before(
        t: *const Table,
        c: usize,
        first: *const Name,
        second: *const Name,
        answer: *mut CountAnswer,
    );
    fn furnacejade_fresh(version: usize, n: usize, answer: *mut FreshAnswer);
    fn furnacejade_run(
        bytes: *const u8,
        bytes_length: usize,
        listing: *mut u8,
        listing_length: usize,
        scratch: *mut u8,
        scratch_length: usize,
        answer: *mut RunAnswer,
    );
}

// The library asks of its pointers that they are not null, are aligned as their types are, and may be read or written
// for their length, and that what is written overlaps nothing else. Every reference and slice below has all of this.

/// The interface that the library was built with.
#[must_use]
pub fn interface() -> usize {
    // SAFETY: the call takes nothing and returns a number.
    unsafe { furnacejade_interface() }
}

/// One event, of the record with which the bytes begin. Answers how many bytes are unread: the last ones of `bytes`.
pub fn event(table: &mut Table, bytes: &[u8], scratch: &mut [u8], answer: &mut Answer) -> usize {
    let (area, length) = (scratch.as_mut_ptr(), scratch.len());
    // SAFETY: all pointers come from references; table, scratch and answer are borrowed to be written, so nothing
    // overlaps.
    unsafe { furnacejade_event(table, bytes.as_ptr(), bytes.len(), area, length, answer) }
}

/// The dispatcher: the next handover after that of a pair, the one served last, and n and n at first.
pub fn dispatch(table: &mut Table, after: Pair, scratch: &mut [u8], answer: &mut DispatchAnswer) {
    let (area, length) = (scratch.as_mut_ptr(), scratch.len());
    // SAFETY: all pointers come from references; table, scratch and answer are borrowed to be written, so nothing
    // overlaps.
    unsafe { furnacejade_dispatch(table, after.receiver, after.owner, area, length, answer) }
}

/// An ask: what the handover of a pair would apply, and its receiver's act count.
pub fn ask(table: &Table, pair: Pair, scratch: &mut [u8], answer: &mut AskAnswer) {
    let (area, length) = (scratch.as_mut_ptr(), scratch.len());
    // SAFETY: all pointers come from references; scratch and answer are borrowed to be written, so nothing overlaps
    // them.
    unsafe { furnacejade_ask(table, pair.receiver, pair.owner, area, length, answer) }
}

/// A commit: the handover of a pair, if this is its receiver's act count.
pub fn commit(table: &mut Table, pair: Pair, acts: usize, scratch: &mut [u8], answer: &mut Answer) {
    let (area, length) = (scratch.as_mut_ptr(), scratch.len());
    // SAFETY: all pointers come from references; table, scratch and answer are borrowed to be written, so nothing
    // overlaps.
    unsafe { furnacejade_commit(table, pair.receiver, pair.owner, acts, area, length, answer) }
}

/// A panel look at a controller, 1 to n.
pub fn look(table: &Table, controller: usize, answer: &mut LookAnswer) {
    // SAFETY: all pointers come from references; the answer is borrowed to be written, so nothing overlaps it.
    unsafe { furnacejade_look(table, controller, answer) }
}

/// How many controllers put the first message before the second at a controller, 1 to n.
pub fn count_before(table: &Table, controller: usize, first: &Name, second: &Name, answer: &mut CountAnswer) {
    // SAFETY: all pointers come from references; the answer is borrowed to be written, so nothing overlaps it.
    unsafe { furnacejade_count_before(table, controller, first, second, answer) }
}

/// A fresh table of a version, 1 or 2, and of n controllers, 1 to 7.
pub fn fresh(version: usize, n: usize, answer: &mut FreshAnswer) {
    // SAFETY: the pointer comes from a reference.
    unsafe { furnacejade_fresh(version, n, answer) }
}

/// The run of a whole file. Its lines are written from the start of the listing on.
pub fn run(bytes: &[u8], listing: &mut [u8], scratch: &mut [u8], answer: &mut RunAnswer) {
    let (lines, room) = (listing.as_mut_ptr(), listing.len());
    let (area, length) = (scratch.as_mut_ptr(), scratch.len());
    // SAFETY: all pointers come from references; listing, scratch and answer are borrowed to be written, so nothing
    // overlaps.
    unsafe { furnacejade_run(bytes.as_ptr(), bytes.len(), lines, room, area, length, answer) }
}
