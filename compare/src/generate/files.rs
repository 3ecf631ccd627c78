//! Random run files, whole and mangled, with a listing and scratch of every size, and calls on the last table. Some are
//! as long as a file may be.

use super::odd::{any_calls, any_event, any_scratch, any_version, as_calls, mangle};
use super::random::Random;
use super::runs::{drain, legal_run, with_none_pending, Policy};
use crate::cases::records::{file_of, local_read};
use crate::cases::{Call, Case, Head};
use crate::reference::{run_file, State, LISTING, SCRATCH};

/// A legal file whose run follows a policy, and the state that it leaves.
pub fn legal_file(
    random: &mut Random,
    version: usize,
    events: usize,
    policy: fn(&mut Random) -> Policy,
) -> (Vec<u8>, State) {
    let n = random.between(1, 7);
    let mut state = State::fresh(version, n);
    let policy = policy(random);
    let run = legal_run(random, &mut state, &policy, events);
    (file_of(version, n, &run), state)
}

fn random_file(random: &mut Random, version: usize, events: usize) -> Vec<u8> {
    legal_file(random, version, events, Policy::random).0
}

/// A listing that ends around a line's end.
fn any_listing(random: &mut Random, bytes: &[u8]) -> usize {
    let (mut listing, mut scratch) = (vec![0; LISTING], vec![0; SCRATCH]);
    let written = run_file(bytes, &mut listing, &mut scratch).written;
    let mut ends: Vec<usize> = (0..written).filter(|i| listing[*i] == b'\n').map(|i| i + 1).collect();
    ends.extend([0, 0]);
    match random.below(4) {
        0 => LISTING,
        1 => random.below(written + 1),
        _ => (random.pick(&ends) + random.below(3)).saturating_sub(1),
    }
}

/// A legal file with every kind of lent memory, and calls on its last table.
pub fn file_limits(random: &mut Random) -> Case {
    let (version, events) = (any_version(random), random.pick(&[0, 3, 20, 100, 300]));
    let bytes = random_file(random, version, events);
    let listing = any_listing(random, &bytes);
    let scratch = any_scratch(random);
    let run = run_file(&bytes, &mut vec![0; listing], &mut vec![0; scratch]);
    let mut calls = vec![];
    if let (true, Some(mut state)) = (random.one_in(2), run.state) {
        calls = any_calls(random, &mut state, 20, 5);
        calls.extend(as_calls(drain(random, &mut state)));
    }
    Case { head: Head::File { bytes, listing, scratch }, calls }
}

/// A file with very many local reads, so that numbers of up to five digits stand before its last lines. Some are as
/// long as a file may be, or end in the middle of a record. These files take long, so most turns make a short one.
pub fn file_long(random: &mut Random) -> Case {
    if !random.one_in(12) {
        return file_mangled(random);
    }
    let (version, n) = (any_version(random), random.between(1, 3));
    let mut state = State::fresh(version, n);
    let policy = Policy::random(random);
    let mut records = legal_run(random, &mut state, &policy, 8);
    records.extend(drain(random, &mut state));
    let reader = local_read(with_none_pending(&state).first().copied().unwrap_or(1));
    let reads = random.pick(&[90, 990, 9_980, 9_980, 9_990, 19_990]);
    records.extend(vec![reader.clone(); reads]);
    records.extend(legal_run(random, &mut state, &policy, 30));
    let mut bytes = file_of(version, n, &records);
    let longest = random.pick(&[65_534, 65_535]);
    if random.one_in(3) {
        let room = longest - bytes.len();
        bytes.extend(vec![reader; room / 3].concat());
        bytes.resize(longest, 2);
    }
    Case { head: Head::File { bytes, listing: LISTING, scratch: SCRATCH }, calls: vec![Call::Look(1)] }
}

pub fn file_mangled(random: &mut Random) -> Case {
    let (version, events) = (any_version(random), random.pick(&[3, 20, 100]));
    let (mut bytes, state) = legal_file(random, version, events, Policy::random);
    // Half of the files end in a record at the boundaries of its questions, and may stay whole before it.
    let odd = random.one_in(2);
    if odd {
        bytes.extend(any_event(random, &state, &Policy::even(3), 1));
    }
    for _ in usize::from(odd)..random.between(1, 2) {
        // One record is mangled, or any byte of the file.
        let at = random.below(bytes.len() + 1);
        let mut tail = bytes.split_off(at);
        if tail.is_empty() {
            tail.extend((0..random.below(6)).map(|_| 0));
        }
        mangle(random, &mut tail);
        bytes.extend(tail);
    }
    let listing = if random.one_in(3) { any_listing(random, &bytes) } else { LISTING };
    Case { head: Head::File { bytes, listing, scratch: any_scratch(random) }, calls: vec![Call::Look(1)] }
}

/// Questions 1 to 3: sizes, versions and n around their limits. The records may be of another version than the file.
pub fn file_questions(random: &mut Random) -> Case {
    let (version, events) = (any_version(random), random.below(5));
    let mut bytes = random_file(random, version, events);
    if random.one_in(2) {
        bytes[0] = random.pick(&[0, 1, 2, 3, 4, 129, 130, 255]);
    }
    if random.one_in(2) {
        bytes[1] = random.pick(&[0, 1, 7, 8, 9, 128, 255]);
    }
    match random.below(4) {
        0 => bytes.truncate(random.below(4)),
        1 => bytes.resize(random.pick(&[65_534, 65_535, 65_536, 65_537, 131_072 + 40]), random.pick(&[0, 3])),
        2 => bytes.truncate(2),
        _ => {}
    }
    Case { head: Head::File { bytes, listing: LISTING, scratch: any_scratch(random) }, calls: vec![Call::Look(1)] }
}
