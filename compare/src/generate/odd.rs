//! Odd values and calls: numbers and records at the boundaries of their questions, mangled bytes, scratch of any length,
//! and calls of any kind in a row.

use super::previews::any_preview;
use super::random::Random;
use super::runs::{any_value, follow, follow_dispatch, highest_read, legal_event, with_none_pending, Policy};
use crate::cases::records::{classed_report, handover, local_read, report, stop, sync, write};
use crate::cases::{name, Asked, Call};
use crate::engines::pair;
use crate::reference::{State, SCRATCH};
use furnacejade::{Name, Pair};

/// Far more scratch than is asked for.
pub const MUCH: usize = 4096;

/// Too little scratch: none, one byte, or one byte less than is asked for.
pub fn short_scratch(random: &mut Random) -> usize {
    random.pick(&[0, 1, SCRATCH - 2, SCRATCH - 1, SCRATCH - 1])
}

/// More scratch than is asked for: by one byte, or by far.
pub fn long_scratch(random: &mut Random) -> usize {
    random.pick(&[SCRATCH + 1, SCRATCH + 1, SCRATCH + 2, MUCH, MUCH, 2 * MUCH])
}

/// Scratch of any length. Two thirds of the calls are lent just what is asked for.
pub fn any_scratch(random: &mut Random) -> usize {
    match random.below(12) {
        0 => short_scratch(random),
        1..=3 => long_scratch(random),
        _ => SCRATCH,
    }
}

/// Any number for a call that takes one: in range, at its edges, or far off with low bits in range.
pub fn any_number(random: &mut Random, n: usize) -> usize {
    match random.below(10) {
        0 => 0,
        1 => n + 1,
        2 => random.pick(&[8, 9, 255, 256, 257, 65_536 + 1, (1 << 32) + 1, usize::MAX, usize::MAX - 1, 1 << 63]),
        3 => random.next() as usize,
        _ => random.between(1, n.clamp(1, 7)),
    }
}

/// Either version.
pub fn any_version(random: &mut Random) -> usize {
    random.between(1, 2)
}

fn odd_controller(random: &mut Random, n: usize) -> usize {
    match random.below(10) {
        0 => random.pick(&[0, n + 1, 255, 128]),
        1 => random.pick(&[1, n]),
        _ => random.between(1, n.max(1)),
    }
}

/// A report with fields at the boundaries of their questions, in most cases of the table's version.
fn boundary_report(random: &mut Random, state: &State, c: usize) -> Vec<u8> {
    let amount = random.pick(&[360, -360, 361, -361, 0, 1, -1, i16::MAX, i16::MIN, 256, 104]);
    match (state.version, random.one_in(6)) {
        (1, false) | (2, true) => report(c, amount),
        _ => classed_report(c, amount, random.pick(&[0, 1, 2, 3, 4, 5, 6, 128, 255])),
    }
}

/// A write of a register in range or at the edges of its range.
pub fn boundary_write(random: &mut Random, c: usize) -> Vec<u8> {
    write(c, random.pick(&[0, 1, 1, 2, 7, 8, 8, 9, 128, 255]), any_value(random))
}

/// A record with fields at the boundaries of their questions, several of which may say no.
fn boundary_record(random: &mut Random, state: &State) -> Vec<u8> {
    let c = odd_controller(random, state.n);
    match random.below(6) {
        0 => boundary_report(random, state, c),
        1 => sync(c),
        2 => local_read(c),
        3 => handover(c, odd_controller(random, state.n)),
        4 => boundary_write(random, c),
        _ => {
            let (read, length) = match (1..=state.n).contains(&c) {
                true => (highest_read(state, c), state.controllers[c - 1].log.len()),
                false => (0, 0),
            };
            let own = state.controllers.get(c.wrapping_sub(1)).map_or(0, |own| own.read[c - 1]);
            let around = [read.saturating_sub(1), read, own, length.saturating_sub(1), length, length + 1];
            stop(c, random.pick(&around) + random.pick(&[0, 0, 0, 0, 0, 256, 65_000]))
        }
    }
}

/// Bytes with something wrong: cut short, a bit flipped, a length off, a byte more or less.
pub fn mangle(random: &mut Random, bytes: &mut Vec<u8>) {
    let at = random.below(bytes.len().max(1));
    match random.below(9) {
        0 => bytes.truncate(at),
        1 if at < bytes.len() => bytes[at] ^= 1 << random.below(8),
        2 if !bytes.is_empty() => bytes[0] = random.pick(&[0, 1, 2, 3, 4, 5, 6, 7, 8, 255]),
        3 if bytes.len() > 1 => bytes[1] = random.pick(&[0, 1, 2, 3, 4, 5, 6, 7, 255]),
        4 => bytes.insert(at, random.byte()),
        5 if at < bytes.len() => drop(bytes.remove(at)),
        6 if !bytes.is_empty() => bytes[0] = bytes[0].wrapping_add(random.pick(&[1, 255])),
        7 if at < bytes.len() => bytes[at] = random.byte(),
        // A length byte that is off by one together with its byte.
        _ if !bytes.is_empty() => {
            bytes[0] = bytes[0].wrapping_add(1);
            bytes.push(random.byte());
        }
        _ => bytes.push(0),
    }
}

/// An event call of any kind; most are legal if `odd` is large.
pub fn any_event(random: &mut Random, state: &State, policy: &Policy, odd: usize) -> Vec<u8> {
    let mut bytes = legal_event(random, state, policy).unwrap_or_else(|| boundary_record(random, state));
    if random.one_in(odd) {
        bytes = boundary_record(random, state);
        if random.one_in(2) {
            mangle(random, &mut bytes);
        }
    }
    if random.one_in(6) {
        let length = random.below(12);
        bytes.extend((0..length).map(|_| random.byte()));
    }
    bytes
}

/// A message that is pending at a controller, if one is; or any message; or a name at the edges of what names may be.
fn any_name(random: &mut Random, state: &State, c: usize) -> Name {
    let own = state.controllers.get(c.wrapping_sub(1));
    let mut known: Vec<_> = own.map_or(vec![], |own| own.pending.keys().copied().collect());
    if known.is_empty() || random.one_in(3) {
        known = state.messages.iter().map(|x| x.name).collect();
    }
    if known.is_empty() || random.one_in(6) {
        let sender = random.pick(&[0, 1, state.n, state.n + 1, 255]);
        return name(sender, random.pick(&[0, 1, 2, 64, 65, 255]));
    }
    let known = random.pick(&known);
    name(known.sender, known.number)
}

/// A count of "goes before" at any controller number. Its names are mostly of messages that are pending there, if any
/// are.
pub fn any_asked(random: &mut Random, state: &State) -> Asked {
    let controller = any_number(random, state.n);
    let first = any_name(random, state, controller);
    Asked { controller, first, second: any_name(random, state, controller) }
}

/// Any two numbers for a call of the dispatcher; half of the time those of a pair.
pub fn any_pair(random: &mut Random, n: usize) -> Pair {
    match random.below(4) {
        0 | 1 => Pair { receiver: random.between(1, n.clamp(1, 7)), owner: random.between(1, n.clamp(1, 7)) },
        2 => Pair { receiver: any_number(random, n), owner: any_number(random, n) },
        _ => pair(random.pick(&[
            (0, 0),
            (0, n),
            (n, 0),
            (n + 1, n),
            (n, n + 1),
            (n + 1, 1),
            (255, 255),
            (usize::MAX, 1),
        ])),
    }
}

/// A call of the dispatcher, which mostly names the pair that it served last.
fn any_dispatch(random: &mut Random, state: &mut State, last: &mut Pair, odd: usize) -> Call {
    let named = if random.one_in(3) { any_pair(random, state.n) } else { *last };
    let scratch = if random.one_in(odd) { any_scratch(random) } else { SCRATCH };
    let served = follow_dispatch(state, named, scratch);
    if served != Pair::BLANK {
        *last = served;
    }
    Call::Dispatch { named, scratch }
}

/// Calls of any kind on a state.
pub fn any_calls(random: &mut Random, state: &mut State, count: usize, odd: usize) -> Vec<Call> {
    let policy = Policy::random(random);
    let (mut calls, mut last) = (vec![], Pair { receiver: state.n, owner: state.n });
    for _ in 0..count {
        if random.one_in(8) {
            calls.push(any_dispatch(random, state, &mut last, odd));
            continue;
        }
        if random.one_in(8) {
            calls.push(any_preview(random, state, odd));
            continue;
        }
        if random.one_in(8) {
            calls.push(Call::Look(any_number(random, state.n)));
            continue;
        }
        if random.one_in(8) {
            calls.push(Call::CountBefore(any_asked(random, state)));
            continue;
        }
        let bytes = any_event(random, state, &policy, odd);
        let scratch = if random.one_in(odd) { any_scratch(random) } else { SCRATCH };
        follow(state, &bytes, scratch);
        calls.push(Call::Event { bytes, scratch });
    }
    calls
}

/// A write of each controller that has no message of its own pending: most are left to question 20.
pub fn writes_of_all(random: &mut Random, state: &mut State) -> Vec<Call> {
    let mut calls = vec![];
    for c in with_none_pending(state) {
        let bytes = write(c, random.between(1, 8), any_value(random));
        follow(state, &bytes, SCRATCH);
        calls.push(Call::Event { bytes, scratch: SCRATCH });
    }
    calls
}

pub fn as_calls(run: Vec<Vec<u8>>) -> Vec<Call> {
    run.into_iter().map(|bytes| Call::Event { bytes, scratch: SCRATCH }).collect()
}
