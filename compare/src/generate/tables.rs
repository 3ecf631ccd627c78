//! Random tables as cases: well-formed ones, most of which no run reaches, with junk wherever nothing is read; the same
//! with a few bytes changed; and random bytes.

use super::odd::{any_calls, any_event, any_number, any_pair, any_scratch, any_version, writes_of_all};
use super::pairs::every_pair;
use super::previews::every_ask;
use super::random::Random;
use super::runs::{any_value, Policy};
use crate::cases::{Asked, Call, Case, Head};
use crate::reference::{to_state, well_formed, State};
use furnacejade::{Class, Controller, ForwardNumber, Message, MessageNumber, Name, Payload, Table};

const ABSENT: ForwardNumber = ForwardNumber::ABSENT;

fn junk_table(random: &mut Random) -> Table {
    let low = random.one_in(2);
    Table::from_bytes(&std::array::from_fn(|_| if low { random.byte() % 3 } else { random.byte() }))
}

fn yes(random: &mut Random) -> u8 {
    if random.one_in(3) {
        random.between(1, 255) as u8
    } else {
        1
    }
}

/// The greatest number applied of each sender, for all controllers 1 to n.
pub fn set_highest(t: &mut Table) {
    for c in &mut t.controllers[..t.n.min(7)] {
        for sender in 1..=t.n.min(7) {
            let of_sender =
                (0..t.count.min(64)).filter(|s| c.applied[*s] != 0 && t.messages[*s].sender as usize == sender);
            c.highest[sender - 1] = of_sender.map(|s| t.messages[s].number).max().unwrap_or(MessageNumber::NONE);
        }
    }
}

/// The place of a message in the order of one controller of a chain: last first, but in each second pair of
/// neighbours the other way round. So a message goes before all below it but its neighbour.
pub fn chain_place(f: usize, slot: usize, held: usize) -> usize {
    let neighbour = if slot % 2 == f % 2 { slot + 1 } else { slot.wrapping_sub(1) };
    let place = if neighbour < held { neighbour } else { slot };
    held - place
}

/// Marks for what a controller holds: arbitrary ones; or places in orders that differ from controller to controller
/// and are known up to some place; or a chain, in which one removal after the other follows from the first.
fn set_marks(random: &mut Random, c: &mut Controller, count: usize) {
    let mut order: Vec<usize> = (0..count).filter(|s| c.pending[*s].held != 0).collect();
    random.shuffle(&mut order);
    let (style, range) = (random.below(4), random.pick(&[2, 8, 64]));
    for slot in &order {
        c.pending[*slot].marks = std::array::from_fn(|_| match random.below(3) {
            0 => ABSENT,
            _ => ForwardNumber(random.between(1, range) as u8),
        });
    }
    if style == 0 || order.is_empty() {
        return;
    }
    if style == 3 {
        let majority = random.between(1, 4);
        for (place, slot) in order.iter().enumerate() {
            let known = |f| ForwardNumber(chain_place(f, place, order.len()) as u8);
            let mark = |f| if f < majority { known(f) } else { ABSENT };
            c.pending[*slot].marks = std::array::from_fn(mark);
        }
        c.pending[order[0]].marks[random.below(2)] = ABSENT;
        return;
    }
    for f in 0..7 {
        let mut own = order.clone();
        if style == 2 && random.one_in(2) {
            random.shuffle(&mut own);
        }
        for _ in 0..random.below(own.len() + 1) {
            let at = random.below(own.len());
            let next = (at + 1) % own.len();
            own.swap(at, next);
        }
        let known = if random.one_in(3) { own.len() } else { random.below(own.len() + 1) };
        for (place, slot) in own.into_iter().enumerate() {
            c.pending[slot].marks[f] = if place < known { ForwardNumber(place as u8 + 1) } else { ABSENT };
        }
    }
}

/// A class that a report of a version may have.
pub fn fair_class(random: &mut Random, version: usize) -> Class {
    match version {
        2 => random.pick(&Class::ALL),
        _ => Class::None,
    }
}

/// Whether a message may be a write: its sender has stopped, or has it pending or applied.
pub fn may_be_write(t: &Table, sender: u8, slot: usize) -> bool {
    let own = &t.controllers[sender as usize - 1];
    own.running == 0 || own.pending[slot].held != 0 || own.applied[slot] != 0
}

/// A write of any register, half of the time of the first, with a date that it may have.
fn any_write(random: &mut Random, count: usize) -> (Payload, u16) {
    let reg = if random.one_in(2) { 1 } else { random.between(1, 8) as u16 };
    let last = random.pick(&[1, 2, count]).min(count);
    let date = random.between(1, last) as u16;
    (Payload { kind: Payload::WRITE, reg, value: any_value(random), ..Payload::BLANK }, date)
}

/// Makes one message in `among` a write, where it may be one and no other of its sender has that stamp.
fn set_writes(random: &mut Random, t: &mut Table, among: usize) {
    for slot in 0..t.count {
        let sender = t.messages[slot].sender;
        if !random.one_in(among) || !may_be_write(t, sender, slot) {
            continue;
        }
        let (payload, date) = any_write(random, t.count);
        let same = |m: &Message| (m.sender, m.payload.reg, m.date) == (sender, payload.reg, date);
        if !t.messages[..slot].iter().any(same) {
            t.messages[slot] = Message { payload, date, ..t.messages[slot] };
        }
    }
}

/// The messages, or nothing if a running log is too short for its sender's numbers.
fn set_messages(random: &mut Random, t: &mut Table) -> Option<()> {
    let mut names = vec![];
    for sender in 1..=t.n {
        let c = &t.controllers[sender - 1];
        let most = if c.running != 0 { c.length } else { 64 };
        names.extend((1..=most).map(|number| (sender as u8, number as u8)));
    }
    random.shuffle(&mut names);
    for slot in 0..t.count {
        let (sender, number) = *names.get(slot)?;
        let magnitude = random.pick(&[1, 360, 359, 7]);
        let report = Payload { kind: 1, class: fair_class(random, t.version).into(), ..Payload::BLANK };
        let payload = match random.below(3) {
            0 => Payload { kind: 2, ..Payload::BLANK },
            1 => Payload { added: magnitude, ..report },
            _ => Payload { withdrawn: magnitude, ..report },
        };
        t.messages[slot] = Message { sender, number: MessageNumber(number), date: 0, payload };
    }
    let among = random.pick(&[1, 2, 2, 5, 64]);
    set_writes(random, t, among);
    Some(())
}

/// How a table is made: one controller in `stopped` has stopped; of ten messages, a log has some `share`, and of ten that
/// a controller knows, it has some `held` pending.
pub struct Shape {
    pub stopped: usize,
    pub share: usize,
    pub held: usize,
}

impl Shape {
    fn any(random: &mut Random) -> Shape {
        let mut some = || random.pick(&[0, 1, 5, 9, 10]);
        let (share, held) = (some(), some());
        Shape { stopped: random.pick(&[2, 5, 50]), share, held }
    }
}

/// A random well-formed table with junk wherever nothing is read; most are reached by no run.
pub fn good_table(random: &mut Random, n: usize, count: usize) -> Table {
    table_of(random, n, count, Shape::any)
}

/// The same, of a shape that is chosen anew until a table has it.
pub fn table_of(random: &mut Random, n: usize, count: usize, shape: fn(&mut Random) -> Shape) -> Table {
    loop {
        let mut t = junk_table(random);
        (t.version, t.n, t.count) = (any_version(random), n, count);
        let Shape { stopped, share, held } = shape(random);
        for c in &mut t.controllers[..n] {
            c.running = if random.one_in(stopped) { 0 } else { yes(random) };
            let mut log: Vec<usize> = (0..count).filter(|_| random.below(10) < share || random.one_in(10)).collect();
            random.shuffle(&mut log);
            c.length = log.len();
            log.iter().enumerate().for_each(|(place, slot)| c.log[place] = *slot as u8);
            for slot in 0..64 {
                let known = slot < count && if c.running != 0 { log.contains(&slot) } else { random.one_in(2) };
                let pending = random.below(10) < held;
                c.pending[slot].held = if known && pending { yes(random) } else { 0 };
                c.applied[slot] = if known && !pending { yes(random) } else { 0 };
            }
            set_marks(random, c, count);
            if random.one_in(2) {
                c.pending.iter_mut().for_each(|p| p.marks[n..].fill_with(|| ForwardNumber(random.byte())));
            }
        }
        let lengths: Vec<usize> = t.controllers[..n].iter().map(|c| c.length).collect();
        for c in &mut t.controllers[..n] {
            (0..n).for_each(|o| c.read[o] = random.between(0, lengths[o]));
        }
        if set_messages(random, &mut t).is_some() {
            set_highest(&mut t);
            assert!(well_formed(&t), "the generator makes well-formed tables");
            return t;
        }
    }
}

pub fn any_count(random: &mut Random) -> usize {
    match random.below(4) {
        0 => random.below(4),
        1 => random.pick(&[62, 63, 64]),
        _ => random.between(2, 20),
    }
}

/// Every pair of names at every controller, on one table in `among`. On a table with more than twenty messages that is
/// up to 64,000 calls, so of these tables only one in four of that share is asked.
fn some_pairs(random: &mut Random, t: &Table, among: usize) -> Vec<Call> {
    match random.one_in(among) && (t.count <= 20 || random.one_in(4)) {
        true => every_pair(random, t),
        false => vec![],
    }
}

pub fn table_good(random: &mut Random) -> Case {
    let (n, count) = (random.between(1, 7), any_count(random));
    let t = good_table(random, n, count);
    let mut state = to_state(&t);
    let mut calls = some_pairs(random, &t, 8);
    calls.extend(every_ask(random, n));
    if random.one_in(3) {
        calls.extend(writes_of_all(random, &mut state));
    }
    calls.extend(any_calls(random, &mut state, 8, 6));
    Case { head: Head::Table(Box::new(t)), calls }
}

/// Calls on a table of which nothing is known.
pub fn blind_calls(random: &mut Random, t: &Table) -> Vec<Call> {
    let state = if well_formed(t) { to_state(t) } else { State::fresh(t.version.clamp(1, 2), t.n.clamp(1, 7)) };
    let bytes = any_event(random, &state, &Policy::even(3), 3);
    let mut calls = some_pairs(random, t, 100);
    calls.extend(every_ask(random, t.n));
    let (pair, acts) = (any_pair(random, state.n), any_number(random, state.n));
    calls.push(Call::Commit { pair, acts, scratch: any_scratch(random) });
    calls.push(Call::Dispatch { named: any_pair(random, state.n), scratch: any_scratch(random) });
    calls.extend([Call::Event { bytes, scratch: any_scratch(random) }, Call::Look(any_number(random, state.n))]);
    let mut any_slot = || {
        let Message { sender, number, .. } = t.messages[random.below(t.messages.len())];
        Name { sender, number }
    };
    let (first, second) = (any_slot(), any_slot());
    calls.push(Call::CountBefore(Asked { controller: any_number(random, state.n), first, second }));
    calls
}

pub fn table_flipped(random: &mut Random) -> Case {
    let (n, count) = (random.between(1, 7), any_count(random));
    let mut bytes = *good_table(random, n, count).as_bytes();
    for _ in 0..random.between(1, 3) {
        let at = random.below(bytes.len());
        bytes[at] = if random.one_in(2) { bytes[at] ^ 1 << random.below(8) } else { random.byte() };
    }
    let t = Table::from_bytes(&bytes);
    Case { calls: blind_calls(random, &t), head: Head::Table(Box::new(t)) }
}

pub fn table_random(random: &mut Random) -> Case {
    let mut t = junk_table(random);
    if random.one_in(2) {
        (t.version, t.n, t.count) = (any_version(random), random.between(1, 7), random.pick(&[0, 0, 1, 64]));
    }
    Case { calls: blind_calls(random, &t), head: Head::Table(Box::new(t)) }
}
