//! From a table as it lies in memory to a state of the reference, and back; and the table without the parts that mean
//! nothing, by which two tables are compared.

use super::{self as reference, Payload as Kind, *};
use furnacejade::{ClassNumber, Controller, ForwardNumber, Message, MessageNumber, Payload, Pending, Table};

pub(super) const ABSENT_MARK: ForwardNumber = ForwardNumber(255);
pub(super) const REPORT: u8 = 1;
pub(super) const SYNC: u8 = 2;
pub(super) const WRITE: u8 = 6;

pub(super) fn name_of(m: &Message) -> reference::Name {
    reference::Name { sender: m.sender as usize, number: m.number.0 as usize }
}

fn message_of(m: &Message) -> reference::Message {
    let amount = m.payload.added as i32 - m.payload.withdrawn as i32;
    let payload = match m.payload.kind {
        SYNC => Kind::Sync,
        WRITE => Kind::Write { register: m.payload.reg as usize, value: m.payload.value },
        _ => Kind::Report { amount, class: m.payload.class.0 as usize },
    };
    reference::Message { name: name_of(m), payload, date: m.date as usize }
}

fn controller_of(t: &Table, c: &Controller) -> reference::Controller {
    let name = |slot: usize| name_of(&t.messages[slot]);
    let marks = |p: &Pending| p.marks.map(|m| (m != ABSENT_MARK).then_some(m.0 as usize));
    reference::Controller {
        running: c.running != 0,
        log: c.log[..c.length].iter().map(|s| name(*s as usize)).collect(),
        read: c.read[..t.n].to_vec(),
        pending: (0..t.count).filter(|s| c.pending[*s].held != 0).map(|s| (name(s), marks(&c.pending[s]))).collect(),
        applied: (0..t.count).filter(|s| c.applied[*s] != 0).map(name).collect(),
        highest: c.highest[..t.n].iter().map(|h| h.0 as usize).collect(),
        registers: [reference::Register::default(); REGISTERS],
    }
}

/// The state that a well-formed table stands for. No table stores registers: each controller holds what it has applied.
pub fn to_state(t: &Table) -> State {
    let mut state = State {
        version: t.version,
        n: t.n,
        messages: t.messages[..t.count].iter().map(message_of).collect(),
        controllers: t.controllers[..t.n].iter().map(|c| controller_of(t, c)).collect(),
    };
    for c in 1..=t.n {
        let applied = state.controllers[c - 1].applied.clone();
        state.hold(c, &applied);
    }
    state
}

fn store_message(m: &reference::Message) -> Message {
    let payload = match m.payload {
        Kind::Report { amount, class } => {
            let (added, withdrawn) = (amount.max(0) as u16, (-amount).max(0) as u16);
            Payload { kind: REPORT, class: ClassNumber(class as u8), added, withdrawn, ..Payload::BLANK }
        }
        Kind::Sync => Payload { kind: SYNC, ..Payload::BLANK },
        Kind::Write { register, value } => Payload { kind: WRITE, reg: register as u16, value, ..Payload::BLANK },
    };
    let (sender, number) = (m.name.sender as u8, MessageNumber(m.name.number as u8));
    Message { sender, number, date: m.date as u16, payload }
}

fn store_controller(from: &reference::Controller, slots: &BTreeMap<reference::Name, usize>, to: &mut Controller) {
    to.running = from.running as u8;
    to.length = from.log.len();
    for (entry, name) in to.log.iter_mut().zip(&from.log) {
        *entry = slots[name] as u8;
    }
    to.read[..from.read.len()].copy_from_slice(&from.read);
    for (name, slot) in slots {
        to.applied[*slot] = from.applied.contains(name) as u8;
        to.pending[*slot].held = from.pending.contains_key(name) as u8;
        if let Some(marks) = from.pending.get(name) {
            to.pending[*slot].marks = marks.map(|m| m.map_or(ABSENT_MARK, |m| ForwardNumber(m as u8)));
        }
    }
    for (number, highest) in to.highest.iter_mut().zip(&from.highest) {
        *number = MessageNumber(*highest as u8);
    }
}

/// Stores a state in a table. Messages that the table has already, and parts of it that mean nothing, stay as they are.
pub fn store(state: &State, t: &mut Table) {
    for slot in t.count..state.messages.len() {
        t.messages[slot] = store_message(&state.messages[slot]);
    }
    (t.version, t.n, t.count) = (state.version, state.n, state.messages.len());
    let slots = state.messages.iter().enumerate().map(|(slot, m)| (m.name, slot)).collect();
    for (to, from) in t.controllers.iter_mut().zip(&state.controllers) {
        store_controller(from, &slots, to);
    }
}

/// A table for a state, as a fresh table has it: no marks and no slots after the messages.
pub fn to_table(state: &State) -> Table {
    let mut t = Table::BLANK;
    for c in &mut t.controllers {
        c.pending = [Pending { held: 0, marks: [ABSENT_MARK; MAX_CONTROLLERS] }; MAX_MESSAGES];
    }
    store(state, &mut t);
    t
}

/// The table with everything that means nothing set to zero, and every flag 0 or 1. Two well-formed tables mean the
/// same exactly if these are equal.
pub fn meaning(t: &Table) -> Table {
    let mut plain = Table::BLANK;
    (plain.version, plain.n, plain.count) = (t.version, t.n, t.count);
    plain.messages[..t.count].copy_from_slice(&t.messages[..t.count]);
    for (to, from) in plain.controllers.iter_mut().zip(&t.controllers[..t.n]) {
        to.running = (from.running != 0) as u8;
        to.length = from.length;
        to.log[..from.length].copy_from_slice(&from.log[..from.length]);
        to.read[..t.n].copy_from_slice(&from.read[..t.n]);
        to.highest[..t.n].copy_from_slice(&from.highest[..t.n]);
        to.applied = from.applied.map(|applied| (applied != 0) as u8);
        for (to, from) in to.pending.iter_mut().zip(&from.pending).filter(|(_, from)| from.held != 0) {
            to.held = 1;
            to.marks[..t.n].copy_from_slice(&from.marks[..t.n]);
        }
    }
    plain
}
