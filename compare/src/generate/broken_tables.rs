//! Random tables as cases that are broken in each way that question 4 names: each breaks one clause and no other, as
//! far as the table has a place for it.

use super::random::Random;
use super::tables::{any_count, blind_calls, fair_class, good_table, may_be_write, set_highest};
use crate::cases::{Case, Head};
use furnacejade::{Class, ClassNumber, Controller, ForwardNumber, Message, Payload, Pending, Table};

/// A table that is to be broken, and where: at a controller, at a slot, at a message that is pending there, or at one
/// that the controller does not know.
struct Break<'a> {
    random: &'a mut Random,
    t: &'a mut Table,
    c: usize,
    slot: usize,
    held: Option<usize>,
    unknown: Option<usize>,
}

impl<'a> Break<'a> {
    fn new(random: &'a mut Random, t: &'a mut Table) -> Break<'a> {
        let c = random.below(t.n);
        let slot = random.below(t.count.max(1));
        let own = &t.controllers[c];
        let held: Vec<usize> = (0..t.count).filter(|s| own.pending[*s].held != 0).collect();
        let held = if held.is_empty() { None } else { Some(random.pick(&held)) };
        let unknown = (0..t.count).find(|s| own.pending[*s].held == 0 && own.applied[*s] == 0);
        Break { random, t, c, slot, held, unknown }
    }

    fn own(&mut self) -> &mut Controller {
        &mut self.t.controllers[self.c]
    }

    fn message(&mut self) -> &mut Message {
        &mut self.t.messages[self.slot]
    }

    /// One message more than the table has room for.
    fn count_65(&mut self) {
        *self.t = good_table(self.random, self.t.n, 64);
        self.t.count = 65;
    }

    fn payload(&mut self, kind: u8, added: &[u16], withdrawn: &[u16]) {
        let (added, withdrawn) = (self.random.pick(added), self.random.pick(withdrawn));
        let class = if kind == Payload::REPORT { fair_class(self.random, self.t.version) } else { Class::None };
        let payload = Payload { kind, class: class.into(), added, withdrawn, ..Payload::BLANK };
        *self.message() = Message { date: 0, payload, ..*self.message() };
    }

    /// A random slot among the messages of which `so` holds, if there is one.
    fn slot_with(&mut self, so: impl Fn(&Table, usize) -> bool) -> Option<usize> {
        let slots: Vec<usize> = (0..self.t.count).filter(|slot| so(self.t, *slot)).collect();
        (!slots.is_empty()).then(|| self.random.pick(&slots))
    }

    /// A message of the kind given, if there is one.
    fn of_kind(&mut self, kind: u8) -> Option<&mut Message> {
        let slot = self.slot_with(|t, slot| t.messages[slot].payload.kind == kind)?;
        Some(&mut self.t.messages[slot])
    }

    /// A message of the kind given, if there is one, gets a number that no message of its kind has there.
    fn wrong(&mut self, kind: u8, wrong: &[u32], set: fn(&mut Message, u32)) {
        let number = self.random.pick(wrong);
        if let Some(m) = self.of_kind(kind) {
            set(m, number);
        }
    }

    /// A message that is no write, if there is one, gets something that only a write has.
    fn as_of_write(&mut self, numbers: &[u32], set: fn(&mut Message, u32)) {
        let kind = self.random.pick(&[Payload::REPORT, Payload::SYNC]);
        self.wrong(kind, numbers, set);
    }

    /// Another message of a write's sender becomes a write with its stamp.
    fn stamp_twice(&mut self) {
        let Some(one) = self.slot_with(|t, slot| t.messages[slot].payload.kind == Payload::WRITE) else { return };
        let Message { sender, date, payload, .. } = self.t.messages[one];
        let may =
            |t: &Table, slot: usize| slot != one && t.messages[slot].sender == sender && may_be_write(t, sender, slot);
        if let Some(other) = self.slot_with(may) {
            self.t.messages[other] = Message { date, payload, ..self.t.messages[other] };
        }
    }

    /// A message that its running sender does not know becomes a write, with a stamp that no other has.
    fn write_unknown(&mut self) {
        let unknown = |t: &Table, slot: usize| !may_be_write(t, t.messages[slot].sender, slot);
        if let Some(slot) = self.slot_with(unknown) {
            let payload = Payload { kind: Payload::WRITE, reg: 8, value: 5, ..Payload::BLANK };
            let sender = self.t.messages[slot].sender;
            let taken = |t: &Table, date: u16| {
                t.messages[..t.count].iter().any(|m| (m.sender, m.payload.reg, m.date) == (sender, 8, date))
            };
            let free = (1..=self.t.count as u16).find(|date| !taken(self.t, *date));
            self.t.messages[slot] = Message { date: free.unwrap_or(1), payload, ..self.t.messages[slot] };
        }
    }

    /// A message of the kind given, if there is one, gets a class that no message of its kind and version has.
    fn class(&mut self, kind: u8) {
        let wrong: &[u8] = match (self.t.version, kind) {
            (2, Payload::REPORT) => &[0, 5, 6, 128, 255],
            _ => &[1, 2, 3, 4, 5, 255],
        };
        let class = ClassNumber(self.random.pick(wrong));
        if let Some(m) = self.of_kind(kind) {
            m.payload.class = class;
        }
    }

    /// The other version: no report has a class that fits it.
    fn other_version(&mut self) {
        self.t.version = 3 - self.t.version;
    }

    /// A stopped controller is asked fewer clauses, so that the one that is broken stands alone.
    fn stop_sometimes(&mut self) {
        if self.random.one_in(2) {
            self.own().running = 0;
        }
    }

    fn number(&mut self, wrong: &[u8]) {
        let sender = self.message().sender as usize;
        if self.t.count > 0 {
            self.t.controllers[sender - 1].running = 0;
        }
        self.message().number.0 = self.random.pick(wrong);
    }

    /// One message gets the name of another.
    fn name(&mut self) {
        if self.t.count > 1 {
            let other = self.t.messages[(self.slot + 1) % self.t.count];
            *self.message() = Message { sender: other.sender, number: other.number, ..*self.message() };
        }
    }

    fn entry(&mut self, wrong: &[usize]) {
        self.stop_sometimes();
        let length = self.own().length;
        if length > 0 && !wrong.is_empty() {
            let place = self.random.below(length);
            self.own().log[place] = self.random.pick(wrong) as u8;
        }
    }

    fn entry_twice(&mut self) {
        self.stop_sometimes();
        let length = self.own().length;
        if length > 0 && length < 64 {
            let place = self.random.below(length);
            self.own().log[length] = self.own().log[place];
            self.own().length += 1;
        }
    }

    fn log_length(&mut self) {
        let length = self.own().length;
        self.own().length = self.random.pick(&[65, 256 + length, (1 << 32) + length, usize::MAX]);
    }

    fn read(&mut self, beyond: &[usize]) {
        self.stop_sometimes();
        let o = self.random.below(self.t.n);
        let end = self.t.controllers[o].length;
        self.own().read[o] = end + self.random.pick(beyond);
    }

    fn mark(&mut self, from: usize, to: usize, wrong: &[u8]) {
        let f = self.random.between(from, to);
        let mark = ForwardNumber(self.random.pick(wrong));
        if let Some(slot) = self.held {
            self.own().pending[slot].marks[f] = mark;
        }
    }

    fn hold(&mut self, slot: Option<usize>) {
        if let Some(slot) = slot {
            self.own().pending[slot] = Pending { held: 1, marks: [ForwardNumber::ABSENT; 7] };
        }
    }

    fn release(&mut self, slot: Option<usize>) {
        if let Some(slot) = slot {
            self.own().pending[slot].held = 0;
        }
    }

    fn apply(&mut self, slot: Option<usize>) {
        if let Some(slot) = slot {
            self.own().applied[slot] = 1;
        }
    }

    /// A slot after the messages, if there is one.
    fn unused_slot(&mut self) -> Option<usize> {
        self.stop_sometimes();
        let count = self.t.count;
        (count < 64).then(|| self.random.between(count, 63))
    }

    fn hold_unused(&mut self) {
        let slot = self.unused_slot();
        self.hold(slot);
    }

    fn apply_unused(&mut self) {
        let slot = self.unused_slot();
        self.apply(slot);
    }

    fn one_higher(&mut self) {
        let sender = self.random.below(self.t.n);
        self.own().highest[sender].0 += 1;
    }

    fn one_lower(&mut self) {
        let sender = self.random.below(self.t.n);
        let highest = &mut self.own().highest[sender].0;
        *highest = highest.wrapping_sub(1);
    }

    /// A number that a running controller's log is too short for.
    fn long_number(&mut self) {
        let (c, length) = (self.c, self.own().length);
        let own = self.t.messages[..self.t.count].iter_mut().find(|m| m.sender as usize == c + 1);
        if let Some(m) = own.filter(|_| length < 64) {
            m.number.0 = length as u8 + 1;
        }
    }
}

fn set_added(m: &mut Message, number: u32) {
    m.payload.added = number as u16;
}

fn set_withdrawn(m: &mut Message, number: u32) {
    m.payload.withdrawn = number as u16;
}

fn set_register(m: &mut Message, number: u32) {
    m.payload.reg = number as u16;
}

fn set_value(m: &mut Message, number: u32) {
    m.payload.value = number;
}

fn set_date(m: &mut Message, number: u32) {
    m.date = number as u16;
}

/// A way to break a table, and whether the highest numbers are made to agree with what was applied afterwards.
type Way = (fn(&mut Break), bool);

/// Each breaks one clause of question 4 and no other, as far as the table has a place for it.
const WAYS: &[Way] = &[
    (|b| b.t.version = 0, false),
    (|b| b.t.version = 3, false),
    (|b| b.t.version += b.random.pick(&[256, 1 << 32, 1 << 63]), false),
    (|b| b.other_version(), false),
    (|b| b.class(Payload::REPORT), false),
    (|b| b.class(Payload::REPORT), false),
    (|b| b.class(Payload::SYNC), false),
    (|b| b.t.n = 0, false),
    (|b| b.t.n = 8, false),
    (|b| b.t.n += b.random.pick(&[256, 1 << 32, 1 << 63]), false),
    (|b| b.count_65(), false),
    (|b| b.t.count += b.random.pick(&[256, 1 << 32, 1 << 63]), false),
    (|b| b.name(), true),
    (|b| b.message().sender = 0, true),
    (|b| b.message().sender = b.t.n as u8 + 1, true),
    (|b| b.message().number.0 = 0, true),
    (|b| b.number(&[65, 66, 255]), true),
    (|b| b.message().payload.kind = b.random.pick(&[0, 3, 5, 7, 255]), false),
    (|b| b.payload(1, &[0], &[0]), false),
    (|b| b.payload(1, &[361, 616, 65_535], &[0]), false),
    (|b| b.payload(1, &[0], &[361, 616, 65_535]), false),
    (|b| b.payload(1, &[1, 360], &[1, 360]), false),
    (|b| b.payload(2, &[0, 1], &[1]), false),
    (|b| b.payload(2, &[1], &[0]), false),
    (|b| b.wrong(Payload::WRITE, &[1, 360], set_added), false),
    (|b| b.wrong(Payload::WRITE, &[1, 360], set_withdrawn), false),
    (|b| b.class(Payload::WRITE), false),
    (|b| b.wrong(Payload::WRITE, &[0], set_register), false),
    (|b| b.wrong(Payload::WRITE, &[9, 255, 257, 65_535], set_register), false),
    (|b| b.wrong(Payload::WRITE, &[0], set_date), false),
    (|b| b.wrong(Payload::WRITE, &[b.t.count as u32 + 1], set_date), false),
    (|b| b.wrong(Payload::WRITE, &[65, 257, 65_535], set_date), false),
    (|b| b.as_of_write(&[1, 8, 256], set_register), false),
    (|b| b.as_of_write(&[1, 256, 65_536, u32::MAX], set_value), false),
    (|b| b.as_of_write(&[1, 64, 256], set_date), false),
    (|b| b.stamp_twice(), false),
    (|b| b.stamp_twice(), false),
    (|b| b.write_unknown(), false),
    (|b| b.write_unknown(), false),
    (|b| b.entry(&(b.t.count..64).collect::<Vec<_>>()), false),
    (|b| b.entry(&[64, 65, 128, 255]), false),
    (|b| b.entry_twice(), false),
    (|b| b.log_length(), false),
    (|b| b.read(&[1]), false),
    (|b| b.read(&[2, 256, 1 << 32]), false),
    (|b| b.mark(0, b.t.n - 1, &[0]), false),
    (|b| b.mark(0, b.t.n - 1, &[65]), false),
    (|b| b.mark(0, b.t.n - 1, &[66, 128, 254]), false),
    (|b| b.mark(b.t.n - 1, b.t.n - 1, &[0, 65, 254]), false),
    (|b| b.apply(b.held), true),
    (|b| b.one_higher(), false),
    (|b| b.one_lower(), false),
    (|b| b.hold(b.unknown), false),
    (|b| b.release(b.held), false),
    (|b| b.long_number(), true),
    (|b| b.hold_unused(), false),
    (|b| b.apply_unused(), false),
    (|b| b.apply(b.unknown), true),
];

pub fn table_broken(random: &mut Random) -> Case {
    let (change, agree) = random.pick(WAYS);
    let n = random.between(1, 7);
    let count = any_count(random);
    let mut t = good_table(random, n, count);
    change(&mut Break::new(random, &mut t));
    if agree {
        set_highest(&mut t);
    }
    Case { calls: blind_calls(random, &t), head: Head::Table(Box::new(t)) }
}
