//! What docs/RULES.md speaks of: messages, registers, controllers and their states, events, sums, and answers; and the
//! limits of all these.

use super::*;

pub const MAX_CONTROLLERS: usize = 7;
pub const MAX_MESSAGES: usize = 64;
/// The weight classes 1 to 4, and 0 for none.
pub const CLASSES: usize = 5;
pub const REGISTERS: usize = 8;
/// The scratch that a call needs: a byte for each message that can be pending.
pub const SCRATCH: usize = MAX_MESSAGES;
pub const LISTING: usize = 16_384;

/// A message's name. Names are ordered as in answers and listings.
#[derive(Clone, Copy, PartialEq, Eq, PartialOrd, Ord, Debug)]
pub struct Name {
    pub sender: usize,
    pub number: usize,
}

#[derive(Clone, Copy, PartialEq, Eq, Debug)]
pub enum Payload {
    Report { amount: i32, class: usize },
    Sync,
    Write { register: usize, value: u32 },
}

/// A message. The date of any message but a write is 0.
#[derive(Clone, Copy, PartialEq, Eq, Debug)]
pub struct Message {
    pub name: Name,
    pub payload: Payload,
    pub date: usize,
}

/// The stamp of a write. Stamps are ordered by date and then by writer; 0, 0 comes before all others.
#[derive(Clone, Copy, PartialEq, Eq, PartialOrd, Ord, Debug, Default)]
pub struct Stamp {
    pub date: usize,
    pub writer: usize,
}

/// A register: its value, and the stamp of the write that gave it.
#[derive(Clone, Copy, PartialEq, Eq, Debug, Default)]
pub struct Register {
    pub value: u32,
    pub stamp: Stamp,
}

/// One forward number for each controller, or absent.
pub type Marks = [Option<usize>; MAX_CONTROLLERS];

#[derive(Clone, PartialEq, Eq, Debug)]
pub struct Controller {
    pub running: bool,
    pub log: Vec<Name>,
    /// For each log owner, how many entries of its log this controller has read.
    pub read: Vec<usize>,
    pub pending: BTreeMap<Name, Marks>,
    pub applied: BTreeSet<Name>,
    /// For each sender, the highest message number applied; 0 is none.
    pub highest: Vec<usize>,
    /// Register r stands at `registers[r - 1]`.
    pub registers: [Register; REGISTERS],
}

/// Controller c stands at `controllers[c - 1]`; messages stand in the order sent.
#[derive(Clone, PartialEq, Eq, Debug)]
pub struct State {
    pub version: usize,
    pub n: usize,
    pub messages: Vec<Message>,
    pub controllers: Vec<Controller>,
}

#[derive(Clone, Copy, PartialEq, Eq, Debug)]
pub enum Event {
    Send { sender: usize, payload: Payload },
    Handover { receiver: usize, owner: usize },
    Stop { controller: usize, kept: usize },
    Read { controller: usize },
}

/// Two sums of amounts: of those above 0, and of those below 0 with the sign dropped.
#[derive(Clone, Copy, PartialEq, Eq, Debug, Default)]
pub struct Sums {
    pub added: u32,
    pub withdrawn: u32,
}

impl Sums {
    /// The sums with one amount more.
    pub(super) fn plus(self, amount: i32) -> Sums {
        let part = |part: i32| part.max(0) as u32;
        Sums { added: self.added + part(amount), withdrawn: self.withdrawn + part(-amount) }
    }
}

/// What a panel shows: the sums, the sums of each class, and the registers.
#[derive(Clone, PartialEq, Eq, Debug)]
pub struct Shown {
    pub sums: Sums,
    pub classes: [Sums; CLASSES],
    pub registers: [Register; REGISTERS],
}

/// The answer to an event. The sums are what a finished sync answers, or what a local read gives, and otherwise zeros.
#[derive(Clone, PartialEq, Eq, Debug, Default)]
pub struct Answer {
    pub refusal: u8,
    pub set: Vec<Name>,
    pub finished: bool,
    pub sums: Sums,
}
