//! One side of a comparison: an engine, the table that it goes on with, the memory that is lent to it, and what it
//! answers in plain numbers.

use super::demand3;
use crate::engines::library::DIRTY_SUMS;
use crate::engines::Engine;
use furnacejade::{Answer, AskAnswer, DispatchAnswer, MessageNumber, Name, Pair, RefusalNumber, Register, Sums, Table};

/// The guard before lent memory, and the one after it. A call that clears 4,096 bytes, however few it is lent, stays
/// within the second.
const GUARD: usize = 64;
const GUARD_AFTER: usize = 4096;

/// Lent memory: dirty at first, with a guard on either side.
pub struct Lent {
    pub memory: Vec<u8>,
    length: usize,
}

impl Lent {
    pub fn new(length: usize) -> Lent {
        Lent::with(length, |i| (i.wrapping_mul(37) as u8) | 1)
    }

    /// With dirt of any sort, by its place in the memory.
    pub fn with(length: usize, dirt: impl Fn(usize) -> u8) -> Lent {
        Lent { memory: (0..GUARD + length + GUARD_AFTER).map(dirt).collect(), length }
    }

    pub fn lent(&mut self) -> &mut [u8] {
        &mut self.memory[GUARD..GUARD + self.length]
    }

    /// The memory as it is once the first bytes of what is lent are zero.
    pub fn cleared(mut self, bytes: usize) -> Vec<u8> {
        self.lent()[..bytes].fill(0);
        self.memory
    }
}

/// A name that no message has.
const DIRTY_NAME: Name = Name { sender: 0xA5, number: MessageNumber(0xA5) };

fn dirty_answer() -> Answer {
    Answer { refusal: RefusalNumber(0xA5), finished: 0xA5, sums: DIRTY_SUMS, size: 77, names: [DIRTY_NAME; 64] }
}

fn dirty_ask() -> AskAnswer {
    AskAnswer { refusal: RefusalNumber(0xA5), acts: 0xA5A5_A5A5, size: 77, names: [DIRTY_NAME; 64] }
}

/// An engine, and the table that it goes on with.
pub struct Side<'a> {
    pub engine: &'a dyn Engine,
    pub table: Table,
}

/// What an event call leaves but for the table.
pub struct EventLeft {
    pub answer: Answer,
    pub bytes: usize,
    pub scratch: Vec<u8>,
}

/// What a call of the dispatcher leaves but for the table.
pub struct DispatchLeft {
    pub answer: DispatchAnswer,
    pub scratch: Vec<u8>,
}

/// What an ask leaves but for the table.
pub struct AskLeft {
    pub answer: AskAnswer,
    pub scratch: Vec<u8>,
}

/// What a commit leaves but for the table.
pub struct CommitLeft {
    pub answer: Answer,
    pub scratch: Vec<u8>,
}

/// Numbers that no pair has.
const DIRTY_PAIR: Pair = Pair { receiver: 0xA5A5_A5A5, owner: 0xA5A5_A5A5 };

impl Side<'_> {
    pub fn event(&mut self, bytes: &[u8], scratch: usize) -> EventLeft {
        let (mut scratch, mut answer) = (Lent::new(scratch), dirty_answer());
        let bytes = self.engine.event(&mut self.table, bytes, scratch.lent(), &mut answer);
        EventLeft { answer, bytes, scratch: scratch.memory }
    }

    pub fn dispatch(&mut self, named: Pair, scratch: usize) -> DispatchLeft {
        let (mut scratch, mut answer) =
            (Lent::new(scratch), DispatchAnswer { pair: DIRTY_PAIR, answer: dirty_answer() });
        self.engine.dispatch(&mut self.table, named, scratch.lent(), &mut answer);
        DispatchLeft { answer, scratch: scratch.memory }
    }

    pub fn ask(&mut self, pair: Pair, scratch: usize) -> AskLeft {
        let (mut scratch, mut answer) = (Lent::new(scratch), dirty_ask());
        self.engine.ask(&mut self.table, pair, scratch.lent(), &mut answer);
        AskLeft { answer, scratch: scratch.memory }
    }

    pub fn commit(&mut self, pair: Pair, acts: usize, scratch: usize) -> CommitLeft {
        let (mut scratch, mut answer) = (Lent::new(scratch), dirty_answer());
        self.engine.commit(&mut self.table, pair, acts, scratch.lent(), &mut answer);
        CommitLeft { answer, scratch: scratch.memory }
    }
}

/// The names of the set, however wrong its size is.
pub fn set(answer: &Answer) -> Vec<demand3::Name> {
    names(&answer.names[..answer.size.min(64)])
}

/// The names of the set that an ask shows, however wrong its size is.
pub fn shown(answer: &AskAnswer) -> Vec<demand3::Name> {
    names(&answer.names[..answer.size.min(64)])
}

fn names(set: &[Name]) -> Vec<demand3::Name> {
    set.iter().map(|x| (x.sender as usize, x.number.0 as usize)).collect()
}

pub fn numbers(pair: Pair) -> demand3::Pair {
    (pair.receiver, pair.owner)
}

pub fn sums(sums: Sums) -> demand3::Sums {
    (sums.added as usize, sums.withdrawn as usize)
}

pub fn register(Register { value, stamp }: Register) -> demand3::Register {
    ((stamp.date as usize, stamp.writer as usize), value)
}
