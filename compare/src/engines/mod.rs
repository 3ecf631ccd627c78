//! What is compared: the calls as a trait, and the reference as an engine. The library and the reference with a fault
//! have files of their own.

pub mod faults;
pub mod library;
pub mod stack;

use crate::cases::Asked;
use crate::reference::calls;
use furnacejade::{
    Answer, AskAnswer, CountAnswer, DispatchAnswer, FreshAnswer, LookAnswer, Pair, RefusalNumber, RunAnswer, Table,
};

/// The pair of these numbers, whatever they are.
pub fn pair((receiver, owner): (usize, usize)) -> Pair {
    Pair { receiver, owner }
}

/// What a refused call of the dispatcher answers; with number 0 it is "none".
pub fn unserved(refusal: RefusalNumber) -> DispatchAnswer {
    DispatchAnswer { pair: Pair::BLANK, answer: Answer { refusal, ..Answer::BLANK } }
}

pub trait Engine {
    /// Answers how many bytes are left.
    fn event(&self, t: &mut Table, bytes: &[u8], scratch: &mut [u8], answer: &mut Answer) -> usize;
    fn dispatch(&self, t: &mut Table, named: Pair, scratch: &mut [u8], answer: &mut DispatchAnswer);
    /// The table may be written to here, so that an engine that does so is found.
    fn ask(&self, t: &mut Table, pair: Pair, scratch: &mut [u8], answer: &mut AskAnswer);
    fn commit(&self, t: &mut Table, pair: Pair, acts: usize, scratch: &mut [u8], answer: &mut Answer);
    fn look(&self, t: &Table, c: usize) -> LookAnswer;
    /// Each is a call of its own. The table may be written to here, so that an engine that does so is found.
    fn counts_before(&self, t: &mut Table, asked: &[Asked]) -> Vec<CountAnswer>;
    fn fresh(&self, version: usize, n: usize) -> FreshAnswer;
    fn run(&self, bytes: &[u8], listing: &mut [u8], scratch: &mut [u8]) -> RunAnswer;
}

pub struct Reference;

impl Engine for Reference {
    fn event(&self, t: &mut Table, bytes: &[u8], scratch: &mut [u8], answer: &mut Answer) -> usize {
        calls::event(t, bytes, scratch, answer)
    }
    fn dispatch(&self, t: &mut Table, named: Pair, scratch: &mut [u8], answer: &mut DispatchAnswer) {
        calls::dispatch(t, named, scratch, answer)
    }
    fn ask(&self, t: &mut Table, pair: Pair, scratch: &mut [u8], answer: &mut AskAnswer) {
        calls::ask(t, pair, scratch, answer)
    }
    fn commit(&self, t: &mut Table, pair: Pair, acts: usize, scratch: &mut [u8], answer: &mut Answer) {
        calls::commit(t, pair, acts, scratch, answer)
    }
    fn look(&self, t: &Table, c: usize) -> LookAnswer {
        calls::look(t, c)
    }
    fn counts_before(&self, t: &mut Table, asked: &[Asked]) -> Vec<CountAnswer> {
        calls::counts_before(t, asked)
    }
    fn fresh(&self, version: usize, n: usize) -> FreshAnswer {
        calls::fresh(version, n)
    }
    fn run(&self, bytes: &[u8], listing: &mut [u8], scratch: &mut [u8]) -> RunAnswer {
        calls::run(bytes, listing, scratch)
    }
}
