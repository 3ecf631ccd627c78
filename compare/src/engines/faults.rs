//! The faults of the folder `faults`. The build script has planted them all in a copy of the reference, where they
//! sleep: one at a time can be woken.

use super::Engine;
use crate::cases::Asked;
use furnacejade::{Answer, AskAnswer, CountAnswer, DispatchAnswer, FreshAnswer, LookAnswer, Pair, RunAnswer, Table};
use std::sync::atomic::{AtomicUsize, Ordering};

/// Every fault: its name, and what it does.
pub const ALL: &[(&str, &str)] = include!(concat!(env!("OUT_DIR"), "/faults.rs"));

/// No fault.
pub const ASLEEP: usize = usize::MAX;

static AWAKE: AtomicUsize = AtomicUsize::new(ASLEEP);

/// Wakes a fault by its place in the list, and puts any other to sleep.
fn wake(fault: usize) {
    AWAKE.store(fault, Ordering::Relaxed);
}

/// What the copy asks wherever a fault edits it.
pub fn planted(fault: usize) -> bool {
    AWAKE.load(Ordering::Relaxed) == fault
}

/// A number that a fault may keep from one call to the next, as no right call does.
pub static KEPT: AtomicUsize = AtomicUsize::new(0);

/// The copy of the reference.
#[allow(dead_code, unused_imports, unused_parens, clippy::all)]
mod copy {
    include!(concat!(env!("OUT_DIR"), "/reference.rs"));
}

/// The reference with a fault, given by its place in the list of faults.
pub struct Faulty(pub usize);

impl Engine for Faulty {
    fn event(&self, t: &mut Table, bytes: &[u8], scratch: &mut [u8], answer: &mut Answer) -> usize {
        wake(self.0);
        copy::calls::event(t, bytes, scratch, answer)
    }
    fn dispatch(&self, t: &mut Table, named: Pair, scratch: &mut [u8], answer: &mut DispatchAnswer) {
        wake(self.0);
        copy::calls::dispatch(t, named, scratch, answer)
    }
    fn ask(&self, t: &mut Table, pair: Pair, scratch: &mut [u8], answer: &mut AskAnswer) {
        wake(self.0);
        copy::calls::ask(t, pair, scratch, answer)
    }
    fn commit(&self, t: &mut Table, pair: Pair, acts: usize, scratch: &mut [u8], answer: &mut Answer) {
        wake(self.0);
        copy::calls::commit(t, pair, acts, scratch, answer)
    }
    fn look(&self, t: &Table, c: usize) -> LookAnswer {
        wake(self.0);
        copy::calls::look(t, c)
    }
    fn counts_before(&self, t: &mut Table, asked: &[Asked]) -> Vec<CountAnswer> {
        wake(self.0);
        copy::calls::counts_before(t, asked)
    }
    fn fresh(&self, version: usize, n: usize) -> FreshAnswer {
        wake(self.0);
        copy::calls::fresh(version, n)
    }
    fn run(&self, bytes: &[u8], listing: &mut [u8], scratch: &mut [u8]) -> RunAnswer {
        wake(self.0);
        copy::calls::run(bytes, listing, scratch)
    }
}
