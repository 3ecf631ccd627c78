//! The calls on a table as it lies in memory, as the library has them: question 4 first, then the reference's state of
//! that table, and what an accepted event stores.

use super::{self as reference, *};
use crate::cases::Asked;
use furnacejade::{
    Answer, AskAnswer, CountAnswer, DispatchAnswer, FreshAnswer, LookAnswer, MessageNumber, Name, Pair, Panel,
    RefusalNumber, Register, RunAnswer, Stamp, Sums, Table,
};

/// The kind of a record that leaves the table as it is.
pub const LOCAL_READ: u8 = 5;

fn sums_of(sums: reference::Sums) -> Sums {
    Sums { added: sums.added, withdrawn: sums.withdrawn }
}

fn register_of(register: reference::Register) -> Register {
    let reference::Stamp { date, writer } = register.stamp;
    Register { value: register.value, stamp: Stamp { date: date as u16, writer: writer as u16 } }
}

/// The single-event call: question 4 first. Answers how many bytes are left.
pub fn event(t: &mut Table, bytes: &[u8], scratch: &mut [u8], answer: &mut Answer) -> usize {
    *answer = Answer::BLANK;
    if !well_formed(t) {
        answer.refusal = RefusalNumber(4);
        return bytes.len();
    }
    let mut state = to_state(t);
    let (given, rest) = state.event(bytes, scratch);
    answer.refusal = RefusalNumber(given.refusal);
    if given.refusal == 0 {
        // A local read leaves every byte as it is, also where other bytes would mean the same.
        if bytes[1] != LOCAL_READ {
            store(&state, t);
        }
        tell(&given, answer);
    }
    rest.len()
}

/// What an accepted event answers: its set, "finished" and the sums.
fn tell(given: &reference::Answer, answer: &mut Answer) {
    answer.finished = given.finished as u8;
    answer.sums = sums_of(given.sums);
    answer.size = given.set.len();
    put_names(&given.set, &mut answer.names);
}

fn put_names(set: &[reference::Name], names: &mut [Name]) {
    for (to, x) in names.iter_mut().zip(set) {
        *to = Name { sender: x.sender as u8, number: MessageNumber(x.number as u8) };
    }
}

/// The pair of these numbers, which may be any.
pub fn numbered(Pair { receiver, owner }: Pair) -> reference::Pair {
    reference::Pair { receiver, owner }
}

/// The dispatcher call: question 4 first. Where no handover is carried out, every byte of the table stays.
pub fn dispatch(t: &mut Table, named: Pair, scratch: &mut [u8], dispatched: &mut DispatchAnswer) {
    *dispatched = DispatchAnswer::BLANK;
    if !well_formed(t) {
        dispatched.answer.refusal = RefusalNumber(4);
        return;
    }
    let mut state = to_state(t);
    let named = numbered(named);
    let reference::Dispatched { pair, answer: handover } = state.dispatch(named, scratch);
    dispatched.answer.refusal = RefusalNumber(handover.refusal);
    if pair != reference::Pair::default() {
        store(&state, t);
        dispatched.pair = Pair { receiver: pair.receiver, owner: pair.owner };
        tell(&handover, &mut dispatched.answer);
    }
}

/// An ask: question 4 first. The table stays as it is.
pub fn ask(t: &mut Table, pair: Pair, scratch: &mut [u8], shown: &mut AskAnswer) {
    *shown = AskAnswer::BLANK;
    let asked = if well_formed(t) { to_state(t).ask(numbered(pair), scratch) } else { Err(4) };
    match asked {
        Ok(Preview { set, acts }) => {
            (shown.acts, shown.size) = (acts, set.len());
            put_names(&set, &mut shown.names);
        }
        Err(refusal) => shown.refusal = RefusalNumber(refusal),
    }
}

/// A commit: question 4 first. A refused one leaves every byte of the table.
pub fn commit(t: &mut Table, pair: Pair, acts: usize, scratch: &mut [u8], answer: &mut Answer) {
    *answer = Answer::BLANK;
    if !well_formed(t) {
        answer.refusal = RefusalNumber(4);
        return;
    }
    let mut state = to_state(t);
    match state.commit(numbered(pair), acts, scratch) {
        Ok(taken) => {
            store(&state, t);
            tell(&taken, answer);
        }
        Err(refusal) => answer.refusal = RefusalNumber(refusal),
    }
}

pub fn look(t: &Table, c: usize) -> LookAnswer {
    let shown = if well_formed(t) { to_state(t).look(c) } else { Err(4) };
    match shown {
        Ok(Shown { sums, classes, registers }) => {
            let (classes, registers) = (classes.map(sums_of), registers.map(register_of));
            LookAnswer { refusal: RefusalNumber::ACCEPTED, panel: Panel { sums: sums_of(sums), classes, registers } }
        }
        Err(refusal) => LookAnswer { refusal: RefusalNumber(refusal), panel: Panel::BLANK },
    }
}

/// The name that a call gives a message: any two bytes.
fn called(name: Name) -> reference::Name {
    reference::Name { sender: name.sender as usize, number: name.number.0 as usize }
}

/// Counts of "goes before" on one table, each a call of its own. Question 4 comes first, and its answer is the same for
/// all.
pub fn counts_before(t: &mut Table, asked: &[Asked]) -> Vec<CountAnswer> {
    let state = well_formed(t).then(|| to_state(t));
    let count = |x: &Asked| match &state {
        Some(state) => state.count_before(x.controller, &called(x.first), &called(x.second)),
        None => Err(4),
    };
    let answer = |x: &Asked| match count(x) {
        Ok(count) => CountAnswer { refusal: RefusalNumber::ACCEPTED, count },
        Err(refusal) => CountAnswer { refusal: RefusalNumber(refusal), count: 0 },
    };
    asked.iter().map(answer).collect()
}

pub fn fresh(version: usize, n: usize) -> FreshAnswer {
    match reference::questions_2_and_3(version, n) {
        Ok(()) => FreshAnswer { refusal: RefusalNumber::ACCEPTED, table: to_table(&State::fresh(version, n)) },
        Err(refusal) => FreshAnswer { refusal: RefusalNumber(refusal), table: Table::BLANK },
    }
}

pub fn run(bytes: &[u8], listing: &mut [u8], scratch: &mut [u8]) -> RunAnswer {
    let run = reference::run_file(bytes, listing, scratch);
    let table = run.state.as_ref().map_or(Table::BLANK, to_table);
    RunAnswer { refusal: RefusalNumber(run.refusal), events: run.events, written: run.written, table }
}
