//! The tables, records and files that are timed: fresh ones, full ones, and the worst of each sort. Where it is easy to
//! get wrong, a table is tried with the reference first.

use crate::cases::records::{file_of, handover, local_read, report, stop, sync, write};
use crate::edges::long_runs::dense_run;
use crate::engines::{Engine, Reference};
use crate::generate::files::legal_file;
use crate::generate::random::Random;
use crate::generate::runs::{drain, follow, follow_dispatch, legal_run, Policy};
use crate::generate::tables::chain_place;
use crate::reference::{run_file, to_table, State, LISTING, MAX_MESSAGES, SCRATCH};
use furnacejade::{
    Answer, AskAnswer, DispatchAnswer, ForwardNumber, Message, MessageNumber, Name, Pair, Payload, Table,
};

/// The last two messages of a table, or names of none.
pub fn last_two(table: &Table) -> [Name; 2] {
    let slot = |s: usize| Name { sender: table.messages[s].sender, number: table.messages[s].number };
    match table.count.min(MAX_MESSAGES) {
        0 | 1 => [Name::BLANK; 2],
        count => [slot(count - 1), slot(count - 2)],
    }
}

/// A table whose controllers have `held` messages pending, each with a majority of marks, and have applied one more.
/// Controller 2's log begins with that one, so that handing it over only passes it and tries to apply. Either all are
/// applied then; or, in a chain, none: the first lacks a mark, and each forces out the next one alone.
pub fn pending_table(n: usize, held: usize, chain: bool) -> Table {
    let mut t = to_table(&State::fresh(1, n));
    t.count = held + 1;
    for slot in 0..=held {
        let (sender, number) = if slot == held { (2, held + 1) } else { (1 + slot % n, slot / n + 1) };
        let payload = Payload { kind: 1, added: 1, ..Payload::BLANK };
        t.messages[slot] = Message { sender: sender as u8, number: MessageNumber(number as u8), date: 0, payload };
    }
    for c in &mut t.controllers[..n] {
        c.length = held + 1;
        (0..=held).for_each(|place| c.log[place] = ((held + place) % (held + 1)) as u8);
        c.applied[held] = 1;
        c.highest[1] = MessageNumber(held as u8 + 1);
        for slot in 0..held {
            c.pending[slot].held = 1;
            for f in 0..n / 2 + 1 {
                let place = if chain { chain_place(f, slot, held) } else { slot + 1 };
                let absent = chain && (slot, f) == (0, 1);
                c.pending[slot].marks[f] = if absent { ForwardNumber::ABSENT } else { ForwardNumber(place as u8) };
            }
        }
    }
    let (mut answer, mut after) = (Answer::BLANK, t.clone());
    Reference.event(&mut after, &handover(1, 2), &mut [0; SCRATCH], &mut answer);
    assert_eq!((answer.refusal.0, answer.size), (0, if chain { 0 } else { held }), "the table is as described");
    t
}

pub fn run_table(n: usize) -> (Table, Vec<u8>) {
    let (mut state, mut random) = (State::fresh(1, n), Random(3));
    let run = legal_run(&mut random, &mut state, &Policy::even(6), 200);
    (to_table(&state), file_of(1, n, &run))
}

/// The table that a file leaves.
pub fn last_table(file: &[u8]) -> Table {
    to_table(&run_file(file, &mut vec![0; LISTING], &mut [0; SCRATCH]).state.expect("a run"))
}

/// A file of a version and of seven controllers with 64 messages and every handover; with a stop of each at its end,
/// and without.
pub fn dense_files(version: usize) -> (Vec<u8>, Vec<u8>) {
    let dense = dense_run(version);
    let stops = 7 * stop(1, 64).len();
    (dense.clone(), dense[..dense.len() - stops].to_vec())
}

pub fn random_files(version: usize, policy: fn(&mut Random) -> Policy) -> Vec<Vec<u8>> {
    let mut random = Random(100);
    (0..100).map(|_| legal_file(&mut random, version, 300, policy).0).collect()
}

/// The last handover of a file to a receiver that has 64 messages pending, after which a given number of them are
/// applied, and the table before it.
pub fn of_sixty_four(file: &[u8], applied: usize) -> (Table, Vec<u8>) {
    let (mut state, mut rest, mut last) = (State::fresh(file[0] as usize, file[1] as usize), &file[2..], None);
    while !rest.is_empty() {
        let before = state.clone();
        let (answer, left) = state.event(rest, &mut [0; SCRATCH]);
        let record = &rest[..rest.len() - left.len()];
        let pending = before.controllers[record[2] as usize - 1].pending.len();
        if record[1] == 3 && (pending, answer.set.len()) == (MAX_MESSAGES, applied) {
            last = Some((to_table(&before), record.to_vec()));
        }
        rest = left;
    }
    last.expect("a handover that applies that many")
}

/// The last handover to controller 1 of seven that finishes its sync, the 64th message, and the table before it.
pub fn finishing_sync() -> (Table, Vec<u8>) {
    let mut state = State::fresh(1, 7);
    for i in 1..MAX_MESSAGES {
        follow(&mut state, &report(1, if i % 2 == 0 { 5 } else { -2 }), SCRATCH);
    }
    drain(&mut Random(4), &mut state);
    follow(&mut state, &sync(1), SCRATCH);
    for record in [handover(2, 1), handover(3, 1), handover(4, 1), handover(1, 2), handover(1, 3)] {
        follow(&mut state, &record, SCRATCH);
    }
    let table = to_table(&state);
    let (answer, _) = state.event(&handover(1, 4), &mut [0; SCRATCH]);
    assert!(answer.finished, "the handover finishes the sync");
    (table, handover(1, 4))
}

/// As many local reads as a file can have.
pub fn file_of_reads(n: usize) -> Vec<u8> {
    file_of(1, n, &vec![local_read(1); 21_844])
}

/// The state of seven controllers after a given number of messages of controller 1, syncs and writes of each register
/// in turn, each applied everywhere; and the records.
pub fn with_writes(messages: usize) -> (State, Vec<Vec<u8>>) {
    let (mut state, mut random, mut records) = (State::fresh(1, 7), Random(4), vec![]);
    for i in 0..messages {
        let record = if i % 2 == 0 { sync(1) } else { write(1, 1 + i / 2 % 8, 1500) };
        assert_eq!(follow(&mut state, &record, SCRATCH), 0);
        records.push(record);
        records.extend(drain(&mut random, &mut state));
    }
    (state, records)
}

/// The handover to controller 1 by which it applies its 32nd write, the 64th message, and the table before it.
pub fn applying_write() -> (Table, Vec<u8>) {
    let (mut state, _) = with_writes(MAX_MESSAGES - 1);
    let records = [handover(2, 1), handover(3, 1), handover(4, 1), handover(1, 2), handover(1, 3)];
    for record in [vec![write(1, 8, 1500)], records.to_vec()].concat() {
        follow(&mut state, &record, SCRATCH);
    }
    let table = to_table(&state);
    let (answer, _) = state.event(&handover(1, 4), &mut [0; SCRATCH]);
    assert_eq!(answer.set.len(), 1, "the handover applies the write");
    (table, handover(1, 4))
}

/// A table that was read to its end, with one entry of one log unread again, which is applied already: handing it over
/// only passes it. No run reaches it. And the pair that waits.
pub fn waiting_table(read: &Table) -> (Table, Pair) {
    let (mut t, pair) = (read.clone(), Pair { receiver: 4, owner: 4 });
    t.controllers[3].read[3] -= 1;
    let (mut after, mut answer) = (t.clone(), DispatchAnswer::BLANK);
    Reference.dispatch(&mut after, pair, &mut [0; SCRATCH], &mut answer);
    assert_eq!((answer.pair, after), (pair, read.clone()), "the table is as described");
    (t, pair)
}

/// The act count of the receiver of a pair that waits.
pub fn act_count(table: &Table, pair: Pair) -> usize {
    let mut answer = AskAnswer::BLANK;
    Reference.ask(&mut table.clone(), pair, &mut [0; SCRATCH], &mut answer);
    assert_eq!(answer.refusal.0, 0, "the pair waits");
    answer.acts
}

/// Seven controllers, of which the first has sent 64 reports, and nothing is handed over; and the handovers by which
/// the dispatcher alone brings them everywhere, as records.
pub fn sixty_four_sent() -> (Table, Vec<Vec<u8>>) {
    let (mut state, mut last, mut records) = (State::fresh(1, 7), Pair { receiver: 7, owner: 7 }, vec![]);
    (0..MAX_MESSAGES).for_each(|_| assert_eq!(follow(&mut state, &report(1, 1), SCRATCH), 0));
    let table = to_table(&state);
    loop {
        let served = follow_dispatch(&mut state, last, SCRATCH);
        if served == Pair::BLANK {
            return (table, records);
        }
        records.push(handover(served.receiver, served.owner));
        last = served;
    }
}
