//! The edges of scratch: every call with 0, 1, 63, 64, 65 and 4,096 bytes, which are dirty and stand between guards. What
//! is accepted leaves the first 64 zero, and every other byte as it was. What is refused leaves them all.

use super::long_runs::{in_a_circle, under_way_run};
use super::script::{expect, Script};
use super::whole_runs::worked;
use crate::cases::records::{classed_report, file_of, handover, local_read, report_in, rests, stop, sync, write};
use crate::checks::previews::acts_in;
use crate::checks::side::Lent;
use crate::engines::{pair, Engine};
use crate::generate::odd::MUCH;
use crate::reference::{LISTING, MAX_MESSAGES, SCRATCH};
use furnacejade::{Answer, AskAnswer, DispatchAnswer, Table};

/// Too little, the least, and more.
const LENGTHS: [usize; 6] = [0, 1, SCRATCH - 1, SCRATCH, SCRATCH + 1, MUCH];

/// What scratch holds before a call: odd bytes, the greatest, flags, and numbers of slots.
const DIRTS: [fn(usize) -> u8; 4] = [|i| (i.wrapping_mul(37) as u8) | 1, |_| 255, |_| 1, |i| (i % MAX_MESSAGES) as u8];

/// Every length with every dirt.
fn all_lent() -> impl Iterator<Item = (usize, fn(usize) -> u8)> {
    LENGTHS.into_iter().flat_map(|length| DIRTS.into_iter().map(move |dirt| (length, dirt)))
}

/// A call that is lent a table and scratch.
#[derive(Debug)]
enum Call {
    Event(Vec<u8>),
    Dispatch((usize, usize)),
    Ask((usize, usize)),
    Commit((usize, usize), usize),
}

/// What a call of the dispatcher gives that serves nothing: it is accepted, and asks for no scratch.
const NONE: u8 = 255;

impl Call {
    /// Makes the call. Answers its number.
    fn make(&self, engine: &dyn Engine, t: &mut Table, scratch: &mut [u8]) -> u8 {
        let (mut answer, mut shown, mut dispatched) = (Answer::BLANK, AskAnswer::BLANK, DispatchAnswer::BLANK);
        match self {
            Call::Event(bytes) => _ = engine.event(t, bytes, scratch, &mut answer),
            Call::Commit(asked, acts) => engine.commit(t, pair(*asked), *acts, scratch, &mut answer),
            Call::Ask(asked) => {
                engine.ask(t, pair(*asked), scratch, &mut shown);
                return shown.refusal.0;
            }
            Call::Dispatch(named) => {
                engine.dispatch(t, pair(*named), scratch, &mut dispatched);
                let none = dispatched.answer.refusal.0 == 0 && dispatched.pair.receiver == 0;
                return if none { NONE } else { dispatched.answer.refusal.0 };
            }
        }
        answer.refusal.0
    }

    /// With enough scratch the call gives this number, and with less too, unless it would be accepted.
    fn gives(&self, number: u8, engine: &dyn Engine, table: &Table) -> Result<(), String> {
        for (length, dirt) in all_lent() {
            let (mut t, mut scratch) = (table.clone(), Lent::with(length, dirt));
            let found = self.make(engine, &mut t, scratch.lent());
            let right = if number == 0 && length < SCRATCH { 15 } else { number };
            let edge = format!("{self:?} with {length} bytes of scratch");
            expect(found == right, &format!("{edge}: {found} and not {right}"))?;
            let cleared = if right == 0 { SCRATCH } else { 0 };
            expect(scratch.memory == Lent::with(length, dirt).cleared(cleared), &format!("{edge}: what it leaves"))?;
            let may_change = right == 0 && !matches!(self, Call::Ask(_));
            expect(may_change || t.as_bytes() == table.as_bytes(), &format!("{edge}: the table"))?;
        }
        Ok(())
    }
}

/// Two controllers. The first has applied a sync of its own, and may do anything; the second has a report pending, which
/// the first has not read.
fn busy(engine: &dyn Engine, version: usize) -> Result<Script<'_>, String> {
    let mut s = Script::fresh(engine, version, 2);
    let first = s.refusal(sync(1));
    s.hand_over_all();
    expect((first, s.refusal(report_in(version, 2, 5))) == (0, 0), "a sync, and another's report after it")?;
    Ok(s)
}

/// An event of each kind, and the calls that make a handover: one that applies nothing, and one that applies a set.
fn accepted(engine: &dyn Engine) -> Result<(), String> {
    for version in [1, 2] {
        let mut s = busy(engine, version)?;
        let records = [report_in(version, 1, 5), sync(1), write(1, 3, 7), handover(1, 2), stop(1, 1), local_read(1)];
        for record in records {
            Call::Event(record).gives(0, engine, &s.table)?;
        }
        for (asked, last, applied) in [((1, 2), (1, 1), vec![]), ((1, 1), (2, 2), vec![(2, 2)])] {
            for call in [Call::Dispatch(last), Call::Ask(asked), Call::Commit(asked, acts_in(&s.table, 1))] {
                call.gives(0, engine, &s.table)?;
            }
            let record = handover(asked.0, asked.1);
            Call::Event(record.clone()).gives(0, engine, &s.table)?;
            expect(s.event(record) == (0, applied), "scratch: the set of a handover")?;
        }
    }
    Ok(())
}

/// Events that each question refuses, with enough scratch and with too little: 15 comes last.
fn refused_events(engine: &dyn Engine) -> Result<(), String> {
    for version in [1, 2] {
        let s = busy(engine, version)?;
        let mut full = s.copy();
        while full.table.count < MAX_MESSAGES {
            expect(full.refusal(report_in(version, 2, 5)) == 0, "reports up to the 64th")?;
        }
        let mut stopped = s.copy();
        expect(stopped.refusal(stop(1, 1)) == 0, "a stop")?;
        let broken = Table { count: MAX_MESSAGES + 1, ..s.table.clone() };
        let (none, kinds) = (vec![], [report_in(version, 1, 5), sync(1), write(1, 3, 7), handover(1, 2), stop(1, 1)]);
        for record in kinds.into_iter().chain([local_read(1)]) {
            Call::Event(record.clone()).gives(10, engine, &stopped.table)?;
            Call::Event(record[..record.len() - 1].to_vec()).gives(5, engine, &s.table)?;
            Call::Event(record).gives(4, engine, &broken)?;
        }
        let records = [
            (none, 5),
            (vec![1, 7], 6),
            (vec![3, 2, 1, 0], 7),
            (handover(1, 3), 8),
            (report_in(version, 1, 361), 9),
            (write(1, 9, 7), 19),
            (sync(2), 11),
            (write(2, 3, 7), 11),
            (local_read(2), 18),
            (handover(2, 1), 13),
            (stop(2, 3), 14),
        ];
        for (record, number) in records {
            Call::Event(record).gives(number, engine, &s.table)?;
        }
        Call::Event(sync(1)).gives(12, engine, &full.table)?;
        let mut reported = Script::fresh(engine, version, 1);
        expect([report_in(version, 1, 5), handover(1, 1)].map(|x| reported.refusal(x)) == [0, 0], "an applied report")?;
        Call::Event(write(1, 3, 7)).gives(20, engine, &reported.table)?;
    }
    Call::Event(classed_report(1, 5, 5)).gives(17, engine, &busy(engine, 2)?.table)
}

/// The other calls where each of their questions refuses them; and "none", which asks for no scratch.
fn refused_calls(engine: &dyn Engine) -> Result<(), String> {
    let s = busy(engine, 1)?;
    let (mut read, mut stopped) = (s.copy(), s.copy());
    read.hand_over_all();
    expect(stopped.refusal(stop(1, 1)) == 0 && stopped.refusal(stop(2, 2)) == 0, "a stop of each")?;
    let (t, acts) = (&s.table, acts_in(&s.table, 1));
    let broken = Table { version: 3, ..s.table.clone() };
    let calls = [
        (Call::Dispatch((2, 2)), 4, &broken),
        (Call::Dispatch((0, 2)), 8, t),
        (Call::Dispatch((1, 3)), 8, t),
        (Call::Dispatch((2, 2)), NONE, &read.table),
        (Call::Dispatch((2, 2)), NONE, &stopped.table),
        (Call::Ask((1, 2)), 4, &broken),
        (Call::Ask((1, 3)), 8, t),
        (Call::Ask((1, 2)), 10, &stopped.table),
        (Call::Ask((1, 2)), 13, &read.table),
        (Call::Commit((1, 2), acts), 4, &broken),
        (Call::Commit((3, 2), acts), 8, t),
        (Call::Commit((1, 2), acts), 10, &stopped.table),
        (Call::Commit((1, 2), acts + 1), 21, t),
        (Call::Commit((1, 2), acts_in(&read.table, 1)), 13, &read.table),
    ];
    for (call, number, table) in calls {
        call.gives(number, engine, table)?;
    }
    Ok(())
}

/// A file run with this listing gives this number if it has enough scratch. It leaves scratch as its events do: as it was
/// if there are none.
fn run_gives(engine: &dyn Engine, file: &[u8], listing: usize, number: u8, events: usize) -> Result<(), String> {
    for (length, dirt) in all_lent() {
        let mut scratch = Lent::with(length, dirt);
        let run = engine.run(file, &mut vec![7; listing], scratch.lent());
        let right = if events > 0 && length < SCRATCH { (15, 0) } else { (number, events) };
        let edge = format!("a file that {number} refuses after {events} events, with {length} bytes of scratch");
        expect((run.refusal.0, run.events) == right, &format!("{edge}: {:?}", (run.refusal.0, run.events)))?;
        let cleared = if right.1 > 0 { SCRATCH } else { 0 };
        expect(scratch.memory == Lent::with(length, dirt).cleared(cleared), &format!("{edge}: what it leaves"))?;
    }
    Ok(())
}

fn files(engine: &dyn Engine) -> Result<(), String> {
    let whole = worked();
    run_gives(engine, &whole.file, LISTING, 0, 11)?;
    run_gives(engine, &whole.file, 0, 16, 3)?;
    for (file, number) in [(&whole.file[..1], 1), (&[3, 3], 2), (&[1, 8], 3), (&whole.file[..2], 0)] {
        run_gives(engine, file, LISTING, number, 0)?;
    }
    for version in [1, 2] {
        let file = |records: &[Vec<u8>]| file_of(version, 2, records);
        for first in [report_in(version, 1, 5), sync(1), stop(1, 0), local_read(1)] {
            run_gives(engine, &file(std::slice::from_ref(&first)), LISTING, 0, 1)?;
            for (refused, number) in [(vec![0], 6), (handover(3, 1), 8), (handover(2, 2), 13), (stop(2, 1), 14)] {
                run_gives(engine, &file(&[first.clone(), refused.clone()]), LISTING, number, 1)?;
                run_gives(engine, &file(&[refused, first.clone()]), LISTING, number, 0)?;
            }
        }
    }
    Ok(())
}

/// 64 messages of three senders that are all under way: each event with another length and another dirt applies the set
/// that it applies where scratch is zero.
fn dirty_sets(engine: &dyn Engine) -> Result<(), String> {
    let file = under_way_run(1, 3, 3, in_a_circle);
    let (mut dirty, mut clean) = (Script::fresh(engine, 1, 3), Script::fresh(engine, 1, 3));
    let enough = all_lent().filter(|(length, _)| *length >= SCRATCH).collect::<Vec<_>>();
    for (record, (length, dirt)) in rests(&file).into_iter().zip(enough.into_iter().cycle()) {
        let (mut scratch, mut found, mut right) = (Lent::with(length, dirt), Answer::BLANK, Answer::BLANK);
        engine.event(&mut dirty.table, record, scratch.lent(), &mut found);
        engine.event(&mut clean.table, record, &mut [0; SCRATCH], &mut right);
        let left = scratch.memory == Lent::with(length, dirt).cleared(SCRATCH);
        expect(found == right && left, "an event on dirty scratch: its answer, and what it leaves")?;
        expect(dirty.table.as_bytes() == clean.table.as_bytes(), "an event on dirty scratch: its table")?;
    }
    Ok(())
}

pub fn check(engine: &dyn Engine) -> Result<(), String> {
    accepted(engine)?;
    refused_events(engine)?;
    refused_calls(engine)?;
    files(engine)?;
    dirty_sets(engine)
}
