//! The edges of writes and registers: each question on both sides of its edge, values, dates and stamps, and what
//! question 4 asks of a write.

use super::script::{expect, Script};
use crate::cases::records::{handover, report, report_in, stop, sync, write};
use crate::engines::Engine;
use crate::reference::SCRATCH;
use furnacejade::{ClassNumber, Message, MessageNumber, Payload, Register, Stamp, Sums, Table, REGISTERS};

impl Script<'_> {
    /// Everything is handed over, a controller syncs, and everything is handed over again. Answers the refusal of its
    /// write, which comes next.
    fn write(&mut self, c: usize, register: usize, value: u32) -> u8 {
        self.hand_over_all();
        self.refusal(sync(c));
        self.hand_over_all();
        self.refusal(write(c, register, value))
    }

    fn registers(&self, c: usize) -> [Register; REGISTERS] {
        self.engine.look(&self.table, c).panel.registers
    }
}

fn register(value: u32, date: u16, writer: u16) -> Register {
    Register { value, stamp: Stamp { date, writer } }
}

/// Registers of which one alone was written.
fn one_written(number: usize, written: Register) -> [Register; REGISTERS] {
    std::array::from_fn(|i| if i + 1 == number { written } else { Register::BLANK })
}

/// Questions 5, 6, 7, 8, 19, 10, 11, 12, 20 and 15 of a write, in this order.
fn writes(engine: &dyn Engine) -> Result<(), String> {
    for version in [1, 2] {
        let mut s = Script::fresh(engine, version, 2);
        let whole = write(1, 1, 5);
        expect(s.refusal(whole[..7].to_vec()) == 5, "a write without its last byte")?;
        expect(s.refusal([&[7, 7], &whole[2..]].concat()) == 6, "kind 7")?;
        expect(s.refusal([&[6, 6], &whole[2..7]].concat()) == 7, "a write of length 6")?;
        expect(s.refusal([&[8, 6], &whole[2..], &[0]].concat()) == 7, "a write of length 8")?;
        expect(s.refusal(write(0, 9, 5)) == 8 && s.refusal(write(3, 0, 5)) == 8, "8 before 19")?;
        for number in 0..=255 {
            let right = if (1..=8).contains(&number) { 20 } else { 19 };
            expect(s.refusal(write(1, number, 5)) == right, "registers; 19 before 20")?;
        }
        expect(s.answer(&whole, 0).refusal.0 == 20, "20 before 15")?;
        expect(
            s.refusal(sync(1)) == 0 && s.refusal(whole.clone()) == 11,
            "a write while its sender's sync is pending",
        )?;
        expect(s.refusal(write(1, 9, 5)) == 19, "19 before 11")?;
        let mut stopped = Script { engine, table: s.table.clone() };
        expect(stopped.refusal(stop(1, 1)) == 0 && stopped.refusal(whole.clone()) == 10, "10 before 11")?;
        expect(stopped.refusal(write(1, 0, 5)) == 19, "19 before 10")?;
        s.hand_over_all();
        expect(s.answer(&whole, SCRATCH - 1).refusal.0 == 15, "15 is put to a write")?;
        expect(s.event(whole.clone()) == (0, vec![]), "a write after an applied sync")?;
        expect(s.refusal(whole.clone()) == 11 && s.refusal(sync(1)) == 11, "a write and a sync after a pending write")?;
        expect(s.refusal(report_in(version, 1, 5)) == 0, "a report after a pending write")?;
    }
    let mut s = Script::fresh(engine, 1, 2);
    for _ in 1..=64 {
        s.refusal(report(1, 1));
    }
    expect(s.refusal(write(1, 8, 5)) == 11 && s.refusal(write(2, 8, 5)) == 12, "11 before 12 before 20")
}

/// Question 20: a write follows on a sync of its sender's own, its latest message, that it has applied.
fn latest_messages(engine: &dyn Engine) -> Result<(), String> {
    let (own, sent) = (handover(1, 1), |record: Vec<u8>| vec![record, handover(1, 1)]);
    for (before, number) in [
        (vec![], 20),
        (sent(sync(1)), 0),
        (sent(report(1, 5)), 20),
        ([sent(report(1, 5)), sent(sync(1))].concat(), 0),
        ([sent(sync(1)), sent(report(1, 5))].concat(), 20),
        (vec![sync(1), report(1, 5), own.clone()], 20),
        ([sent(sync(1)), sent(write(1, 1, 5))].concat(), 20),
        ([sent(sync(1)), sent(write(1, 1, 5)), sent(sync(1))].concat(), 0),
    ] {
        let mut s = Script::fresh(engine, 1, 1);
        expect(before.iter().all(|record| s.refusal(record.clone()) == 0), "what a sender sends before a write")?;
        expect(s.refusal(write(1, 1, 6)) == number, "a write after what its sender sent")?;
    }
    let mut s = Script::fresh(engine, 1, 2);
    let set = [sync(2), handover(1, 2), own].map(|record| s.event(record).1).concat();
    expect(set == [(2, 1)] && s.refusal(write(1, 1, 5)) == 20, "a write after another's sync")
}

/// Every register has dates of its own; a write is shown where it was applied, and nowhere before.
fn values_and_dates(engine: &dyn Engine) -> Result<(), String> {
    let values = [0, 1, 255, 256, 65_536, 0x0102_0304, u32::MAX - 1, u32::MAX];
    let mut s = Script::fresh(engine, 1, 1);
    let mut shown = [Register::BLANK; REGISTERS];
    for round in 0..32 {
        let (number, value) = (1 + round % 8, values[(round + round / 8) % 8]);
        expect(s.write(1, number, value) == 0 && s.registers(1) == shown, "a pending write is not shown")?;
        shown[number - 1] = register(value, 1 + round as u16 / 8, 1);
        let answer = s.answer(&handover(1, 1), SCRATCH);
        expect((answer.size, answer.finished, answer.sums) == (1, 0, Sums::BLANK), "a write finishes no sync")?;
        expect(s.registers(1) == shown, "a write is shown when it was applied")?;
    }
    expect(s.write(1, 1, 5) == 12, "32 syncs and 32 writes")?;
    expect(engine.look(&s.table, 1).panel.sums == Sums::BLANK, "syncs and writes weigh nothing")?;
    let mut s = Script::fresh(engine, 2, 1);
    for date in 1..=32 {
        expect(s.write(1, 8, date as u32) == 0 && s.refusal(handover(1, 1)) == 0, "32 writes of one register")?;
        expect(s.registers(1) == one_written(8, register(date as u32, date, 1)), "the dates of one register")?;
    }
    Ok(())
}

/// Of two writers with one date the greater wins, whichever is heard first. Then the smaller writer wins with a later
/// date.
fn rival_writers(engine: &dyn Engine) -> Result<(), String> {
    for first in [1, 2] {
        let mut s = Script::fresh(engine, 1, 3);
        expect(s.refusal(sync(1)) == 0 && s.refusal(sync(2)) == 0, "two syncs")?;
        s.hand_over_all();
        for c in [first, 3 - first] {
            expect(s.refusal(write(c, 3, 100 * c as u32)) == 0, "two writers")?;
        }
        s.hand_over_all();
        let all = |s: &Script, right: Register| (1..=3).all(|c| s.registers(c) == one_written(3, right));
        expect(all(&s, register(200, 1, 2)), "two writers with one date")?;
        expect(s.write(1, 3, 0) == 0, "a later write")?;
        s.hand_over_all();
        expect(all(&s, register(0, 2, 1)), "a later date of the lesser writer")?;
    }
    Ok(())
}

/// Question 4 of writes: register, value, date, amounts and class; and what other messages have of these.
fn stored_writes(engine: &dyn Engine) -> Result<(), String> {
    for version in [1, 2] {
        let mut s = Script::fresh(engine, version, 2);
        for (c, number) in [(1, 1), (1, 2), (2, 1), (1, 1)] {
            expect(s.write(c, number, 5) == 0, "writes before the stored table")?;
        }
        s.hand_over_all();
        s.refusal(report_in(version, 2, 5));
        let number = |change: &dyn Fn(&mut Table)| {
            let mut t = s.table.clone();
            change(&mut t);
            engine.look(&t, 1).refusal.0
        };
        expect(number(&|_| ()) == 0, "a good table with writes")?;
        // Slots 1, 3, 5 and 7 are writes, 6 is a sync and 8 a report; slots 1 and 7 are of one sender and register.
        let as_said = |slot: usize, right: bool, change: &dyn Fn(&mut Message)| {
            number(&|t| change(&mut t.messages[slot])) == if right { 0 } else { 4 }
        };
        for x in (0..=300).chain([0x0102, u16::MAX]) {
            let date = |slot: usize, right: bool| as_said(slot, right, &|m| m.date = x);
            let reg = |slot: usize, right: bool| as_said(slot, right, &|m| m.payload.reg = x);
            let value = |slot: usize, right: bool| as_said(slot, right, &|m| m.payload.value = x as u32 * 65_537);
            expect(date(1, (1..=9).contains(&x) && x != 3) && date(3, (1..=9).contains(&x)), "the date of a write")?;
            expect(reg(7, (1..=8).contains(&x)) && reg(5, (1..=8).contains(&x)), "the register of a write")?;
            expect(reg(3, (2..=8).contains(&x)), "a register of which its sender has a write with that date")?;
            expect([1, 3, 5, 7].into_iter().all(|slot| value(slot, true)), "any value")?;
            let none = [6, 8].into_iter().all(|slot| date(slot, x == 0) && reg(slot, x == 0) && value(slot, x == 0));
            expect(none, "what only a write has")?;
            let amounts =
                as_said(1, x == 0, &|m| m.payload.added = x) && as_said(3, x == 0, &|m| m.payload.withdrawn = x);
            expect(amounts, "the amount of a write")?;
            expect(as_said(5, x as u8 == 0, &|m| m.payload.class = ClassNumber(x as u8)), "the class of a write")?;
        }
    }
    Ok(())
}

/// Question 4: a running sender has each write that it sent pending or applied. A stopped sender
/// need not, and neither needs to know its syncs.
fn lost_writes(engine: &dyn Engine) -> Result<(), String> {
    let mut s = Script::fresh(engine, 1, 2);
    let played = [sync(2), handover(1, 2), sync(1)].map(|record| s.refusal(record));
    expect(played == [0; 3], "a log with another's message first")?;
    for (payload, date, running, number) in [
        (Payload { kind: Payload::SYNC, ..Payload::BLANK }, 0, 1, 0),
        (Payload { kind: Payload::WRITE, reg: 1, ..Payload::BLANK }, 1, 1, 4),
        (Payload { kind: Payload::WRITE, reg: 1, ..Payload::BLANK }, 1, 0, 0),
    ] {
        let mut t = s.table.clone();
        t.messages[2] = Message { sender: 1, number: MessageNumber(1), date, payload };
        (t.count, t.controllers[0].running) = (3, running);
        expect(engine.look(&t, 1).refusal.0 == number, "a message that its sender does not know")?;
    }
    Ok(())
}

pub fn check(engine: &dyn Engine) -> Result<(), String> {
    writes(engine)?;
    latest_messages(engine)?;
    values_and_dates(engine)?;
    rival_writers(engine)?;
    stored_writes(engine)?;
    lost_writes(engine)
}
