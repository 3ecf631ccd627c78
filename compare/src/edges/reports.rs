//! The edges of reports, syncs and stops: majorities, amounts, the greatest sums, reports that follow on pending ones,
//! and the lengths that a stop may keep.

use super::script::{expect, panel_of, sums, Both, Script};
use crate::cases::records::{file_of, handover, report, report_in, stop, sync};
use crate::engines::Engine;
use crate::reference::{LISTING, SCRATCH};

/// A report that is alone in panel 1's buffer is applied there with the marks of a majority, and not with one fewer.
fn majorities(engine: &dyn Engine) -> Result<(), String> {
    for (n, majority) in (1..).zip([1, 2, 2, 3, 3, 4, 4]) {
        let mut s = Script::fresh(engine, 1, n);
        s.refusal(report(1, 5));
        for marks in 1..=majority {
            if marks > 1 {
                s.refusal(handover(marks, 1));
            }
            let applied = if marks == majority { vec![(1, 1)] } else { vec![] };
            expect(s.event(handover(1, marks)) == (0, applied), &format!("n = {n}, {marks} marks"))?;
        }
    }
    Ok(())
}

/// 64 reports of one controller, of two amounts in turn, by events and as a file, up to the sums that they make.
fn sixty_four(engine: &dyn Engine, version: usize, amounts: [i16; 2], whole: Both) -> Result<(), String> {
    let (mut s, mut records) = (Script::fresh(engine, version, 1), vec![]);
    for message in 1..=64 {
        let report = report_in(version, 1, amounts[message as usize % 2]);
        records.extend([report.clone(), handover(1, 1)]);
        expect(s.refusal(report) == 0, "a report up to the 64th")?;
        expect(s.refusal(sync(1)) == 11, "a sync while a report is pending")?;
        expect(s.event(handover(1, 1)) == (0, vec![(1, message)]), "n = 1: report and handover")?;
    }
    expect(s.refusal(report_in(version, 1, 1)) == 12, "the 65th message")?;
    let shown = panel_of(if version == 2 { 2 } else { 0 }, whole);
    expect(engine.look(&s.table, 1).panel == shown, "the greatest sums")?;
    let mut listing = vec![7; LISTING];
    let run = engine.run(&file_of(version, 1, &records), &mut listing, &mut [7; SCRATCH]);
    let last = format!("\n128 1 {} {} 1.64\n", whole.0, whole.1);
    expect(listing[..run.written].ends_with(last.as_bytes()), "the line of the greatest sums")
}

fn sixty_four_messages(engine: &dyn Engine) -> Result<(), String> {
    for version in [1, 2] {
        sixty_four(engine, version, [360, 360], (23_040, 0))?;
        sixty_four(engine, version, [-360, -360], (0, 23_040))?;
        sixty_four(engine, version, [360, -360], (11_520, 11_520))?;
    }
    Ok(())
}

fn amounts(engine: &dyn Engine) -> Result<(), String> {
    for (amount, number) in [(360, 0), (-360, 0), (361, 9), (-361, 9), (0, 9)] {
        for version in [1, 2] {
            expect(Script::fresh(engine, version, 2).refusal(report_in(version, 1, amount)) == number, "amounts")?;
        }
    }
    Ok(())
}

/// A report may follow on any pending message of its sender, and a sync on none.
fn reports_under_way(engine: &dyn Engine) -> Result<(), String> {
    for version in [1, 2] {
        for first in [report_in(version, 1, 30), sync(1)] {
            let mut s = Script::fresh(engine, version, 3);
            expect(s.refusal(first) == 0, "a first message")?;
            expect(s.refusal(sync(1)) == 11, "a sync while the first is pending")?;
            expect(s.refusal(report_in(version, 1, 20)) == 0, "a second report while the first is pending")?;
            expect(s.refusal(sync(1)) == 11 && s.refusal(report_in(version, 2, 1)) == 0, "a sync, and another sender")?;
            let own = &s.table.controllers[0];
            let marks = [0, 1].map(|slot| own.pending[slot].marks[0].0);
            expect((own.length, marks) == (2, [1, 2]), "both are in the sender's log, each with its own mark")?;
        }
    }
    // A sync with a report after it, applied as one: the answer has both.
    let mut s = Script::fresh(engine, 1, 1);
    let sent = [report(1, 30), handover(1, 1), sync(1), report(1, -20)].map(|record| s.refusal(record));
    let answer = s.answer(&handover(1, 1), SCRATCH);
    let given = (answer.size, answer.finished, answer.sums);
    expect((sent, given) == ([0; 4], (2, 1, sums((30, 20)))), "a sync's answer is the sums after its whole set")
}

fn lengths_kept(engine: &dyn Engine) -> Result<(), String> {
    let play =
        [report(1, 1), report(2, 1), report(3, 1), handover(1, 2), handover(1, 3), handover(2, 1), handover(2, 1)];
    for (kept, number) in [(1, 14), (2, 0), (3, 0), (4, 14)] {
        let mut s = Script::fresh(engine, 1, 3);
        for record in play.clone() {
            s.refusal(record);
        }
        expect(s.refusal(stop(1, kept)) == number, "log length 3, highest read position 2")?;
    }
    Ok(())
}

pub fn check(engine: &dyn Engine) -> Result<(), String> {
    majorities(engine)?;
    sixty_four_messages(engine)?;
    amounts(engine)?;
    reports_under_way(engine)?;
    lengths_kept(engine)
}
