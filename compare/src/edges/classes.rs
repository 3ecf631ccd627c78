//! The edges of classes: question 17, the sums of each class, how long a report is in each version, and what question 4
//! asks of classes.

use super::script::{expect, panel, panel_of, Script};
use crate::cases::records::{classed_report, file_of, handover, report, report_in, stop, sync};
use crate::engines::Engine;
use crate::reference::SCRATCH;
use furnacejade::{ClassNumber, Payload, Table};

/// Question 17: its edges, and its place after 9 and before 10 and 12.
fn classes(engine: &dyn Engine) -> Result<(), String> {
    for class in 0..=255 {
        let fair = (1..=4).contains(&class);
        let of = |c: usize, amount: i16| classed_report(c, amount, class);
        let mut s = Script::fresh(engine, 2, 2);
        expect(s.refusal(of(3, 0)) == 8, "8 before 9 and 17")?;
        expect(s.refusal(of(1, 0)) == 9 && s.refusal(of(1, 361)) == 9, "9 before 17")?;
        expect(s.refusal(stop(2, 0)) == 0, "a stop")?;
        expect(s.refusal(of(2, 5)) == if fair { 10 } else { 17 }, "17 before 10")?;
        expect(s.refusal(of(1, 5)) == if fair { 0 } else { 17 }, "classes")?;
        expect(s.refusal(sync(1)) == if fair { 11 } else { 0 }, "a report that 17 refuses is not sent")?;
        expect(s.refusal(of(1, 5)) == if fair { 0 } else { 17 }, "17 of a second report")?;
    }
    let mut s = Script::fresh(engine, 2, 1);
    for _ in 1..=64 {
        s.refusal(report_in(2, 1, 1));
        s.refusal(handover(1, 1));
    }
    expect(s.refusal(classed_report(1, 1, 5)) == 17 && s.refusal(classed_report(1, 1, 4)) == 12, "17 before 12")
}

/// A class counts what was reported of it. In version 1 no byte is a class, not even the byte after a report.
fn class_sums(engine: &dyn Engine) -> Result<(), String> {
    let mut s = Script::fresh(engine, 2, 1);
    for (amount, class) in [(30, 2), (5, 2), (-9, 2), (-7, 4)] {
        let accepted = s.refusal(classed_report(1, amount, class)) == 0 && s.refusal(handover(1, 1)) == 0;
        expect(accepted, "reports of two classes")?;
    }
    let shown = panel((35, 16), [(0, 0), (0, 0), (35, 9), (0, 0), (0, 7)]);
    expect(engine.look(&s.table, 1).panel == shown, "a look at two classes")?;
    for after in 0..=255 {
        let mut s = Script::fresh(engine, 1, 1);
        let accepted = s.refusal([report(1, 5), vec![after]].concat()) == 0 && s.refusal(handover(1, 1)) == 0;
        let shown = panel_of(0, (5, 0));
        expect(accepted && engine.look(&s.table, 1).panel == shown, "any byte after a report of version 1")?;
    }
    Ok(())
}

/// The version of a table, and byte 0 of a file, say how long a report is, and nothing else does.
fn lengths_of_reports(engine: &dyn Engine) -> Result<(), String> {
    let (plain, classed) = (report(1, 5), classed_report(1, 5, 1));
    for (version, right, wrong) in [(1, &plain, &classed), (2, &classed, &plain)] {
        let mut s = Script::fresh(engine, version, 2);
        expect(s.refusal(wrong.clone()) == 7, "a report of the other version")?;
        expect(s.refusal(right.clone()) == 0, "a report of the table's version")?;
        expect(s.refusal(handover(2, 1)) == 0 && s.refusal(sync(2)) == 0 && s.refusal(stop(2, 2)) == 0, "other kinds")?;
        for (record, number, events) in [(wrong, 7, 0), (right, 0, 1)] {
            let file = file_of(version, 2, std::slice::from_ref(record));
            let run = engine.run(&file, &mut [], &mut [7; SCRATCH]);
            expect((run.refusal.0, run.events) == (number, events), "reports in files")?;
            expect(run.table.version == version, "a run's last table has its file's version")?;
        }
    }
    Ok(())
}

/// Question 4 of the version and of classes: of a report, and of a sync.
fn stored_classes(engine: &dyn Engine) -> Result<(), String> {
    for version in [1, 2] {
        let mut s = Script::fresh(engine, version, 2);
        s.refusal(report_in(version, 1, 5));
        s.refusal(sync(2));
        let number = |change: &dyn Fn(&mut Table)| {
            let mut t = s.table.clone();
            change(&mut t);
            engine.look(&t, 1).refusal.0
        };
        expect(number(&|_| ()) == 0, "a good table")?;
        for other in [0, 3 - version, 3, version + 256, version + (1 << 32)] {
            expect(number(&|t| t.version = other) == 4, "a table of another version")?;
        }
        for class in 0..=255 {
            let fair = if version == 2 { (1..=4).contains(&class) } else { class == 0 };
            let of = |slot: usize| number(&|t| t.messages[slot].payload.class = ClassNumber(class));
            expect(of(0) == if fair { 0 } else { 4 }, "the class of a report")?;
            expect(of(1) == if class == 0 { 0 } else { 4 }, "the class of a sync")?;
        }
        let syncs = number(&|t| {
            t.version = 3 - version;
            t.messages[0].payload = Payload { kind: Payload::SYNC, ..Payload::BLANK };
        });
        expect(syncs == 0, "syncs are the same in both versions")?;
    }
    Ok(())
}

pub fn check(engine: &dyn Engine) -> Result<(), String> {
    classes(engine)?;
    class_sums(engine)?;
    lengths_of_reports(engine)?;
    stored_classes(engine)
}
