//! The edges of local reads: their questions in order, what they give, and files that are full of them, up to the
//! longest that a file can be.

use super::files::same_run;
use super::script::{expect, sums, Both, Script};
use crate::cases::records::{file_of, handover, local_read, report, report_in, stop, sync};
use crate::engines::Engine;
use crate::reference::{LISTING, SCRATCH};
use furnacejade::Answer;

/// Questions 6, 7, 8, 10, 18 and 15 of a local read, in this order, and what an accepted one gives.
fn local_reads(engine: &dyn Engine) -> Result<(), String> {
    for version in [1, 2] {
        let mut s = Script::fresh(engine, version, 2);
        let gives = |s: &mut Script, c: usize, both: Both| {
            let (before, answer) = (s.table.clone(), s.answer(&local_read(c), SCRATCH));
            answer == Answer { sums: sums(both), ..Answer::BLANK } && before == s.table
        };
        for (record, number) in [([2, 7, 1], 6), ([1, 5, 1], 7), ([0, 5, 1], 6), ([3, 5, 1], 5), ([2, 5, 0], 8)] {
            expect(s.refusal(record.to_vec()) == number, "a local read that 5 to 8 refuse")?;
        }
        expect(s.refusal(vec![3, 5, 1, 0]) == 7 && s.refusal(local_read(3)) == 8, "a local read that 7 and 8 refuse")?;
        expect(gives(&mut s, 1, (0, 0)) && gives(&mut s, 2, (0, 0)), "a local read of a fresh table")?;
        expect(s.answer(&local_read(1), SCRATCH - 1).refusal.0 == 15, "15 is put to a local read")?;
        expect(s.refusal(report_in(version, 1, -30)) == 0 && s.refusal(local_read(1)) == 18, "a pending report")?;
        expect(s.answer(&local_read(1), 0).refusal.0 == 18, "18 before 15")?;
        expect(s.refusal(sync(2)) == 0 && s.refusal(local_read(2)) == 18, "a pending sync")?;
        let mut stopped = Script { engine, table: s.table.clone() };
        expect(stopped.refusal(stop(1, 1)) == 0 && stopped.refusal(local_read(1)) == 10, "10 before 18")?;
        for (r, o) in [(2, 1), (1, 2), (1, 2), (1, 1), (1, 1)] {
            expect(s.refusal(handover(r, o)) == 0, "handovers before a local read")?;
        }
        // 1 has applied its report and 2's sync; 2 has both pending.
        expect(gives(&mut s, 1, (0, 30)) && s.refusal(local_read(2)) == 18, "a local read of what was applied")?;
        expect(s.refusal(stop(2, 2)) == 0 && s.refusal(local_read(2)) == 10, "a local read of a stopped controller")?;
    }
    let mut s = Script::fresh(engine, 1, 2);
    expect(s.refusal(report(1, 5)) == 0 && s.refusal(handover(2, 1)) == 0, "a report that another has pending")?;
    expect(s.refusal(local_read(2)) == 0, "messages of others may be pending at a local read")
}

/// As many events as a file can have, and one byte more; and events with numbers of four and five digits before a line.
fn many_local_reads(engine: &dyn Engine) -> Result<(), String> {
    let reads = |count: usize| vec![local_read(1); count];
    for (after, end) in [(&[][..], (21_844, 0)), (&[2], (21_844, 5)), (&[2, 5], (0, 1))] {
        let file = [file_of(1, 1, &reads(21_844)), after.to_vec()].concat();
        expect(same_run(engine, &file, LISTING, SCRATCH, "a file of local reads")? == end, "a file of local reads")?;
    }
    for count in [9_996, 9_997, 9_998, 9_999] {
        let lines = [report(1, 5), handover(1, 1), report(1, -7), handover(1, 1)];
        let file = file_of(1, 1, &[reads(count), lines.to_vec()].concat());
        let mut listing = vec![7; LISTING];
        let run = engine.run(&file, &mut listing, &mut [7; SCRATCH]);
        let expected = format!("{} 1 5 0 1.1\n{} 1 5 7 1.2\n", count + 2, count + 4);
        let found = (run.refusal.0, run.events, &listing[..run.written]);
        expect(found == (0, count + 4, expected.as_bytes()), "a line after many local reads")?;
    }
    Ok(())
}

pub fn check(engine: &dyn Engine) -> Result<(), String> {
    local_reads(engine)?;
    many_local_reads(engine)
}
