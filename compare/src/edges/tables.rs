//! The edges of tables: fresh ones of every version and n, versions and n that are refused, and marks up to n and
//! above.

use super::script::{expect, Script};
use crate::cases::records::{file_of, report};
use crate::engines::Engine;
use furnacejade::{Controller, ForwardNumber, Table};

fn fresh_tables(engine: &dyn Engine) -> Result<(), String> {
    for (version, n) in [1, 2].into_iter().flat_map(|version| (1..=7).map(move |n| (version, n))) {
        let t = engine.fresh(version, n).table;
        let absent = |c: &Controller| c.pending.iter().all(|p| p.marks == [ForwardNumber::ABSENT; 7]);
        expect((t.version, t.n) == (version, n), "a fresh table is as it was asked for")?;
        expect(t.controllers[..n].iter().all(absent), "a fresh table has every mark absent")?;
        let run = engine.run(&file_of(version, n, &[]), &mut [], &mut []);
        expect(run.table == t, "a file run begins with a fresh table")?;
    }
    Ok(())
}

/// Questions 2 and 3, in this order, of requests and of files; what is refused has a table of zeros.
fn versions(engine: &dyn Engine) -> Result<(), String> {
    for version in [0, 1, 2, 3, 255, 256, 257, 258, (1 << 32) + 1, (1 << 63) + 2, usize::MAX] {
        for n in [0, 1, 7, 8] {
            let number = match (version, n) {
                (1 | 2, 1 | 7) => 0,
                (1 | 2, _) => 3,
                _ => 2,
            };
            let fresh = engine.fresh(version, n);
            let zero = fresh.table == Table::BLANK;
            expect((fresh.refusal.0, zero) == (number, number != 0), "versions of fresh tables")?;
            if let Ok(byte) = u8::try_from(version) {
                let run = engine.run(&[byte, n as u8], &mut [], &mut []);
                let same = run.refusal == fresh.refusal && run.table == fresh.table;
                expect(same, "versions of files")?;
            }
        }
    }
    Ok(())
}

/// A mark that is neither absent nor from 1 to 64 is refused at controller n, and not tested above.
fn marks_above_n(engine: &dyn Engine) -> Result<(), String> {
    for n in 1..=7 {
        let mut s = Script::fresh(engine, 1, n);
        s.refusal(report(1, 5));
        for (f, wrong) in (0..7).flat_map(|f| [0, 65, 254].map(|wrong| (f, wrong))) {
            let mut t = s.table.clone();
            t.controllers[0].pending[0].marks[f] = ForwardNumber(wrong);
            let number = if f < n { 4 } else { 0 };
            expect(engine.look(&t, 1).refusal.0 == number, "marks up to n and above")?;
        }
    }
    Ok(())
}

pub fn check(engine: &dyn Engine) -> Result<(), String> {
    fresh_tables(engine)?;
    versions(engine)?;
    marks_above_n(engine)
}
