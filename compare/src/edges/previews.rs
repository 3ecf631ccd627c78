//! The edges of ask and commit: both in place of each handover of the worked run, their questions in order, counts that are
//! not the receiver's, what both leave, and every pair of every moment of a run.

use super::script::{expect, sums, Script};
use crate::cases::records::{handover, local_read, report, stop, sync, write};
use crate::checks::previews::other_counts;
use crate::checks::side;
use crate::engines::{pair, Engine};
use crate::reference::{MAX_MESSAGES, SCRATCH};
use furnacejade::{Answer, AskAnswer, RefusalNumber, Table};

type Pair = (usize, usize);

/// Lengths of scratch that are too short.
const SHORT: [usize; 4] = [0, 1, SCRATCH - 2, SCRATCH - 1];

impl Script<'_> {
    /// Whether an ask answers only this number, and leaves table and scratch as they were.
    fn ask_is(&mut self, asked: Pair, scratch: usize, number: u8) -> bool {
        let (before, mut area, mut answer) = (self.table.clone(), vec![7; scratch], AskAnswer::BLANK);
        (answer.acts, answer.size) = (77, 7);
        self.engine.ask(&mut self.table, pair(asked), &mut area, &mut answer);
        let same = before.as_bytes() == self.table.as_bytes() && area.iter().all(|byte| *byte == 7);
        same && answer == AskAnswer { refusal: RefusalNumber(number), ..AskAnswer::BLANK }
    }

    /// Whether a commit answers only this number, and leaves table and scratch as they were.
    fn commit_is(&mut self, asked: Pair, acts: usize, scratch: usize, number: u8) -> bool {
        let (before, mut area, mut answer) = (self.table.clone(), vec![7; scratch], Answer::BLANK);
        (answer.finished, answer.size) = (7, 7);
        self.engine.commit(&mut self.table, pair(asked), acts, &mut area, &mut answer);
        let same = before.as_bytes() == self.table.as_bytes() && area.iter().all(|byte| *byte == 7);
        same && answer == Answer { refusal: RefusalNumber(number), ..Answer::BLANK }
    }

    /// Asks and then commits. Answers the count and the set, if they are accepted and the set is the one shown.
    fn take(&mut self, asked: Pair) -> Option<(usize, Vec<Pair>)> {
        let shown = self.ask(asked, SCRATCH);
        let taken = self.commit(asked, shown.acts, SCRATCH);
        let accepted = (shown.refusal, taken.refusal) == (RefusalNumber::ACCEPTED, RefusalNumber::ACCEPTED);
        (accepted && side::shown(&shown) == side::set(&taken)).then(|| (shown.acts, side::set(&taken)))
    }
}

/// The handovers of the worked run as asks and commits, each with its receiver's count and its set. A commit with a count
/// beside it is refused by 21, and a second one with the same count too.
fn worked(engine: &dyn Engine) -> Result<(), String> {
    let mut s = Script::fresh(engine, 1, 3);
    expect(s.refusal(report(1, 30)) == 0, "the worked run: its first report")?;
    let first: [(Pair, usize, &[Pair]); 3] = [((1, 1), 1, &[]), ((2, 1), 0, &[]), ((1, 2), 2, &[(1, 1)])];
    let then: [(Pair, usize, &[Pair]); 6] = [
        ((2, 3), 1, &[]),
        ((2, 2), 2, &[(1, 1)]),
        ((2, 2), 3, &[(3, 1)]),
        ((3, 2), 1, &[]),
        ((3, 2), 2, &[]),
        ((3, 1), 3, &[(1, 1), (3, 1)]),
    ];
    for (place, (asked, acts, set)) in first.into_iter().chain(then).enumerate() {
        if place == first.len() {
            expect(s.refusal(report(3, -2)) == 0, "the worked run: its second report")?;
        }
        let edge = format!("the worked run, an ask and a commit of {asked:?}");
        for count in other_counts(acts) {
            expect(s.commit_is(asked, count, SCRATCH, 21), &format!("{edge}: 21 with {count}"))?;
        }
        let mut record = s.copy();
        record.answer(&handover(asked.0, asked.1), SCRATCH);
        expect(s.take(asked) == Some((acts, set.to_vec())), &edge)?;
        expect(s.table.as_bytes() == record.table.as_bytes(), &format!("{edge}: the table of the record"))?;
        expect(s.commit_is(asked, acts, SCRATCH, 21), &format!("{edge}: a second one with its count"))?;
    }
    Ok(())
}

/// Questions 4, 8 of both numbers, 10, 21, 13 and 15, in this order, with counts and lengths of every sort.
fn questions(engine: &dyn Engine) -> Result<(), String> {
    let lengths = [0, 1, SCRATCH - 1, SCRATCH, SCRATCH + 1];
    for n in [1, 2, 3, 7] {
        let far = [0, n + 1, 8, 255, 256, 257, (1 << 32) + 1, (1 << 63) + 1, usize::MAX];
        let off = far.into_iter().flat_map(|c| [(c, 1), (1, c), (c, n), (n, c), (c, c)]);
        let off: Vec<Pair> = off.filter(|(r, o)| !(1..=n).contains(r) || !(1..=n).contains(o)).collect();
        let mut waits = Script::fresh(engine, 1, n);
        expect((1..=n).all(|c| waits.refusal(report(c, 5)) == 0), "a report of each")?;
        let mut nothing = Script::fresh(engine, 1, n);
        let mut broken = Script { engine, table: Table { count: MAX_MESSAGES + 1, ..waits.table.clone() } };
        let mut stopped = waits.copy();
        expect((1..=n).all(|c| stopped.refusal(stop(c, 1)) == 0), "a stop of each")?;
        for (asked, length) in off.into_iter().flat_map(|asked| [0, SCRATCH].map(|length| (asked, length))) {
            for acts in [0, 1, usize::MAX] {
                for (s, number) in [(&mut waits, 8), (&mut nothing, 8), (&mut stopped, 8), (&mut broken, 4)] {
                    let right = s.ask_is(asked, length, number) && s.commit_is(asked, acts, length, number);
                    expect(right, &format!("n = {n}: {number} of {asked:?}"))?;
                }
            }
        }
        let pairs = (1..=n).flat_map(|r| (1..=n).map(move |o| (r, o)));
        for (asked, length) in pairs.flat_map(|asked| lengths.iter().map(move |length| (asked, *length))) {
            for acts in [0, 1, 2, usize::MAX] {
                let edge = format!("n = {n}: {asked:?} with {acts} acts and {length} bytes");
                expect(broken.ask_is(asked, length, 4) && broken.commit_is(asked, acts, length, 4), &edge)?;
                expect(stopped.ask_is(asked, length, 10) && stopped.commit_is(asked, acts, length, 10), &edge)?;
                let number = if acts == 0 { 13 } else { 21 };
                expect(nothing.ask_is(asked, length, 13) && nothing.commit_is(asked, acts, length, number), &edge)?;
                expect(length >= SCRATCH || waits.ask_is(asked, length, 15), &edge)?;
                let number = if acts == 1 { 15 } else { 21 };
                expect((length >= SCRATCH && acts == 1) || waits.commit_is(asked, acts, length, number), &edge)?;
            }
        }
    }
    let mut blank = Script { engine, table: Table::BLANK };
    expect(blank.ask_is((0, 0), 0, 4) && blank.commit_is((0, 0), 0, 0, 4), "an ask of the zero table")
}

/// Stops in between: of the owner, which cuts the entry away (13) or keeps it, and of the receiver (10).
fn stops(engine: &dyn Engine) -> Result<(), String> {
    let mut s = Script::fresh(engine, 1, 3);
    expect([report(1, 5), report(1, 6)].into_iter().all(|record| s.refusal(record) == 0), "two reports")?;
    let shown = s.ask((2, 1), SCRATCH);
    expect((shown.refusal.0, shown.acts) == (0, 0), "an ask before a stop")?;
    let mut cut = s.copy();
    expect(cut.refusal(stop(1, 0)) == 0 && cut.ask_is((2, 1), SCRATCH, 13), "an ask of an entry that was cut away")?;
    expect(SHORT.into_iter().all(|length| cut.commit_is((2, 1), 0, length, 13)), "13 after a cut, before 15")?;
    expect(
        cut.commit_is((2, 1), 0, SCRATCH, 13) && cut.commit_is((2, 1), 1, 0, 21),
        "13 after a cut, and 21 before it",
    )?;
    let mut kept = s.copy();
    expect(kept.refusal(stop(1, 1)) == 0 && kept.take((2, 1)) == Some((0, vec![])), "the entry is kept")?;
    expect(kept.ask_is((2, 1), SCRATCH, 13) && kept.commit_is((2, 1), 1, SCRATCH, 13), "the next one is not")?;
    let mut gone = s.copy();
    expect(gone.refusal(stop(2, 0)) == 0 && gone.ask_is((2, 1), SCRATCH, 10), "the receiver has stopped")?;
    expect([0, 1, 2, usize::MAX].into_iter().all(|acts| gone.commit_is((2, 1), acts, 0, 10)), "10 before 21 and 15")
}

/// A commit that finishes a sync answers both sums; one that applies a report alone does not. A write is an act too.
fn finishes(engine: &dyn Engine) -> Result<(), String> {
    let mut s = Script::fresh(engine, 1, 1);
    expect([report(1, 30), report(1, -2)].into_iter().all(|record| s.refusal(record) == 0), "two reports")?;
    for (acts, size, finished, both) in [(2, 2, 0, (0, 0)), (3, 0, 0, (0, 0)), (5, 1, 1, (30, 2))] {
        expect(acts != 5 || s.refusal(sync(1)) == 0, "a sync after two reports")?;
        let answer = s.commit((1, 1), acts, SCRATCH);
        let found = (answer.refusal.0, answer.size, answer.finished, answer.sums);
        expect(found == (0, size, finished, sums(both)), &format!("a commit after {acts} acts"))?;
    }
    expect(s.refusal(write(1, 1, 5)) == 0 && s.take((1, 1)) == Some((7, vec![(1, 4)])), "a commit of a write")
}

/// The most acts that there are: all 64 messages, and seven logs of 64 entries that are read to the end but for one. Local
/// reads, looks and asks change nothing of it.
fn most(engine: &dyn Engine) -> Result<(), String> {
    let mut s = Script::fresh(engine, 1, 7);
    expect((0..MAX_MESSAGES).all(|_| s.refusal(report(1, 1)) == 0), "64 reports of one sender")?;
    s.hand_over_all();
    s.table.controllers[0].read[0] -= 1;
    let all = MAX_MESSAGES + 7 * MAX_MESSAGES - 1;
    expect(s.refusal(local_read(1)) == 0 && s.ask((1, 1), SCRATCH).acts == all, "the most acts before a handover")?;
    engine.look(&s.table, 1);
    for count in other_counts(all) {
        expect(s.commit_is((1, 1), count, SCRATCH, 21), "a count beside the greatest")?;
    }
    expect(s.take((1, 1)) == Some((all, vec![])), "the last act")
}

pub fn check(engine: &dyn Engine) -> Result<(), String> {
    worked(engine)?;
    questions(engine)?;
    stops(engine)?;
    finishes(engine)?;
    most(engine)
}
