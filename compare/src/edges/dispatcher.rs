//! The edges of the dispatcher: its round from every pair, its questions, what it passes over, the most handovers that
//! there are, the entry that is read by the last of n x n, and what the checker of lists says of all this. The run of
//! docs/RULES.md, section 30, stands with its answers in `cases/answers/lists.txt`.

use super::script::{expect, sums, Script};
use crate::cases::records::{handover, local_read, report, stop};
use crate::checks::demand3::{Figures, Ledger, Pair};
use crate::checks::dispatched::{Dispatched, MOST_HANDOVERS};
use crate::checks::side;
use crate::engines::Engine;
use crate::engines::{pair, unserved};
use crate::reference::{MAX_MESSAGES, SCRATCH};
use furnacejade::{DispatchAnswer, RefusalNumber, Table};

const NONE: Pair = (0, 0);

/// Lengths of scratch that are too short.
const SHORT: [usize; 4] = [0, 1, SCRATCH - 2, SCRATCH - 1];

impl Script<'_> {
    /// The pair that is served, if the call is accepted.
    fn served(&mut self, named: Pair, scratch: usize) -> Option<Pair> {
        let DispatchAnswer { pair, answer } = self.dispatch(named, scratch);
        (answer.refusal == RefusalNumber::ACCEPTED).then(|| side::numbers(pair))
    }

    /// A call of the dispatcher, as the checker of lists reads it. Answers the pair served.
    fn tell(&mut self, ledger: &mut Ledger, named: Pair) -> Pair {
        let DispatchAnswer { pair, answer } = self.dispatch(named, SCRATCH);
        let figures = Figures { finished: answer.finished, sums: side::sums(answer.sums) };
        ledger.dispatch(named, true, answer.refusal.0, side::numbers(pair), &side::set(&answer), figures);
        side::numbers(pair)
    }

    /// Whether a call answers only this number, and leaves table and scratch as they were.
    fn only(&mut self, named: Pair, scratch: usize, number: u8) -> bool {
        let (before, mut area, mut answer) = (self.table.clone(), vec![7; scratch], DispatchAnswer::BLANK);
        answer.pair = pair((77, 77));
        self.engine.dispatch(&mut self.table, pair(named), &mut area, &mut answer);
        let same = before.as_bytes() == self.table.as_bytes() && area.iter().all(|byte| *byte == 7);
        same && answer == unserved(RefusalNumber(number))
    }
}

fn pairs(n: usize) -> Vec<Pair> {
    (1..=n).flat_map(|r| (1..=n).map(move |o| (r, o))).collect()
}

/// The pair after a pair, as one counts: the next owner, or the first owner of the next receiver.
fn after(n: usize, (r, o): Pair) -> Pair {
    match (r, o) {
        (r, o) if o < n => (r, o + 1),
        (r, _) if r < n => (r + 1, 1),
        _ => (1, 1),
    }
}

/// A table on which every pair waits: each controller has sent a report, and nobody has read anything.
fn all_wait(engine: &dyn Engine, n: usize) -> Result<(Script<'_>, Ledger), String> {
    let (mut s, mut ledger) = (Script::fresh(engine, 1, n), Ledger::new(1, n));
    for c in 1..=n {
        expect(s.refusal(report(c, 5)) == 0, "a report of each")?;
        ledger.event(&report(c, 5), 0, &[], None);
    }
    Ok((s, ledger))
}

/// Where all wait, the pair after the one named is served. The entry of the one named itself is read by the last of
/// n x n handovers, and by none before; the checker of lists finds it so.
fn rounds(engine: &dyn Engine) -> Result<(), String> {
    for n in 1..=7 {
        for first in pairs(n) {
            let (mut s, mut ledger) = all_wait(engine, n)?;
            let mut last = first;
            for made in 1..=n * n {
                let unread = s.table.controllers[first.0 - 1].read[first.1 - 1] == 0;
                expect(unread, &format!("n = {n}: {first:?} waits before handover {made}"))?;
                let served = s.tell(&mut ledger, last);
                expect(served == after(n, last), &format!("n = {n}: {served:?} is served after {last:?}"))?;
                last = served;
            }
            let read = s.table.controllers[first.0 - 1].read[first.1 - 1] == 1;
            expect(last == first && read, &format!("n = {n}: {first:?} is served last"))?;
            let tally = &ledger.dispatched.tally;
            expect(ledger.broken().is_none(), "a round keeps what is promised of lists")?;
            expect((tally.rounds, tally.last_moment) == (1, 1), "a round is seen by the checker of lists")?;
        }
    }
    Ok(())
}

/// Where one pair alone waits, it is served, whichever is named; and then none is.
fn one_waits(engine: &dyn Engine) -> Result<(), String> {
    for n in [1, 2, 3, 7] {
        let (mut s, _) = all_wait(engine, n)?;
        s.hand_over_all();
        for (r, o) in pairs(n) {
            let mut one = s.copy();
            one.table.controllers[r - 1].read[o - 1] -= 1;
            for named in pairs(n) {
                let edge = format!("n = {n}: {r} alone has an entry of {o} unread, and {named:?} is named");
                expect(SHORT.iter().all(|length| one.only(named, *length, 15)), &edge)?;
                let mut served = one.copy();
                expect(served.served(named, SCRATCH) == Some((r, o)) && served.only(named, 0, 0), &edge)?;
                expect(served.table.as_bytes() == s.table.as_bytes(), &edge)?;
            }
        }
    }
    Ok(())
}

/// Questions 4, 8 of both numbers, "none" and 15, in this order.
fn questions(engine: &dyn Engine) -> Result<(), String> {
    let lengths: Vec<usize> = SHORT.into_iter().chain([SCRATCH, SCRATCH + 1]).collect();
    for n in 1..=7 {
        let far = [0, n + 1, 8, 255, 256, 257, (1 << 32) + 1, (1 << 63) + 1, usize::MAX];
        let off = far.into_iter().flat_map(|c| [(c, 1), (1, c), (c, n), (n, c), (c, c)]);
        let off: Vec<Pair> = off.filter(|(r, o)| !(1..=n).contains(r) || !(1..=n).contains(o)).collect();
        let (mut waits, _) = all_wait(engine, n)?;
        let mut nothing = Script::fresh(engine, 1, n);
        let mut broken = Script { engine, table: Table { count: 65, ..waits.table.clone() } };
        let mut stopped = waits.copy();
        (1..=n).for_each(|c| stopped.table.controllers[c - 1].running = 0);
        for length in lengths.iter().copied() {
            for named in off.iter().copied() {
                expect(waits.only(named, length, 8), "8 of a number that is no controller's")?;
                expect(nothing.only(named, length, 8), "8 where nothing waits")?;
                expect(stopped.only(named, length, 8), "8 where nobody runs")?;
                expect(broken.only(named, length, 4), "4 before 8")?;
            }
            for named in pairs(n) {
                expect(nothing.only(named, length, 0), "none on a fresh table, whatever scratch there is")?;
                expect(stopped.only(named, length, 0), "none where nobody runs")?;
                expect(broken.only(named, length, 4), "4 before none and 15")?;
                expect(length >= SCRATCH || waits.only(named, length, 15), "15 where something waits")?;
            }
        }
    }
    let mut blank = Script { engine, table: Table::BLANK };
    expect(blank.only((0, 0), 0, 4) && blank.only((1, 1), SCRATCH, 4), "the dispatcher on the zero table")
}

/// Receivers that have stopped are passed over, and logs of owners that have stopped are not: for every set of stopped
/// controllers, the pairs served in a round are those of the receivers that run.
fn stops(engine: &dyn Engine) -> Result<(), String> {
    for (n, gone) in (1..=4).flat_map(|n| (0..1usize << n).map(move |gone| (n, gone))) {
        let runs = |c: usize| gone >> (c - 1) & 1 == 0;
        let (mut s, mut ledger) = all_wait(engine, n)?;
        for c in (1..=n).filter(|c| !runs(*c)) {
            expect(s.refusal(stop(c, 1)) == 0, "a stop that keeps all")?;
            ledger.event(&stop(c, 1), 0, &[], None);
        }
        let right: Vec<Pair> = pairs(n).into_iter().filter(|(r, _)| runs(*r)).collect();
        let mut last = (n, n);
        for pair in right {
            last = s.tell(&mut ledger, last);
            expect(last == pair, &format!("n = {n}, {gone:b} stopped: {pair:?} is served, not {last:?}"))?;
        }
        drive(&mut s, &mut ledger, last)?;
        let most = (1..=n).filter(|c| runs(*c)).count();
        expect(ledger.ended().len() == if 2 * most > n { most } else { 0 }, "stops: the ending at none")?;
    }
    Ok(())
}

/// The dispatcher alone, on from the pair that it served last, until it says "none". Answers its handovers.
fn drive(s: &mut Script, ledger: &mut Ledger, from: Pair) -> Result<usize, String> {
    let (mut last, mut made) = (from, 0);
    loop {
        let served = s.tell(ledger, last);
        expect(ledger.broken().is_none(), &format!("driven to none: {:?}", ledger.broken()))?;
        if served == NONE {
            return Ok(made);
        }
        (last, made) = (served, made + 1);
        expect(made <= MOST_HANDOVERS, "driven to none: it ends")?;
    }
}

/// The most handovers that there are: 64 reports of one sender before any handover, and the dispatcher alone. All
/// panels then show all of them.
fn most(engine: &dyn Engine) -> Result<(), String> {
    for (n, handovers) in [(1, 64), (2, 256), (3, 576), (7, MOST_HANDOVERS)] {
        let (mut s, mut ledger) = (Script::fresh(engine, 1, n), Ledger::new(1, n));
        for _ in 0..MAX_MESSAGES {
            expect(s.refusal(report(n, 1)) == 0, "64 reports of one sender")?;
            ledger.event(&report(n, 1), 0, &[], None);
        }
        let made = drive(&mut s, &mut ledger, (n, n))?;
        expect(made == handovers, &format!("n = {n}: {made} handovers to none, not {handovers}"))?;
        let refused = pairs(n).into_iter().all(|(r, o)| s.refusal(handover(r, o)) == 13);
        expect(refused && ledger.ended().len() == n, "at none every handover is refused by 13")?;
        let shown = |c: usize| engine.look(&s.table, c).panel.sums == sums((64, 0));
        expect((1..=n).all(shown), "at none every panel shows all")?;
        let reads = (1..=n).all(|c| s.answer(&local_read(c), SCRATCH).sums == sums((64, 0)));
        expect(reads && s.only((n, n), 0, 0), "at none every local read gives all")?;
    }
    Ok(())
}

/// The checker of lists: one handover more than there can be; and for each n, an entry that is left by n x n handovers
/// in a chain, by one fewer, by a broken chain, and by one with a stop in it.
fn checker() -> Result<(), String> {
    let mut bounded = Dispatched::new(7);
    expect((0..MOST_HANDOVERS).all(|_| bounded.handover().is_ok()), "the checker: 3,136 handovers")?;
    expect(bounded.handover().is_err_and(|text| text.contains("3137")), "the checker: one handover more")?;
    for n in 2..=7 {
        // The first pair is served each time, and the last one waits.
        let told = |calls: usize, broken: Option<usize>, stopped: Option<usize>| {
            let (mut list, mut last) = (Dispatched::new(n), (n, n));
            (0..calls).find_map(|call| {
                if stopped == Some(call) {
                    list.stop();
                }
                list.before(if broken == Some(call) { (1, 2) } else { last }, vec![((n, n), 0)]);
                last = (1, 1);
                list.after(last, |pair| if pair == (n, n) { 0 } else { 99 }).err().map(|text| (call + 1, text))
            })
        };
        let at =
            |told: Option<(usize, String)>| told.filter(|(_, text)| text.starts_with("unfair")).map(|(call, _)| call);
        let round = n * n;
        expect(at(told(round, None, None)) == Some(round), "the checker: n x n handovers")?;
        expect(told(round - 1, None, None).is_none(), "the checker: one handover fewer")?;
        for place in 1..round {
            expect(told(round, Some(place), None).is_none(), "the checker: a broken chain")?;
            expect(
                at(told(2 * round, Some(place), None)) == Some(place + round),
                "the checker: a chain after another",
            )?;
            expect(told(round, None, Some(place)).is_none(), "the checker: a stop in a chain")?;
            expect(at(told(2 * round, None, Some(place))) == Some(place + round), "the checker: a chain after a stop")?;
        }
        expect(at(told(round, Some(0), None)) == Some(round), "the checker: the first may name any pair")?;
    }
    Ok(())
}

pub fn check(engine: &dyn Engine) -> Result<(), String> {
    checker()?;
    questions(engine)?;
    rounds(engine)?;
    one_waits(engine)?;
    stops(engine)?;
    most(engine)
}
