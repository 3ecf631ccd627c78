//! The edges of the count of "goes before": the runs of docs/RULES.md whose marks are printed, with the counts that
//! follow from them, and what the checker of lists says of these; the least and the greatest count; its questions; and
//! names of every sort.

use super::script::{expect, Script};
use super::whole_runs::{named, worked, WholeRun};
use crate::cases::records::{handover, report, rests, stop, sync};
use crate::cases::{name, Asked};
use crate::checks::demand3::{Figures, Ledger};
use crate::checks::side;
use crate::engines::Engine;
use crate::reference::SCRATCH;
use furnacejade::{CountAnswer, ForwardNumber, Table};

/// A message: sender, number.
type Sent = (usize, usize);

impl Script<'_> {
    /// The refusal and the count.
    fn before(&mut self, c: usize, first: Sent, second: Sent) -> (u8, usize) {
        let asked = Asked { controller: c, first: name(first.0, first.1), second: name(second.0, second.1) };
        let CountAnswer { refusal, count } = self.engine.counts_before(&mut self.table, &[asked])[0];
        (refusal.0, count)
    }

    /// Both ways round, if both are accepted.
    fn both(&mut self, c: usize, one: Sent, other: Sent) -> Option<[usize; 2]> {
        match (self.before(c, one, other), self.before(c, other, one)) {
            ((0, first), (0, second)) => Some([first, second]),
            _ => None,
        }
    }

    /// Rubbish wherever a count reads nothing: marks of what is not pending, and names of slots after the messages.
    fn fill_unused(&mut self) {
        let Table { count, messages, controllers, .. } = &mut self.table;
        for pending in controllers[..3].iter_mut().flat_map(|own| &mut own.pending).filter(|x| x.held == 0) {
            pending.marks = [1, 2, 0, 65, 1, 254, 3].map(ForwardNumber);
        }
        let names = [(1, 1), (1, 2), (1, 3), (3, 1), (0, 1), (1, 64), (2, 1)];
        for (message, (sender, number)) in messages[*count..].iter_mut().zip(names) {
            let name = name(sender, number);
            (message.sender, message.number) = (name.sender, name.number);
        }
    }

    /// The marks of the message in a slot, as a controller keeps them.
    fn mark(&mut self, c: usize, slot: usize, marks: [u8; 7]) {
        self.table.controllers[c - 1].pending[slot].marks = marks.map(ForwardNumber);
    }
}

const ABSENT: u8 = 255;

/// At the start of the worked run and after each of its events: how many put 1.1 before 3.1, and 3.1 before 1.1, at
/// controllers 1, 2 and 3. Section 19 has the marks before a set is applied; what is applied has none.
const WORKED: [[[usize; 2]; 3]; 12] = [
    [[0, 0], [0, 0], [0, 0]],
    [[1, 0], [0, 0], [0, 0]],
    [[1, 0], [0, 0], [0, 0]],
    [[1, 0], [1, 0], [0, 0]],
    [[0, 0], [1, 0], [0, 0]],
    [[0, 0], [1, 0], [0, 1]],
    [[0, 0], [1, 1], [0, 1]],
    [[0, 0], [0, 1], [0, 1]],
    [[0, 0], [0, 0], [0, 1]],
    [[0, 0], [0, 0], [1, 1]],
    [[0, 0], [0, 0], [1, 1]],
    [[0, 0], [0, 0], [0, 0]],
];

fn worked_run(engine: &dyn Engine) -> Result<(), String> {
    let WholeRun { file, .. } = worked();
    let (mut s, rests) = (Script::fresh(engine, 1, 3), rests(&file));
    expect(rests.len() + 1 == WORKED.len(), "counts in the worked run: all its events")?;
    for (event, counts) in WORKED.iter().enumerate() {
        if event > 0 {
            expect(s.refusal(rests[event - 1].to_vec()) == 0, "counts in the worked run: its events")?;
        }
        for (c, both) in (1..).zip(counts) {
            let edge = format!("counts in the worked run: at {c} after event {event}");
            expect(s.both(c, (1, 1), (3, 1)) == Some(*both), &edge)?;
        }
    }
    Ok(())
}

/// The run of section 8 applies all three at event 11 and nothing before; the counts after event 9, and after event 11.
fn forced_out(engine: &dyn Engine) -> Result<(), String> {
    let WholeRun { file, .. } = named("one message that is taken out forces another out");
    let (mut s, (one, two, three)) = (Script::fresh(engine, 1, 3), ((1, 1), (2, 1), (3, 1)));
    for (event, rest) in (1..).zip(rests(&file)) {
        expect(s.refusal(rest.to_vec()) == 0, "counts where one forces another out: its events")?;
        let right = match event {
            9 => [(two, three, [1, 1]), (one, three, [2, 1]), (one, two, [1, 2])],
            11 => [(two, three), (one, three), (one, two)].map(|(first, second)| (first, second, [0, 0])),
            _ => continue,
        };
        for (first, second, both) in right {
            expect(s.both(1, first, second) == Some(both), &format!("counts after event {event} of the three"))?;
        }
    }
    Ok(())
}

/// For each n, two messages: all, none or one of the controllers have a smaller mark for the first; equal marks and
/// absent ones; and marks above n, which do not count.
fn most_and_least(engine: &dyn Engine) -> Result<(), String> {
    for n in 1..=7 {
        let mut s = Script::fresh(engine, 1, n);
        expect(s.refusal(report(1, 5)) == 0 && s.refusal(report(1, 5)) == 0, "two reports under way")?;
        let both = |s: &mut Script, first: [u8; 7], second: [u8; 7]| {
            s.mark(1, 0, first);
            s.mark(1, 1, second);
            s.both(1, (1, 1), (1, 2))
        };
        expect(both(&mut s, [1; 7], [2; 7]) == Some([n, 0]), "all put the one first")?;
        expect(both(&mut s, [64; 7], [63; 7]) == Some([0, n]), "all put the other first")?;
        expect(both(&mut s, [64; 7], [ABSENT; 7]) == Some([n, 0]), "a number is less than absent")?;
        expect(both(&mut s, [ABSENT; 7], [1; 7]) == Some([0, n]), "absent is not less than a number")?;
        expect(both(&mut s, [7; 7], [7; 7]) == Some([0, 0]), "equal marks")?;
        expect(both(&mut s, [ABSENT; 7], [ABSENT; 7]) == Some([0, 0]), "absent is not less than absent")?;
        for f in 0..n {
            let one = |mark: u8, others: u8| std::array::from_fn(|g| if g == f { mark } else { others });
            expect(both(&mut s, one(1, 5), [5; 7]) == Some([1, 0]), "one puts the one first")?;
            expect(both(&mut s, one(9, 5), one(8, 6)) == Some([n - 1, 1]), "one puts the other first")?;
            expect(both(&mut s, one(3, ABSENT), [ABSENT; 7]) == Some([1, 0]), "one has a mark")?;
        }
        let above = |mark: u8, others: u8| std::array::from_fn(|f| if f < n { mark } else { others });
        for (low, high) in [(0, 254), (1, 2), (65, ABSENT)] {
            expect(both(&mut s, above(5, low), above(5, high)) == Some([0, 0]), "marks above n")?;
            expect(both(&mut s, above(5, high), above(6, low)) == Some([n, 0]), "marks above n beside others")?;
        }
    }
    Ok(())
}

/// Questions 4 and then 8, and no other: at both sides of their edges, with any names. What is refused counts 0.
fn questions(engine: &dyn Engine) -> Result<(), String> {
    for n in 1..=7 {
        let mut s = Script::fresh(engine, 1, n);
        expect(s.refusal(report(1, 5)) == 0, "a report")?;
        let far = [n + 1, 8, 255, 256, 257, (1 << 32) + 1, (1 << 63) + 1, usize::MAX];
        for (first, second) in [((1, 1), (0, 0)), ((1, 1), (n + 1, 1)), ((1, 1), (255, 255))] {
            for c in [0].into_iter().chain(far) {
                expect(s.before(c, first, second) == (8, 0), "8 of a controller that is none")?;
            }
            for c in 1..=n {
                expect(
                    s.before(c, first, second) == (0, (c == 1) as usize),
                    "a controller, and a sender that is none",
                )?;
            }
        }
        for change in [|t: &mut Table| t.version = 3, |t: &mut Table| t.count = 65, |t: &mut Table| t.n = 0] {
            let mut broken = Script { engine, table: s.table.clone() };
            change(&mut broken.table);
            for c in (0..=8).chain(far) {
                expect(broken.before(c, (1, 1), (0, 0)) == (4, 0), "4 before 8")?;
            }
        }
    }
    let mut blank = Script { engine, table: Table::BLANK };
    expect(blank.before(1, (0, 0), (0, 0)) == (4, 0), "a count in the zero table")
}

/// Names of messages that are pending, applied, cut off, unknown and never sent, and of none; where a controller has
/// stopped as well. What is pending counts its marks before all that is not, and everything else counts 0.
fn names(engine: &dyn Engine) -> Result<(), String> {
    let mut s = Script::fresh(engine, 1, 3);
    // 1.1 is applied at 1 and 2; then 1 sends 1.2 and 1.3, and its log is cut after 1.2.
    let first = [report(1, 5), handover(2, 1), handover(1, 2), handover(2, 2)];
    let then = [report(1, 5), report(1, 5), sync(3), handover(2, 1), stop(1, 2), handover(3, 1)];
    for record in first.into_iter().chain(then) {
        expect(s.refusal(record) == 0, "a run with messages of every sort")?;
    }
    let all =
        [(1, 1), (1, 2), (1, 3), (3, 1), (2, 1), (1, 4), (1, 64), (4, 1), (0, 1), (255, 1), (1, 0), (1, 65), (1, 255)];
    // The marks: 1.2 at 1 is 2 - - and 1.3 is 3 - -; 1.2 at 2 is 2 - -; at 3, 1.1 is 1 - - and 3.1 is - - 1.
    let pending: [&[Sent]; 3] = [&[(1, 2), (1, 3)], &[(1, 2)], &[(1, 1), (3, 1)]];
    for dirty in [false, true] {
        if dirty {
            s.fill_unused();
        }
        for (c, pending) in (1..).zip(pending) {
            for (first, second) in all.iter().flat_map(|first| all.iter().map(move |second| (*first, *second))) {
                let both = pending.contains(&first) && pending.contains(&second);
                let right = match both {
                    true if c == 1 => (first.1 < second.1) as usize,
                    true => (first != second) as usize,
                    false => pending.contains(&first) as usize,
                };
                let edge = format!("a count at {c} of {first:?} and {second:?}");
                expect(s.before(c, first, second) == (0, right), &edge)?;
            }
        }
    }
    Ok(())
}

/// Two messages in the last two slots of a full table, and one in the first.
fn last_slots(engine: &dyn Engine) -> Result<(), String> {
    let mut s = Script::fresh(engine, 1, 2);
    for _ in 1..=64 {
        expect(s.refusal(report(1, 1)) == 0, "64 reports under way")?;
    }
    for _ in 1..=64 {
        expect(s.refusal(handover(2, 1)) == 0, "64 reports are heard of")?;
    }
    for (c, (one, other)) in [1, 2].into_iter().flat_map(|c| [(63, 64), (1, 64), (1, 2)].map(|pair| (c, pair))) {
        expect(s.both(c, (1, one), (1, other)) == Some([1, 0]), "the first and the last of 64 messages")?;
    }
    expect(s.before(2, (1, 64), (1, 65)) == (0, 1) && s.before(2, (1, 65), (1, 64)) == (0, 0), "a message after them")
}

/// The list of the first events of the worked run, as the checker of lists reads it.
fn worked_list(engine: &dyn Engine, events: usize) -> Ledger {
    let WholeRun { file, .. } = worked();
    let (mut s, mut ledger) = (Script::fresh(engine, 1, 3), Ledger::new(1, 3));
    for rest in rests(&file).into_iter().take(events) {
        let answer = s.answer(rest, SCRATCH);
        let figures = Figures { finished: answer.finished, sums: side::sums(answer.sums) };
        ledger.event(rest, answer.refusal.0, &side::set(&answer), Some(figures));
    }
    ledger
}

/// The checker of lists works out the same counts from the logs; and it says so where a count is too great or too
/// small, where a controller is refused, and where a number that is no controller's is let through.
fn checker(engine: &dyn Engine) -> Result<(), String> {
    for (events, counts) in WORKED.iter().enumerate() {
        for (c, way) in (0..=4).flat_map(|c| [(c, 0), (c, 1)]) {
            let names = if way == 0 { [(1, 1), (3, 1)] } else { [(3, 1), (1, 1)] };
            let says = |number: u8, count: usize| {
                let mut ledger = worked_list(engine, events);
                ledger.count(c, names, number, count);
                ledger.broken().map(str::to_owned)
            };
            let edge = |what: &str| format!("the checker of a count at {c} after event {events}: {what}");
            let Some(both) = counts.get(c.wrapping_sub(1)) else {
                expect(says(8, 0).is_none(), &edge("it is refused"))?;
                let wrong = [(0, 0), (8, 1), (4, 0)].map(|(number, count)| says(number, count));
                let said = |text: &Option<String>| text.as_ref().is_some_and(|text| text.contains("answers"));
                expect(wrong.iter().all(said), &edge("it is not refused"))?;
                continue;
            };
            let right = both[way];
            expect(says(0, right).is_none(), &edge("it is right"))?;
            let wrong = [right + 1, right.wrapping_sub(1)].map(|count| says(0, count));
            let said = |text: &Option<String>| text.as_ref().is_some_and(|text| text.contains("before"));
            expect(wrong.iter().all(said), &edge("it is wrong"))?;
            let refused = says(8, 0).is_some_and(|text| text.ends_with("is refused"));
            expect(refused, &edge("it is refused"))?;
        }
    }
    Ok(())
}

/// Of four controllers, 1 has sent two messages, and 2 has two marks for the first; then 1 stops, and the second is cut
/// off.
fn cut_off(engine: &dyn Engine) -> Result<(), String> {
    let mut s = Script::fresh(engine, 1, 4);
    for record in [report(1, 5), report(1, 6), handover(2, 1), handover(2, 2), stop(1, 1)] {
        expect(s.refusal(record) == 0, "a run with a message that is cut off")?;
    }
    expect(s.both(1, (1, 1), (1, 2)) == Some([1, 0]), "two that are pending where it stopped")?;
    expect(s.before(2, (1, 1), (1, 1)) == (0, 0), "two marks before itself")?;
    for none in [(1, 2), (3, 1), (0, 1), (255, 1)] {
        expect(s.both(2, (1, 1), none) == Some([2, 0]), "two marks before none")?;
    }
    Ok(())
}

pub fn check(engine: &dyn Engine) -> Result<(), String> {
    worked_run(engine)?;
    cut_off(engine)?;
    checker(engine)?;
    forced_out(engine)?;
    most_and_least(engine)?;
    questions(engine)?;
    names(engine)?;
    last_slots(engine)
}
