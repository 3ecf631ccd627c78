//! The calls of a case put to one engine, and its answers to the checker of demand 3. Wherever the ending speaks, looks
//! and local reads are added, and at the end of a list the dispatcher goes on alone.

use super::demand3::{Figures, Ledger};
use super::side::{numbers, register, set, shown, sums, Lent, Side};
use crate::cases::records::local_read;
use crate::cases::{Call, Case, Head};
use crate::engines::Engine;
use crate::reference::SCRATCH;
use furnacejade::{DispatchAnswer, LookAnswer, Pair, RefusalNumber, Table};

/// The ledger and the table with which a list begins, if the head gives one.
fn list_head(case: &Case, engine: &dyn Engine) -> Option<(Ledger, Table)> {
    match &case.head {
        Head::Table(_) => None,
        Head::Fresh { version, n } => {
            let fresh = engine.fresh(*version, *n);
            (fresh.refusal == RefusalNumber::ACCEPTED).then(|| (Ledger::new(*version, *n), fresh.table))
        }
        Head::File { bytes, listing, scratch } => {
            let (mut listing, mut scratch) = (Lent::new(*listing), Lent::new(*scratch));
            let run = engine.run(bytes, listing.lent(), scratch.lent());
            let ledger = || Ledger::file(bytes, run.events, &listing.lent()[..run.written]);
            (!(1..=3).contains(&run.refusal.0)).then(ledger).map(|ledger| (ledger, run.table))
        }
    }
}

/// What breaks demand 3 in the answers of one engine.
pub fn keeps_demand3(case: &Case, engine: &dyn Engine) -> Result<(), String> {
    match ledger_of(case, engine).as_ref().and_then(Ledger::broken) {
        Some(text) => Err(format!("demand 3: {text}")),
        None => Ok(()),
    }
}

/// The ledger of a case over the answers of one engine, up to the first call that breaks demand 3. Wherever the ending
/// speaks, looks and local reads are added to the list, and after it calls of the dispatcher.
pub fn ledger_of(case: &Case, engine: &dyn Engine) -> Option<Ledger> {
    let (mut ledger, table) = list_head(case, engine)?;
    let mut side = Side { engine, table };
    for step in 0..=case.calls.len() {
        at_ending(&mut ledger, &mut side);
        if ledger.broken().is_some() {
            ledger.name_place(step);
            break;
        }
        match case.calls.get(step) {
            Some(Call::Event { bytes, scratch }) => {
                let answer = side.event(bytes, *scratch).answer;
                let figures = Figures { finished: answer.finished, sums: sums(answer.sums) };
                ledger.event(bytes, answer.refusal.0, &set(&answer), Some(figures));
            }
            Some(Call::Look(c)) => look(&mut ledger, &side, *c),
            Some(Call::CountBefore(asked)) => {
                let answer = &engine.counts_before(&mut side.table, &[*asked])[0];
                let names = [asked.first, asked.second].map(|x| (x.sender as usize, x.number.0 as usize));
                ledger.count(asked.controller, names, answer.refusal.0, answer.count);
            }
            Some(Call::Dispatch { named, scratch }) => _ = dispatch(&mut ledger, &mut side, *named, *scratch),
            Some(Call::Ask { pair, scratch }) => _ = ask(&mut ledger, &mut side, *pair, *scratch),
            Some(Call::Commit { pair, acts, scratch }) => commit(&mut ledger, &mut side, *pair, *acts, *scratch),
            None => {
                let calls = take_on(&mut ledger, &mut side, case);
                go_on(&mut ledger, &mut side, case, calls);
            }
        }
    }
    Some(ledger)
}

fn look(ledger: &mut Ledger, side: &Side, c: usize) {
    let LookAnswer { refusal, panel } = side.engine.look(&side.table, c);
    let (classes, registers) = (panel.classes.map(sums), panel.registers.map(register));
    ledger.look(c, refusal.0, sums(panel.sums), classes, registers);
}

/// A look and a local read of each controller at which the ending speaks of this moment.
fn at_ending(ledger: &mut Ledger, side: &mut Side) {
    for c in ledger.ended() {
        look(ledger, side, c);
        let answer = side.event(&local_read(c), SCRATCH).answer;
        ledger.ending_read(c, answer.refusal.0, sums(answer.sums));
    }
}

/// A call of the dispatcher. Answers the pair that it served.
fn dispatch(ledger: &mut Ledger, side: &mut Side, named: Pair, scratch: usize) -> Pair {
    let DispatchAnswer { pair, answer } = side.dispatch(named, scratch).answer;
    let figures = Figures { finished: answer.finished, sums: sums(answer.sums) };
    let enough = scratch >= SCRATCH;
    ledger.dispatch(numbers(named), enough, answer.refusal.0, numbers(pair), &set(&answer), figures);
    pair
}

/// An ask. Answers the count that was answered.
fn ask(ledger: &mut Ledger, side: &mut Side, pair: Pair, scratch: usize) -> usize {
    let answer = side.ask(pair, scratch).answer;
    ledger.ask(numbers(pair), scratch >= SCRATCH, answer.refusal.0, answer.acts, &shown(&answer));
    answer.acts
}

fn commit(ledger: &mut Ledger, side: &mut Side, pair: Pair, acts: usize, scratch: usize) {
    let answer = side.commit(pair, acts, scratch).answer;
    let figures = Figures { finished: answer.finished, sums: sums(answer.sums) };
    ledger.commit(numbers(pair), acts, scratch >= SCRATCH, answer.refusal.0, &set(&answer), figures);
}

/// A list with asks goes on with an ask of every pair, and then a commit of every pair. Each commit gives back the count
/// that the engine itself answered, which no case can say beforehand. The first of a receiver that is accepted makes the
/// counts of its others too old. Answers how many calls the list has by then.
fn take_on(ledger: &mut Ledger, side: &mut Side, case: &Case) -> usize {
    let (mut calls, n) = (case.calls.len(), ledger.n());
    if !case.calls.iter().any(|call| matches!(call, Call::Ask { .. })) {
        return calls;
    }
    let pairs = (1..=n).flat_map(|receiver| (1..=n).map(move |owner| Pair { receiver, owner }));
    let mut shown = vec![];
    for pair in pairs {
        shown.push((pair, ask(ledger, side, pair, SCRATCH)));
        calls += 1;
        if ledger.broken().is_some() {
            ledger.name_place(calls);
            return calls;
        }
    }
    for (pair, acts) in shown {
        commit(ledger, side, pair, acts, SCRATCH);
        at_ending(ledger, side);
        calls += 1;
        if ledger.broken().is_some() {
            ledger.name_place(calls);
            return calls;
        }
    }
    calls
}

/// A list with calls of the dispatcher goes on with two rounds of it alone, or to "none". Each call names the pair that
/// the engine itself answered, which no case can say beforehand. Where the ending speaks on the way, and so at "none" if
/// a majority runs, looks and local reads are added as they are before.
fn go_on(ledger: &mut Ledger, side: &mut Side, case: &Case, calls: usize) {
    let n = ledger.n();
    if ledger.broken().is_some() || !case.calls.iter().any(|call| matches!(call, Call::Dispatch { .. })) {
        return;
    }
    let mut last = Pair { receiver: n, owner: n };
    for further in 1..=2 * n * n {
        last = dispatch(ledger, side, last, SCRATCH);
        at_ending(ledger, side);
        if ledger.broken().is_some() {
            return ledger.name_place(calls + further);
        }
        if last == Pair::BLANK {
            return;
        }
    }
}
