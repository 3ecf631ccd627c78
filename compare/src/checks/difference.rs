//! Runs one case through two engines, and finds the first difference: in an answer, in lent memory and its guards, or
//! in what the tables mean. What holds of each call by itself is tried too.

use super::side::{numbers, register, set, shown, Lent, Side};
use super::{counts, previews, served, sets};
use crate::cases::{asked_in, Asked, Call, Case, Head};
use crate::engines::{pair, Engine};
use crate::reference::calls::LOCAL_READ;
use crate::reference::{meaning, well_formed};
use furnacejade::{LookAnswer, Pair, RefusalNumber, RunAnswer, Table};

/// What a file run leaves.
struct RunLeft {
    answer: RunAnswer,
    listing: Vec<u8>,
    scratch: Vec<u8>,
}

fn run(engine: &dyn Engine, bytes: &[u8], listing: usize, scratch: usize) -> RunLeft {
    let (mut listing, mut scratch) = (Lent::new(listing), Lent::new(scratch));
    let answer = engine.run(bytes, listing.lent(), scratch.lent());
    RunLeft { answer, listing: listing.memory, scratch: scratch.memory }
}

/// What must be equal when a call was accepted. A table that is not well formed stands for itself.
fn same_table(a: &Table, b: &Table) -> bool {
    match (well_formed(a), well_formed(b)) {
        (true, true) => meaning(a) == meaning(b),
        _ => a == b,
    }
}

/// A label and what was expected and found, if they differ.
fn differ<T: PartialEq + std::fmt::Debug>(what: &str, right: T, found: T) -> Result<(), String> {
    if right == found {
        return Ok(());
    }
    let (right, found) = (format!("{right:?}"), format!("{found:?}"));
    if right.len() + found.len() > 600 {
        return Err(format!("{what} differs"));
    }
    Err(format!("{what} differs: {right} expected, {found} found"))
}

fn differ_plain(what: &str, same: bool) -> Result<(), String> {
    if same {
        Ok(())
    } else {
        Err(format!("{what} differs"))
    }
}

/// One event on both sides.
fn event(a: &mut Side, b: &mut Side, bytes: &[u8], scratch: usize) -> Result<(), String> {
    let before = b.table.clone();
    let (right, found) = (a.event(bytes, scratch), b.event(bytes, scratch));
    differ("event: refusal", right.answer.refusal, found.answer.refusal)?;
    differ("event: set", set(&right.answer), set(&found.answer))?;
    differ("event: finished", right.answer.finished, found.answer.finished)?;
    differ("event: sums", right.answer.sums, found.answer.sums)?;
    differ_plain("event: answer", right.answer == found.answer)?;
    differ("event: bytes left", right.bytes, found.bytes)?;
    differ_plain("event: scratch", right.scratch == found.scratch)?;
    if found.answer.refusal != RefusalNumber::ACCEPTED {
        return differ_plain("event: table of a refused event", before == b.table);
    }
    if bytes[1] == LOCAL_READ {
        differ_plain("event: table of a local read", before.as_bytes() == b.table.as_bytes())?;
    }
    if bytes[1] == sets::HANDOVER {
        sets::law(&before, pair((bytes[2].into(), bytes[3].into())), &set(&found.answer))?;
    }
    differ_plain("event: a table that is no longer well formed", well_formed(&b.table))?;
    differ_plain("event: table", same_table(&a.table, &b.table))
}

/// One call of the dispatcher on both sides. What it serves is the handover of the event call, byte by byte; where it
/// serves nothing, every byte that was lent stays.
fn dispatch(a: &mut Side, b: &mut Side, named: Pair, scratch: usize) -> Result<(), String> {
    let before = b.table.clone();
    let (right, found) = (a.dispatch(named, scratch), b.dispatch(named, scratch));
    differ("dispatch: refusal", right.answer.answer.refusal, found.answer.answer.refusal)?;
    differ("dispatch: pair", numbers(right.answer.pair), numbers(found.answer.pair))?;
    served::laws(b.engine, before.clone(), scratch, &found, &b.table)?;
    differ("dispatch: set", set(&right.answer.answer), set(&found.answer.answer))?;
    differ("dispatch: finished", right.answer.answer.finished, found.answer.answer.finished)?;
    differ("dispatch: sums", right.answer.answer.sums, found.answer.answer.sums)?;
    differ_plain("dispatch: answer", right.answer == found.answer)?;
    differ_plain("dispatch: scratch", right.scratch == found.scratch)?;
    if found.answer.pair != Pair::BLANK {
        sets::law(&before, found.answer.pair, &set(&found.answer.answer))?;
    }
    differ_plain("dispatch: table", same_table(&a.table, &b.table))
}

/// One ask on both sides. It shows what the record of the handover answers, and the table stays byte by byte.
fn ask(a: &mut Side, b: &mut Side, pair: Pair, scratch: usize) -> Result<(), String> {
    let before = b.table.clone();
    let (right, found) = (a.ask(pair, scratch), b.ask(pair, scratch));
    differ("ask: refusal", right.answer.refusal, found.answer.refusal)?;
    differ("ask: set", shown(&right.answer), shown(&found.answer))?;
    differ("ask: act count", right.answer.acts, found.answer.acts)?;
    differ_plain("ask: answer", right.answer == found.answer)?;
    differ_plain("ask: scratch", right.scratch == found.scratch)?;
    differ_plain("ask: table", before.as_bytes() == b.table.as_bytes())?;
    if found.answer.refusal == RefusalNumber::ACCEPTED {
        sets::law(&before, pair, &shown(&found.answer))?;
    }
    previews::laws(b.engine, &before, pair, scratch, &found)
}

/// One commit on both sides. With its receiver's count it is the handover of the event call, byte by byte; where it is
/// refused, every byte that was lent stays.
fn commit(a: &mut Side, b: &mut Side, pair: Pair, acts: usize, scratch: usize) -> Result<(), String> {
    let before = b.table.clone();
    let (right, found) = (a.commit(pair, acts, scratch), b.commit(pair, acts, scratch));
    differ("commit: refusal", right.answer.refusal, found.answer.refusal)?;
    differ("commit: set", set(&right.answer), set(&found.answer))?;
    differ("commit: finished", right.answer.finished, found.answer.finished)?;
    differ("commit: sums", right.answer.sums, found.answer.sums)?;
    differ_plain("commit: answer", right.answer == found.answer)?;
    differ_plain("commit: scratch", right.scratch == found.scratch)?;
    if found.answer.refusal == RefusalNumber::ACCEPTED {
        sets::law(&before, pair, &set(&found.answer))?;
    }
    previews::commit_law(b.engine, &before, pair, scratch, &found, &b.table)?;
    differ_plain("commit: table", same_table(&a.table, &b.table))
}

fn look(a: &Side, b: &Side, c: usize) -> Result<(), String> {
    let before = b.table.clone();
    let (right, found) = (a.engine.look(&a.table, c), b.engine.look(&b.table, c));
    differ("look: refusal", right.refusal, found.refusal)?;
    differ("look: sums", right.panel.sums, found.panel.sums)?;
    differ("look: classes", &right.panel.classes, &found.panel.classes)?;
    let shown = |answer: &LookAnswer| answer.panel.registers.map(register);
    differ("look: registers", shown(&right), shown(&found))?;
    differ_plain("look: answer", right == found)?;
    differ_plain("look: table", before == b.table)
}

/// Counts of "goes before" on one table.
fn counts(a: &mut Side, b: &mut Side, asked: &[Asked]) -> Result<(), String> {
    let before = b.table.clone();
    let (right, found) = (a.engine.counts_before(&mut a.table, asked), b.engine.counts_before(&mut b.table, asked));
    differ_plain("count: table", before.as_bytes() == b.table.as_bytes())?;
    counts::laws(&before, asked, &found)?;
    for (right, found) in right.iter().zip(&found) {
        differ("count: refusal", right.refusal, found.refusal)?;
        differ("count: count", right.count, found.count)?;
    }
    Ok(())
}

/// A file run through both engines; the last tables.
fn file(a: &dyn Engine, b: &dyn Engine, bytes: &[u8], lent: [usize; 2]) -> Result<(Table, Table), String> {
    let [listing, scratch] = lent;
    let (right, found) = (run(a, bytes, listing, scratch), run(b, bytes, listing, scratch));
    differ("file: refusal", right.answer.refusal, found.answer.refusal)?;
    differ("file: events", right.answer.events, found.answer.events)?;
    differ("file: written", right.answer.written, found.answer.written)?;
    differ_plain("file: listing", right.listing == found.listing)?;
    differ_plain("file: scratch", right.scratch == found.scratch)?;
    differ_plain("file: table", same_table(&right.answer.table, &found.answer.table))?;
    Ok((right.answer.table, found.answer.table))
}

fn fresh(a: &dyn Engine, b: &dyn Engine, version: usize, n: usize) -> Result<(Table, Table), String> {
    let (right, found) = (a.fresh(version, n), b.fresh(version, n));
    differ("fresh: refusal", right.refusal, found.refusal)?;
    differ_plain("fresh: table", same_table(&right.table, &found.table))?;
    Ok((right.table, found.table))
}

/// The first difference between two engines on a case. Each engine goes on with the table that it left itself.
pub fn difference(case: &Case, a: &dyn Engine, b: &dyn Engine) -> Result<(), String> {
    let (right, found) = match &case.head {
        Head::Table(t) => ((**t).clone(), (**t).clone()),
        Head::Fresh { version, n } => fresh(a, b, *version, *n)?,
        Head::File { bytes, listing, scratch } => file(a, b, bytes, [*listing, *scratch])?,
    };
    let (mut a, mut b) = (Side { engine: a, table: right }, Side { engine: b, table: found });
    for calls in case.counts_together() {
        match &calls[0] {
            Call::Event { bytes, scratch } => event(&mut a, &mut b, bytes, *scratch)?,
            Call::Look(c) => look(&a, &b, *c)?,
            Call::CountBefore(_) => counts(&mut a, &mut b, &asked_in(calls))?,
            Call::Dispatch { named, scratch } => dispatch(&mut a, &mut b, *named, *scratch)?,
            Call::Ask { pair, scratch } => ask(&mut a, &mut b, *pair, *scratch)?,
            Call::Commit { pair, acts, scratch } => commit(&mut a, &mut b, *pair, *acts, *scratch)?,
        }
    }
    Ok(())
}
