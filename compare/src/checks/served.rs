//! What holds of one call of the dispatcher on any table, whichever pair it serves: it is the handover of that pair, as
//! the event call makes it; it says "none" where the event call refuses every handover; and it changes nothing else.

use super::side::{DispatchLeft, Lent, Side};
use crate::cases::records::handover;
use crate::engines::unserved;
use crate::engines::Engine;
use crate::reference::{well_formed, SCRATCH};
use furnacejade::{DispatchAnswer, Pair, RefusalNumber, Table};

/// The number that the event call gives the record of a handover. A refused one leaves the table as it is.
fn refusal(side: &mut Side, receiver: usize, owner: usize, scratch: usize) -> u8 {
    side.event(&handover(receiver, owner), scratch).answer.refusal.0
}

/// The handovers to controllers that run, by the flag in the table.
fn to_running(t: &Table) -> Vec<(usize, usize)> {
    let runs = |r: &usize| t.controllers[r - 1].running != 0;
    (1..=t.n).filter(runs).flat_map(|r| (1..=t.n).map(move |o| (r, o))).collect()
}

/// The record of the pair that was served answers and leaves the same, byte by byte.
fn is_handover(before: &mut Side, pair: Pair, left: &DispatchLeft, after: &Table, length: usize) -> Result<(), String> {
    let (receiver, owner) = (pair.receiver, pair.owner);
    let known = |c: usize| (1..=before.table.n).contains(&c);
    if !known(receiver) || !known(owner) {
        return Err(format!("dispatch: no such pair: it serves {receiver} and {owner}"));
    }
    let event = before.event(&handover(receiver, owner), length);
    let parts = [
        ("answer", event.answer == left.answer.answer),
        ("table", before.table.as_bytes() == after.as_bytes()),
        ("scratch", event.scratch == left.scratch),
    ];
    match parts.iter().find(|(_, same)| !same) {
        Some((part, _)) => {
            Err(format!("dispatch: not the handover: the {part} of the record to {receiver} from {owner}"))
        }
        None => Ok(()),
    }
}

/// Every handover to a controller that runs is refused by 13.
fn is_end(before: &mut Side) -> Result<(), String> {
    for (receiver, owner) in to_running(&before.table) {
        let number = refusal(before, receiver, owner, SCRATCH);
        if number != 13 {
            return Err(format!("dispatch: not the end: the record to {receiver} from {owner} gets {number}"));
        }
    }
    Ok(())
}

/// Some handover to a controller that runs is refused by 15 alone.
fn lacks_scratch(before: &mut Side, length: usize) -> Result<(), String> {
    let mut waits = to_running(&before.table).into_iter();
    match waits.any(|(receiver, owner)| refusal(before, receiver, owner, length) == 15) {
        true => Ok(()),
        false => Err("dispatch: scratch is asked for, and nothing waits".into()),
    }
}

/// Nothing that was lent has changed.
fn unchanged(before: &Side, left: &DispatchLeft, after: &Table, length: usize) -> Result<(), String> {
    match (before.table.as_bytes() == after.as_bytes(), left.scratch == Lent::new(length).memory) {
        (false, _) => Err("dispatch: nothing was served, and the table differs".into()),
        (_, false) => Err("dispatch: nothing was served, and scratch differs".into()),
        _ => Ok(()),
    }
}

/// The laws of one call, by the engine that made it: the table before, what the call left, and the table after.
pub fn laws(
    engine: &dyn Engine,
    before: Table,
    scratch: usize,
    left: &DispatchLeft,
    after: &Table,
) -> Result<(), String> {
    let sound = well_formed(&before);
    let mut before = Side { engine, table: before };
    let DispatchAnswer { pair, answer } = &left.answer;
    if answer.refusal != RefusalNumber::ACCEPTED || *pair == Pair::BLANK {
        if left.answer != unserved(answer.refusal) {
            return Err("dispatch: nothing was served, and the answer is not zero".into());
        }
        unchanged(&before, left, after, scratch)?;
    }
    match (answer.refusal.0, *pair) {
        _ if !sound => Ok(()),
        (0, Pair::BLANK) => is_end(&mut before),
        (0, pair) => is_handover(&mut before, pair, left, after, scratch),
        (15, _) => lacks_scratch(&mut before, scratch),
        _ => Ok(()),
    }
}
