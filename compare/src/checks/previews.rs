//! What holds of one ask or commit on any table, well formed or not, by the engine's own event call: an ask shows what the
//! record of the handover answers; a commit with its receiver's count is that record; and a commit with another count is
//! refused as the ask is by 4, 8 and 10, and else by 21.

use super::side::{set, shown, AskLeft, CommitLeft, EventLeft, Lent, Side};
use crate::cases::records::handover;
use crate::engines::Engine;
use crate::reference::well_formed;
use furnacejade::{Answer, AskAnswer, Pair, RefusalNumber, Table};

/// The act count of a controller from the bytes of a well-formed table: the messages that name it as their sender, its
/// read positions in the logs of 1 to n, and 1 if it has stopped.
pub fn acts_in(t: &Table, c: usize) -> usize {
    let (own, sent) = (&t.controllers[c - 1], t.messages[..t.count].iter().filter(|m| usize::from(m.sender) == c));
    sent.count() + own.read[..t.n].iter().sum::<usize>() + if own.running == 0 { 1 } else { 0 }
}

/// Counts beside one: one too old, one too high, that of another controller or of none, and the same in fewer bits.
pub fn other_counts(acts: usize) -> Vec<usize> {
    let near = [acts.wrapping_sub(1), acts + 1, 0, usize::MAX, acts + 256, acts + (1 << 32), usize::MAX - acts];
    near.into_iter().filter(|count| *count != acts).collect()
}

/// The record of the handover on a copy: what it leaves, and the table. Only bytes stand in a record.
fn by_record(engine: &dyn Engine, t: &Table, pair: Pair, scratch: usize) -> Option<(EventLeft, Table)> {
    let byte = |c: usize| u8::try_from(c).is_ok();
    let mut side = Side { engine, table: t.clone() };
    let left =
        (byte(pair.receiver) && byte(pair.owner)).then(|| side.event(&handover(pair.receiver, pair.owner), scratch))?;
    Some((left, side.table))
}

fn says(holds: bool, what: &str, Pair { receiver, owner }: Pair) -> Result<(), String> {
    match holds {
        true => Ok(()),
        false => Err(format!("{what}: to {receiver} from {owner}")),
    }
}

/// An ask answers the number and the set of the record, and leaves scratch as that does. Refused, it answers nothing
/// else.
fn ask_law(left: &AskLeft, record: &EventLeft, pair: Pair) -> Result<(), String> {
    let AskAnswer { refusal, .. } = left.answer;
    says(refusal == record.answer.refusal, "ask: not the number of the record", pair)?;
    says(shown(&left.answer) == set(&record.answer), "ask: not the set of the record", pair)?;
    says(left.scratch == record.scratch, "ask: not the scratch of the record", pair)?;
    let nothing = left.answer == AskAnswer { refusal, ..AskAnswer::BLANK };
    says(refusal == RefusalNumber::ACCEPTED || nothing, "ask: a refused one answers something", pair)
}

/// A commit that is accepted answers and leaves what the record does. One that is refused answers its number alone, and
/// changes nothing.
pub fn commit_law(
    engine: &dyn Engine,
    before: &Table,
    pair: Pair,
    scratch: usize,
    left: &CommitLeft,
    after: &Table,
) -> Result<(), String> {
    let refusal = left.answer.refusal;
    if refusal != RefusalNumber::ACCEPTED {
        let nothing = left.answer == Answer { refusal, ..Answer::BLANK };
        says(nothing, "commit: a refused one answers something", pair)?;
        says(before.as_bytes() == after.as_bytes(), "commit: a refused one changes the table", pair)?;
        return says(left.scratch == Lent::new(scratch).memory, "commit: a refused one changes scratch", pair);
    }
    let record = by_record(engine, before, pair, scratch);
    let (record, table) = record.ok_or("commit: accepted with numbers that are no bytes")?;
    is_record(left, after, &record, &table, pair)
}

fn is_record(left: &CommitLeft, after: &Table, record: &EventLeft, table: &Table, pair: Pair) -> Result<(), String> {
    says(left.answer == record.answer, "commit: not the answer of the record", pair)?;
    says(left.scratch == record.scratch, "commit: not the scratch of the record", pair)?;
    says(after.as_bytes() == table.as_bytes(), "commit: not the table of the record", pair)
}

/// All laws of one pair on a table: of the ask that was made, and of commits with every count that matters.
pub fn laws(engine: &dyn Engine, t: &Table, pair: Pair, scratch: usize, asked: &AskLeft) -> Result<(), String> {
    let Some((record, table)) = by_record(engine, t, pair, scratch) else { return Ok(()) };
    ask_law(asked, &record, pair)?;
    let commit = |acts: usize| {
        let mut side = Side { engine, table: t.clone() };
        (side.commit(pair, acts, scratch), side.table)
    };
    let early = [4, 8, 10].contains(&asked.answer.refusal.0);
    let known = well_formed(t) && (1..=t.n).contains(&pair.receiver);
    let own = if known { acts_in(t, pair.receiver) } else { 0 };
    let right = [RefusalNumber::ACCEPTED, RefusalNumber(13), RefusalNumber(15)].contains(&asked.answer.refusal);
    says(right || early, "ask: refused by a number that is none of its questions", pair)?;
    if asked.answer.refusal == RefusalNumber::ACCEPTED {
        says(asked.answer.acts == own, "ask: not the act count of the table", pair)?;
    }
    let (taken, after) = commit(own);
    is_record(&taken, &after, &record, &table, pair)?;
    for count in other_counts(own) {
        let (left, after) = commit(count);
        let number = if early { asked.answer.refusal } else { RefusalNumber(21) };
        says(left.answer.refusal == number, &format!("commit: with {count} acts, not refused by {number:?}"), pair)?;
        commit_law(engine, t, pair, scratch, &left, &after)?;
    }
    Ok(())
}
