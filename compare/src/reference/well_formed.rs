//! Question 4: whether a table as it lies in memory is well formed, clause by clause. What no clause names is neither
//! tested nor used.

use super::*;
use furnacejade::{Controller, ForwardNumber, Message, Table};

/// Question 4, clause by clause. What no clause names is neither tested nor used.
pub fn well_formed(t: &Table) -> bool {
    (1..=2).contains(&t.version)
        && (1..=MAX_CONTROLLERS).contains(&t.n)
        && t.count <= MAX_MESSAGES
        && distinct_names(&t.messages[..t.count])
        && t.messages[..t.count].iter().all(|m| well_formed_message(t, m))
        && distinct_stamps(&t.messages[..t.count])
        && (1..=t.n).all(|c| well_formed_controller(t, c))
}

fn distinct_names(messages: &[Message]) -> bool {
    let mut names: Vec<_> = messages.iter().map(|m| (m.sender, m.number)).collect();
    names.sort();
    names.windows(2).all(|pair| pair[0] != pair[1])
}

/// Two writes of one sender and register have different dates.
fn distinct_stamps(messages: &[Message]) -> bool {
    let writes = messages.iter().filter(|m| m.payload.kind == WRITE);
    let mut seen = BTreeSet::new();
    writes.map(|m| (m.sender, m.payload.reg, m.date)).all(|stamp| seen.insert(stamp))
}

fn well_formed_message(t: &Table, m: &Message) -> bool {
    let (added, withdrawn) = (m.payload.added, m.payload.withdrawn);
    let fair = match m.payload.kind {
        REPORT => (added == 0) != (withdrawn == 0) && added.max(withdrawn) <= 360,
        SYNC | WRITE => added == 0 && withdrawn == 0,
        _ => false,
    };
    let class = m.payload.class.0;
    let class_fits = match m.payload.kind {
        REPORT if t.version == 2 => (1..=4).contains(&class),
        _ => class == 0,
    };
    (1..=t.n).contains(&(m.sender as usize))
        && (1..=64).contains(&m.number.0)
        && fair
        && class_fits
        && well_formed_write(t, m)
}

/// A write has a register and a date; any other message has neither, and no value.
fn well_formed_write(t: &Table, m: &Message) -> bool {
    let (register, date) = (m.payload.reg as usize, m.date as usize);
    match m.payload.kind {
        WRITE => (1..=REGISTERS).contains(&register) && (1..=t.count).contains(&date),
        _ => register == 0 && m.payload.value == 0 && date == 0,
    }
}

/// A set of slots, one bit for each.
fn slots(in_set: impl Fn(usize) -> bool) -> u64 {
    (0..MAX_MESSAGES).filter(|s| in_set(*s)).fold(0, |set, s| set | 1 << s)
}

fn well_formed_controller(t: &Table, c: usize) -> bool {
    let own = &t.controllers[c - 1];
    if own.length > MAX_MESSAGES {
        return false;
    }
    let (entries, running) = (&own.log[..own.length], own.running != 0);
    let log = slots(|s| entries.contains(&(s as u8)));
    let pending = slots(|s| own.pending[s].held != 0);
    let applied = slots(|s| own.applied[s] != 0);
    let known = pending | applied;
    let unused = slots(|s| s >= t.count);
    let own_writes = slots(|s| t.messages[s].payload.kind == WRITE && t.messages[s].sender as usize == c) & !unused;
    let mut own_numbers = t.messages[..t.count].iter().filter(|m| m.sender as usize == c).map(|m| m.number.0 as usize);

    let log_of_run = entries.iter().all(|s| (*s as usize) < t.count);
    let log_once = log.count_ones() as usize == entries.len();
    let read_within = (0..t.n).all(|o| own.read[o] <= t.controllers[o].length);
    let pending_of_run = pending & unused == 0;
    let applied_of_run = applied & unused == 0;
    let marks_in_range = own.pending.iter().all(|p| p.held == 0 || p.marks[..t.n].iter().all(mark_in_range));
    let not_both = pending & applied == 0;
    let highest_agree = (1..=t.n).all(|sender| own.highest[sender - 1].0 == highest_applied(t, own, sender));
    let exact = !running || log == known;
    let long_enough = !running || own_numbers.all(|number| number <= own.length);
    let writes_known = !running || own_writes & !known == 0;

    log_of_run
        && log_once
        && read_within
        && pending_of_run
        && applied_of_run
        && marks_in_range
        && not_both
        && highest_agree
        && exact
        && long_enough
        && writes_known
}

fn mark_in_range(mark: &ForwardNumber) -> bool {
    *mark == ABSENT_MARK || (1..=64).contains(&mark.0)
}

/// The greatest number applied of a sender, or 0.
fn highest_applied(t: &Table, own: &Controller, sender: usize) -> u8 {
    let of_sender = |s: &usize| own.applied[*s] != 0 && t.messages[*s].sender as usize == sender;
    (0..t.count).filter(of_sender).map(|s| t.messages[s].number.0).max().unwrap_or(0)
}
