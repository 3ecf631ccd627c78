//! Legal runs: events that are accepted, chosen at random, with the reference's state beside them. A policy says how
//! often each kind of event comes.

use super::random::Random;
use crate::cases::records::{classed_report, handover, local_read, report, stop, sync, write};
use crate::reference::calls::numbered;
use crate::reference::{self, Message, Payload, State, MAX_MESSAGES, REGISTERS, SCRATCH};
use furnacejade::Pair;

/// How a run goes: one event in `send` is a send, one in `stop` a stop, one in `read` a local read, and each pair of
/// receiver and log owner has a weight. Weights of 0 let messages pile up and let logs differ in their order. One send
/// in `on` may be by a sender that has messages of its own pending; and while nobody has read its last report, a sender
/// reports again but for one time in `burst`. Of the sends of those that may sync, one in `sync` is a sync, and of
/// those that may write, one in `write` is a write.
pub struct Policy {
    pub send: usize,
    pub stop: usize,
    pub read: usize,
    pub on: usize,
    pub burst: usize,
    pub sync: usize,
    pub write: usize,
    pub links: [[usize; 7]; 7],
}

const NEVER: usize = usize::MAX;

/// Yes with a chance of one in `among`.
fn now(random: &mut Random, among: usize) -> bool {
    among != NEVER && random.one_in(among)
}

impl Policy {
    pub fn even(send: usize) -> Policy {
        let links = [[1; 7]; 7];
        Policy { send, stop: NEVER, read: NEVER, on: NEVER, burst: 1, sync: 4, write: NEVER, links }
    }

    pub fn random(random: &mut Random) -> Policy {
        let mut policy = Policy::under_way(random);
        (policy.sync, policy.write) = random.pick(&[(4, NEVER), (4, 2), (2, 2), (2, 1)]);
        policy
    }

    /// There are no writes.
    pub fn under_way(random: &mut Random) -> Policy {
        let mut policy = Policy::one_by_one(random);
        policy.read = random.pick(&[4, 20, 60, NEVER]);
        policy.on = random.pick(&[2, 10, NEVER, NEVER]);
        policy.burst = random.pick(&[1, 1, 1, 3]);
        policy
    }

    /// No sender has two messages under way, and there are neither local reads nor writes.
    pub fn one_by_one(random: &mut Random) -> Policy {
        let mut policy = Policy::even(random.pick(&[2, 3, 5, 10, 30]));
        policy.stop = random.pick(&[15, 60, 300, NEVER]);
        let weights: &[usize] = random.pick(&[&[1][..], &[0, 0, 1, 1, 5], &[0, 1, 1, 1, 20, 20], &[0, 0, 0, 1]]);
        for row in &mut policy.links {
            row.iter_mut().for_each(|link| *link = random.pick(weights));
        }
        policy
    }
}

fn running(state: &State) -> Vec<usize> {
    (1..=state.n).filter(|c| state.controllers[c - 1].running).collect()
}

pub fn highest_read(state: &State, owner: usize) -> usize {
    state.controllers.iter().map(|c| c.read[owner - 1]).max().unwrap_or(0)
}

/// Every handover that reads an entry: receiver and owner.
fn unread(state: &State) -> Vec<(usize, usize)> {
    let links = running(state).into_iter().flat_map(|r| (1..=state.n).map(move |o| (r, o)));
    links.filter(|(r, o)| state.controllers[r - 1].read[o - 1] < state.controllers[o - 1].log.len()).collect()
}

fn any_amount(random: &mut Random) -> i16 {
    match random.pick(&[360, -360, 1, -1, 0]) {
        0 => random.between(1, 360) as i16 * random.pick(&[1, -1]),
        amount => amount,
    }
}

fn legal_report(random: &mut Random, state: &State, sender: usize) -> Vec<u8> {
    let amount = any_amount(random);
    match state.version {
        2 => classed_report(sender, amount, random.between(1, 4) as u8),
        _ => report(sender, amount),
    }
}

/// The running controllers that have no message of their own pending.
pub fn with_none_pending(state: &State) -> Vec<usize> {
    let none = |c: &usize| !state.controllers[c - 1].pending.keys().any(|name| name.sender == *c);
    running(state).into_iter().filter(none).collect()
}

fn legal_send(random: &mut Random, state: &State, policy: &Policy) -> Option<Vec<u8>> {
    let with_none = with_none_pending(state);
    let senders = if now(random, policy.on) { running(state) } else { with_none.clone() };
    if senders.is_empty() || state.messages.len() >= MAX_MESSAGES {
        return None;
    }
    let sender = random.pick(&senders);
    let may_sync = with_none.contains(&sender);
    if may_sync && state.synced(sender) && now(random, policy.write) {
        return Some(legal_write(random, sender));
    }
    Some(if may_sync && random.one_in(policy.sync) { sync(sender) } else { legal_report(random, state, sender) })
}

/// Any value: at the edges of its bytes, or with all four in use.
pub fn any_value(random: &mut Random) -> u32 {
    match random.below(3) {
        0 => random.next() as u32,
        _ => random.pick(&[0, 1, 1500, 255, 256, 65_535, 65_536, 0x0102_0304, u32::MAX - 1, u32::MAX]),
    }
}

/// A write of any register, half of the time of the first, for which writers then race.
fn legal_write(random: &mut Random, sender: usize) -> Vec<u8> {
    let register = if random.one_in(2) { 1 } else { random.between(1, REGISTERS) };
    write(sender, register, any_value(random))
}

/// One more report by the sender of the last message, if that was a report and nobody has read it.
fn next_of_burst(random: &mut Random, state: &State, policy: &Policy) -> Option<Vec<u8>> {
    let Message { name, payload, .. } = *state.messages.last()?;
    let unread = state.controllers[name.sender - 1].running && highest_read(state, name.sender) < name.number;
    let may = unread && matches!(payload, Payload::Report { .. }) && state.messages.len() < MAX_MESSAGES;
    let goes_on = may && policy.burst > 1 && !random.one_in(policy.burst);
    goes_on.then(|| legal_report(random, state, name.sender))
}

fn legal_read(random: &mut Random, state: &State) -> Option<Vec<u8>> {
    let readers = with_none_pending(state);
    (!readers.is_empty()).then(|| local_read(random.pick(&readers)))
}

fn legal_handover(random: &mut Random, state: &State, policy: &Policy) -> Option<Vec<u8>> {
    let links = unread(state);
    let weighted: Vec<_> = links.iter().flat_map(|(r, o)| vec![(*r, *o); policy.links[r - 1][o - 1]]).collect();
    let (receiver, owner) = match (weighted.is_empty(), links.is_empty()) {
        (false, _) => random.pick(&weighted),
        (_, false) => random.pick(&links),
        _ => return None,
    };
    Some(handover(receiver, owner))
}

fn legal_stop(random: &mut Random, state: &State) -> Option<Vec<u8>> {
    let running = running(state);
    let controller = *running.get(random.below(running.len().max(1)))?;
    let (low, high) = (highest_read(state, controller), state.controllers[controller - 1].log.len());
    (low <= high).then(|| stop(controller, random.between(low, high)))
}

/// An event that is accepted, if there is one.
pub fn legal_event(random: &mut Random, state: &State, policy: &Policy) -> Option<Vec<u8>> {
    if random.one_in(policy.stop) {
        return legal_stop(random, state);
    }
    if let Some(report) = next_of_burst(random, state, policy) {
        return Some(report);
    }
    let read = if now(random, policy.read) { legal_read(random, state) } else { None };
    if read.is_some() {
        return read;
    }
    let send_first = random.one_in(policy.send);
    let send = if send_first { legal_send(random, state, policy) } else { None };
    send.or_else(|| legal_handover(random, state, policy)).or_else(|| legal_send(random, state, policy))
}

/// Carries out an event on the generator's own state.
pub fn follow(state: &mut State, bytes: &[u8], scratch: usize) -> u8 {
    state.event(bytes, &mut vec![0; scratch]).0.refusal
}

/// Calls the dispatcher on the generator's own state. Answers the pair that it served.
pub fn follow_dispatch(state: &mut State, named: Pair, scratch: usize) -> Pair {
    let reference::Pair { receiver, owner } = state.dispatch(numbered(named), &mut vec![0; scratch]).pair;
    Pair { receiver, owner }
}

/// Makes a commit on the generator's own state.
pub fn follow_commit(state: &mut State, pair: Pair, acts: usize, scratch: usize) {
    _ = state.commit(numbered(pair), acts, &mut vec![0; scratch]);
}

/// Up to `events` legal events from a state, which is brought up to date.
pub fn legal_run(random: &mut Random, state: &mut State, policy: &Policy, events: usize) -> Vec<Vec<u8>> {
    let mut run = vec![];
    for _ in 0..events {
        let Some(bytes) = legal_event(random, state, policy) else { break };
        follow(state, &bytes, SCRATCH);
        run.push(bytes);
    }
    run
}

/// Handovers in random order until every running controller has read all.
pub fn drain(random: &mut Random, state: &mut State) -> Vec<Vec<u8>> {
    let mut run = vec![];
    while let Some(bytes) = legal_handover(random, state, &Policy::even(1)) {
        follow(state, &bytes, SCRATCH);
        run.push(bytes);
    }
    run
}
