//! Random lists of calls from a fresh table: all kinds of events, many messages under way, rival writers, readings.
//! Some are drained at the end so that demand 3's ending speaks.

use super::odd::{any_calls, any_number, any_version, as_calls, boundary_write};
use super::random::Random;
use super::runs::{any_value, drain, follow, highest_read, legal_run, with_none_pending, Policy};
use crate::cases::records::{handover, local_read, report_in, stop, sync, write};
use crate::cases::{name, Asked, Call, Case, Head};
use crate::reference::{State, MAX_MESSAGES, SCRATCH};

pub fn list(random: &mut Random) -> Case {
    let (version, n) = (any_version(random), random.between(1, 7));
    let count = random.pick(&[5, 20, 60, 150]);
    let odd = random.pick(&[3, 10, 50]);
    let calls = any_calls(random, &mut State::fresh(version, n), count, odd);
    Case { head: Head::Fresh { version, n }, calls }
}

/// A run with few or many messages pending and with refused calls in between, then drained so that the ending speaks.
pub fn drained(random: &mut Random) -> Case {
    let (version, n) = (any_version(random), random.between(1, 7));
    let mut state = State::fresh(version, n);
    let mut calls = vec![];
    for _ in 0..random.between(1, 3) {
        let policy = Policy::random(random);
        let events = if policy.burst > 1 { random.pick(&[5, 10, 20]) } else { random.pick(&[5, 20, 60, 150]) };
        calls.extend(as_calls(legal_run(random, &mut state, &policy, events)));
        calls.extend(any_calls(random, &mut state, 2, 2));
        calls.extend(as_calls(drain(random, &mut state)));
    }
    Case { head: Head::Fresh { version, n }, calls }
}

/// Up to 64 messages and sends past them. These lists are long, so most turns make a short one.
pub fn full(random: &mut Random) -> Case {
    if !random.one_in(4) {
        return list(random);
    }
    let (version, n) = (any_version(random), random.pick(&[1, 1, 2, 2, 3, 3, 4, 5, 6, 7]));
    let mut state = State::fresh(version, n);
    let mut policy = if random.one_in(2) { Policy::even(2) } else { Policy::random(random) };
    policy.stop = random.pick(&[usize::MAX, 300]);
    let mut calls = vec![];
    for _ in 0..2000 {
        if state.messages.len() == MAX_MESSAGES {
            break;
        }
        calls.extend(as_calls(legal_run(random, &mut state, &policy, 1)));
    }
    for c in 1..=n {
        calls.extend(as_calls(vec![report_in(version, c, 5), sync(c), write(c, 1, 5), local_read(c)]));
    }
    calls.extend(any_calls(random, &mut state, 30, 4));
    Case { head: Head::Fresh { version, n }, calls }
}

/// A list that is made call by call, with the state that it leaves.
struct Making {
    version: usize,
    state: State,
    calls: Vec<Call>,
}

impl Making {
    fn fresh(version: usize, n: usize) -> Making {
        Making { version, state: State::fresh(version, n), calls: vec![] }
    }

    fn event(&mut self, bytes: Vec<u8>) -> u8 {
        let number = follow(&mut self.state, &bytes, SCRATCH);
        self.calls.push(Call::Event { bytes, scratch: SCRATCH });
        number
    }

    /// A number of reports of one sender in a row, and what waits for them: a sync, a local read.
    fn reports(&mut self, random: &mut Random, sender: usize, count: usize) {
        for _ in 0..count {
            self.event(report_in(self.version, sender, random.pick(&[1, -1, 7, 360, -360])));
        }
        if random.one_in(2) {
            self.event(sync(sender));
            self.event(local_read(sender));
        }
    }

    /// A local read of each controller and a look at it.
    fn reads(&mut self) {
        for c in 1..=self.state.n {
            self.event(local_read(c));
            self.calls.push(Call::Look(c));
        }
    }

    /// At each controller the counts, both ways round, of two messages that were sent one after the other.
    fn counts(&mut self, random: &mut Random) {
        let sent: Vec<_> = self.state.messages.iter().map(|x| name(x.name.sender, x.name.number)).collect();
        if sent.is_empty() {
            return;
        }
        for controller in 1..=self.state.n {
            let at = random.below(sent.len());
            let (first, second) = (sent[at], sent[(at + 1) % sent.len()]);
            self.calls.push(Call::CountBefore(Asked { controller, first, second }));
            self.calls.push(Call::CountBefore(Asked { controller, first: second, second: first }));
        }
    }

    fn looks(&mut self) {
        self.calls.extend((1..=self.state.n).map(Call::Look));
    }

    /// Handovers among a sender and as few others as make a majority with it, until it has applied all that it has sent
    /// or they have read all of each other.
    fn finish(&mut self, random: &mut Random, sender: usize) {
        let n = self.state.n;
        let mut others: Vec<usize> = (1..=n).filter(|c| *c != sender).collect();
        let mut group: Vec<usize> = (0..n / 2).map(|_| others.swap_remove(random.below(others.len()))).collect();
        group.push(sender);
        let links: Vec<(usize, usize)> = group.iter().flat_map(|r| group.iter().map(|o| (*r, *o))).collect();
        while !with_none_pending(&self.state).contains(&sender) {
            let all = &self.state.controllers;
            let waits = |(r, o): &&(usize, usize)| all[r - 1].running && all[r - 1].read[o - 1] < all[o - 1].log.len();
            let unread: Vec<(usize, usize)> = links.iter().filter(waits).copied().collect();
            if unread.is_empty() {
                break;
            }
            let (receiver, owner) = random.pick(&unread);
            self.event(handover(receiver, owner));
        }
    }

    fn hand_over_all(&mut self, random: &mut Random) {
        let run = drain(random, &mut self.state);
        self.calls.extend(as_calls(run));
    }

    /// A number of legal events that follow a policy.
    fn some(&mut self, random: &mut Random, policy: &Policy, events: usize) {
        let run = legal_run(random, &mut self.state, policy, events);
        self.calls.extend(as_calls(run));
    }

    fn case(self) -> Case {
        Case { head: Head::Fresh { version: self.version, n: self.state.n }, calls: self.calls }
    }
}

/// Several reports each of some senders, in a row and before anything is handed over; then some handovers, and local
/// reads of all. Short ones go on to the end. Long ones, up to 64 messages, take a slow reference many comparisons, and
/// are few.
pub fn under_way(random: &mut Random) -> Case {
    let mut making = Making::fresh(any_version(random), random.pick(&[1, 2, 3, 3, 4, 5, 6, 7]));
    let n = making.state.n;
    let most = if random.one_in(20) { MAX_MESSAGES } else { random.pick(&[2, 4, 8, 12]) };
    let (senders, first) = (random.between(1, n), random.below(n));
    for sender in 0..senders {
        let count = random.between(1, (most / senders).max(2));
        making.reports(random, 1 + (first + sender) % n, count);
    }
    let mut policy = Policy::random(random);
    (policy.send, policy.stop) = (random.pick(&[20, usize::MAX]), random.pick(&[40, usize::MAX, usize::MAX]));
    making.some(random, &policy, 40);
    making.counts(random);
    making.reads();
    if most <= 12 {
        making.hand_over_all(random);
        making.reads();
    }
    making.case()
}

/// A sender with several messages pending stops. Its log is cut after any of them that nobody has read, or of what it
/// has forwarded in between; then all is handed over.
pub fn cut_off(random: &mut Random) -> Case {
    let mut making = Making::fresh(any_version(random), random.pick(&[1, 1, 2, 3, 3, 4, 5, 7]));
    let n = making.state.n;
    let sender = random.between(1, n);
    for _ in 0..random.between(1, 3) {
        let count = random.between(1, 4);
        making.reports(random, sender, count);
        let other = random.between(1, n);
        making.event(report_in(making.version, other, 2));
        for _ in 0..random.below(4) {
            let (receiver, owner) = (random.between(1, n), random.between(1, n));
            let (r, o) = random.pick(&[(receiver, sender), (sender, owner), (receiver, owner)]);
            making.event(handover(r, o));
        }
    }
    let (low, high) = (highest_read(&making.state, sender), making.state.controllers[sender - 1].log.len());
    making.event(stop(sender, random.between(low, high)));
    making.counts(random);
    making.reads();
    making.hand_over_all(random);
    making.reads();
    making.case()
}

/// Runs in which most sends are syncs and writes, with looks at all panels in between.
pub fn set_points(random: &mut Random) -> Case {
    let mut making = Making::fresh(any_version(random), random.pick(&[1, 1, 2, 2, 3, 3, 4, 5, 7]));
    let mut policy = Policy::random(random);
    (policy.send, policy.sync, policy.write) = (random.pick(&[2, 3, 5]), random.pick(&[1, 1, 2]), 1);
    for _ in 0..random.between(1, 4) {
        let events = random.pick(&[10, 20, 40]);
        making.some(random, &policy, events);
        making.looks();
    }
    if random.one_in(2) {
        making.hand_over_all(random);
        making.looks();
    }
    making.case()
}

/// Several writers race for one or two registers: all sync, all is handed over but for a little, and those that may
/// write; some a second time, without a sync or with a report in between.
pub fn rivals(random: &mut Random) -> Case {
    let mut making = Making::fresh(any_version(random), random.pick(&[2, 2, 3, 3, 4, 5]));
    let n = making.state.n;
    let first = random.between(1, 8);
    let registers = [first, first, 1 + first % 8];
    let mut policy = Policy::random(random);
    (policy.send, policy.read, policy.stop) = (usize::MAX, usize::MAX, random.pick(&[50, usize::MAX]));
    for _ in 0..random.between(1, 3) {
        for c in 1..=n {
            making.event(sync(c));
        }
        if random.one_in(4) {
            let events = random.between(n * n, 2 * n * n);
            making.some(random, &policy, events);
        } else {
            making.hand_over_all(random);
        }
        for c in with_none_pending(&making.state) {
            let again = random.below(6);
            if again == 0 {
                making.event(report_in(making.version, c, 3));
            }
            if again == 1 {
                making.event(boundary_write(random, c));
            }
            making.event(write(c, random.pick(&registers), any_value(random)));
            let events = random.pick(&[0, 0, 1, 4]);
            making.some(random, &policy, events);
        }
        let events = random.pick(&[0, n * n, 3 * n * n]);
        making.some(random, &policy, events);
        making.looks();
    }
    making.hand_over_all(random);
    making.looks();
    making.case()
}

/// A message is finished with the help of few, and then a sync of another controller, which mostly lacks it; and so on.
/// Some reports are left under way, some senders stop, and most moments are read.
pub fn readings(random: &mut Random) -> Case {
    let (version, n) = (any_version(random), random.pick(&[1, 2, 3, 3, 3, 4, 5, 5, 7]));
    let mut making = Making::fresh(version, n);
    for _ in 0..random.between(1, 4) {
        let sender = random.between(1, n);
        match random.below(4) {
            0 => making.reports(random, sender, 3),
            1 => _ = making.event(sync(sender)),
            2 => {
                making.event(sync(sender));
                making.finish(random, sender);
                making.event(write(sender, 1, any_value(random)));
            }
            _ => making.reports(random, sender, 1),
        }
        if !random.one_in(8) {
            making.finish(random, sender);
        }
        if random.one_in(8) {
            let kept = highest_read(&making.state, sender);
            making.event(stop(sender, kept));
        }
        if random.one_in(2) {
            making.reads();
        }
        let reader = 1 + (sender + random.below(n.max(2) - 1)) % n;
        making.event(sync(reader));
        making.counts(random);
        making.finish(random, reader);
        making.reads();
    }
    making.case()
}

/// Many boundary records after a short run.
pub fn boundaries(random: &mut Random) -> Case {
    let (version, n) = (any_version(random), random.between(1, 7));
    let mut state = State::fresh(version, n);
    let policy = Policy::random(random);
    let events = random.below(40);
    let mut calls = as_calls(legal_run(random, &mut state, &policy, events));
    calls.extend(any_calls(random, &mut state, 40, 1));
    Case { head: Head::Fresh { version, n }, calls }
}

/// Questions 2 and 3 of a request for a fresh table: any version and any n, and calls on what it answers.
pub fn fresh_any(random: &mut Random) -> Case {
    let (near, n) = (any_version(random), random.between(1, 7));
    let version = if random.one_in(2) { near } else { any_number(random, 2) };
    let calls = vec![Call::Look(1), Call::Look(0), Call::Event { bytes: report_in(near, 1, 5), scratch: SCRATCH }];
    Case { head: Head::Fresh { version, n: any_number(random, n) }, calls }
}
