//! Random cases with asks and commits: what stands between an ask and its commit, of others and of the receiver; stops
//! that cut the entry away, that keep it, and of the receiver; counts that are not the receiver's; and every pair of a
//! table.

use super::files::legal_file;
use super::odd::{any_asked, any_calls, any_number, any_pair, any_scratch, any_version, as_calls};
use super::random::Random;
use super::runs::{drain, follow, follow_commit, follow_dispatch, highest_read, legal_event, legal_run, Policy};
use super::tables::good_table;
use crate::cases::records::{handover, local_read, report_in, stop, sync, write};
use crate::cases::{Asked, Call, Case, Head};
use crate::engines::pair;
use crate::reference::calls::numbered;
use crate::reference::{to_state, State, LISTING, SCRATCH};
use furnacejade::{Pair, CONTROLLERS};

/// A count for a commit where this is the receiver's: mostly this one, and else one too old, one too high, none, the
/// greatest, or one that is equal in fewer bits.
pub fn any_acts(random: &mut Random, acts: usize) -> usize {
    match random.below(3) {
        0 => {
            let other = [acts.wrapping_sub(1), acts + 1, 0, usize::MAX, acts + 2, acts + 256, acts + (1 << 32)];
            random.pick(&other)
        }
        _ => acts,
    }
}

/// The act count of any controller; 0 if there is none of that number.
fn acts_of(state: &State, c: usize) -> usize {
    if (1..=state.n).contains(&c) {
        state.acts(c)
    } else {
        0
    }
}

/// An ask of any pair, or a commit, which mostly gives its receiver's count.
pub fn any_preview(random: &mut Random, state: &mut State, odd: usize) -> Call {
    let waiting = waiting(state);
    let pair = if waiting.is_empty() || random.one_in(4) { any_pair(random, state.n) } else { random.pick(&waiting) };
    let scratch = if random.one_in(odd) { any_scratch(random) } else { SCRATCH };
    if random.one_in(2) {
        return Call::Ask { pair, scratch };
    }
    let acts = any_acts(random, acts_of(state, pair.receiver));
    follow_commit(state, pair, acts, scratch);
    Call::Commit { pair, acts, scratch }
}

/// Asks of every pair of n controllers, of numbers that are no controller's, and of some that are equal to one in fewer bits.
pub fn every_ask(random: &mut Random, n: usize) -> Vec<Call> {
    let n = n.clamp(1, CONTROLLERS);
    let mut pairs: Vec<Pair> =
        (0..=n + 1).flat_map(|receiver| (0..=n + 1).map(move |owner| Pair { receiver, owner })).collect();
    pairs.extend([(255, 1), (1, 255), (257, 1), (1, 257), (usize::MAX, 1), (1, usize::MAX)].map(pair));
    pairs.into_iter().map(|pair| Call::Ask { pair, scratch: any_scratch(random) }).collect()
}

/// The pairs of which the handover would be accepted.
fn waiting(state: &State) -> Vec<Pair> {
    let pairs = (1..=state.n).flat_map(|receiver| (1..=state.n).map(move |owner| Pair { receiver, owner }));
    let waits = |pair: &Pair| {
        let (reader, owner) = (&state.controllers[pair.receiver - 1], &state.controllers[pair.owner - 1]);
        reader.running && reader.read[pair.owner - 1] < owner.log.len()
    };
    pairs.filter(waits).collect()
}

/// What stands between an ask and its commit: events of others, calls of the receiver that are no acts, or both; an act of
/// the receiver; a stop of the owner that cuts away all that it can, or less; a stop of the receiver.
#[derive(Clone, Copy)]
enum Between {
    Nothing,
    Others,
    NoActs,
    Both,
    Act,
    Cut,
    StopOfOwner,
    StopOfReceiver,
}

const BETWEEN: [Between; 12] = [
    Between::Nothing,
    Between::Others,
    Between::Others,
    Between::NoActs,
    Between::NoActs,
    Between::Both,
    Between::Act,
    Between::Act,
    Between::Cut,
    Between::Cut,
    Between::StopOfOwner,
    Between::StopOfReceiver,
];

/// A list that is made call by call, with the state that it leaves.
struct Previewing {
    state: State,
    policy: Policy,
    calls: Vec<Call>,
}

impl Previewing {
    fn new(state: State, random: &mut Random) -> Previewing {
        Previewing { state, policy: Policy::random(random), calls: vec![] }
    }

    fn event(&mut self, bytes: Vec<u8>) -> u8 {
        let number = follow(&mut self.state, &bytes, SCRATCH);
        self.calls.push(Call::Event { bytes, scratch: SCRATCH });
        number
    }

    fn some(&mut self, random: &mut Random, events: usize) {
        let run = legal_run(random, &mut self.state, &self.policy, events);
        self.calls.extend(as_calls(run));
    }

    /// Answers the receiver's act count, as the ask does if it is accepted.
    fn ask(&mut self, pair: Pair, scratch: usize) -> usize {
        self.calls.push(Call::Ask { pair, scratch });
        acts_of(&self.state, pair.receiver)
    }

    fn commit(&mut self, pair: Pair, acts: usize, scratch: usize) {
        follow_commit(&mut self.state, pair, acts, scratch);
        self.calls.push(Call::Commit { pair, acts, scratch });
    }

    /// Legal events of controllers other than this one.
    fn others(&mut self, random: &mut Random, receiver: usize, events: usize) {
        for _ in 0..events {
            let event = legal_event(random, &self.state, &self.policy);
            if let Some(bytes) = event.filter(|bytes| usize::from(bytes[2]) != receiver) {
                self.event(bytes);
            }
        }
    }

    /// Calls of a controller that are no acts: local reads, looks, counts and asks, and events that are refused.
    fn no_acts(&mut self, random: &mut Random, pair: Pair) {
        let r = pair.receiver;
        self.event(local_read(r));
        self.calls.push(Call::Look(r));
        let asked = Asked { controller: r, ..any_asked(random, &self.state) };
        self.calls.push(Call::CountBefore(asked));
        let owner = random.between(1, self.state.n);
        self.ask(Pair { receiver: r, owner }, any_scratch(random));
        let bytes = random.pick(&[[3, 3, r as u8, 0], [3, 3, 0, r as u8]]).to_vec();
        self.event(bytes);
        let acts = acts_of(&self.state, r);
        self.commit(pair, random.pick(&[acts + 1, usize::MAX, acts.wrapping_sub(1)]), SCRATCH);
    }

    /// An act of a controller, if it has one: a report, a sync, a write if it may, or a handover by a record, the
    /// dispatcher or a commit.
    fn act(&mut self, random: &mut Random, r: usize) {
        let owners: Vec<Pair> = waiting(&self.state).into_iter().filter(|pair| pair.receiver == r).collect();
        match random.below(6) {
            0 => _ = self.event(report_in(self.state.version, r, 5)),
            1 => _ = self.event(sync(r)),
            2 => _ = self.event(write(r, 1, 7)),
            3 if !owners.is_empty() => {
                let named = self.before(random.pick(&owners));
                follow_dispatch(&mut self.state, named, SCRATCH);
                self.calls.push(Call::Dispatch { named, scratch: SCRATCH });
            }
            4 if !owners.is_empty() => _ = self.event(handover(r, random.pick(&owners).owner)),
            _ if !owners.is_empty() => {
                let acts = acts_of(&self.state, r);
                self.commit(random.pick(&owners), acts, SCRATCH);
            }
            _ => _ = self.event(report_in(self.state.version, r, -5)),
        }
    }

    /// The pair that the dispatcher is told to serve this one next.
    fn before(&self, Pair { receiver, owner }: Pair) -> Pair {
        let n = self.state.n;
        match (receiver, owner) {
            (1, 1) => Pair { receiver: n, owner: n },
            (_, 1) => Pair { receiver: receiver - 1, owner: n },
            _ => Pair { receiver, owner: owner - 1 },
        }
    }

    /// A stop of the owner of a pair. If `cut`, it keeps no more than it must.
    fn stop_owner(&mut self, random: &mut Random, pair: Pair, cut: bool) {
        let (low, high) = (highest_read(&self.state, pair.owner), self.state.controllers[pair.owner - 1].log.len());
        let kept = if cut { low } else { random.between(low, high) };
        self.event(stop(pair.owner, kept));
    }

    /// What stands between an ask of a pair and its commit.
    fn between(&mut self, random: &mut Random, pair: Pair, what: Between) {
        let events = random.pick(&[1, 3, 10]);
        match what {
            Between::Nothing => {}
            Between::Others => self.others(random, pair.receiver, events),
            Between::NoActs => self.no_acts(random, pair),
            Between::Both => {
                self.others(random, pair.receiver, events);
                self.no_acts(random, pair);
                self.others(random, pair.receiver, events);
            }
            Between::Act => self.act(random, pair.receiver),
            Between::Cut => self.stop_owner(random, pair, true),
            Between::StopOfOwner => self.stop_owner(random, pair, false),
            Between::StopOfReceiver => {
                let kept = highest_read(&self.state, pair.receiver);
                self.event(stop(pair.receiver, kept));
            }
        }
    }

    /// Whether nobody has read the entry that is next for a pair, so that a stop of its owner can cut it away.
    fn is_loose(&self, pair: Pair) -> bool {
        let place = self.state.controllers[pair.receiver - 1].read[pair.owner - 1];
        pair.receiver != pair.owner && highest_read(&self.state, pair.owner) <= place
    }

    fn applies(&self, pair: Pair) -> bool {
        self.state.ask(numbered(pair), &mut [0; SCRATCH]).is_ok_and(|shown| !shown.set.is_empty())
    }

    /// A pair that waits, if there is one: one whose next entry nobody has read, if there is one and it is to be cut away;
    /// and else often one that would apply a set.
    fn pair(&self, random: &mut Random, cut: bool) -> Pair {
        let all = waiting(&self.state);
        let some: Vec<Pair> = match cut {
            true => all.iter().filter(|pair| self.is_loose(**pair)).copied().collect(),
            false if random.one_in(2) => all.iter().filter(|pair| self.applies(**pair)).copied().collect(),
            false => vec![],
        };
        match (some.is_empty(), all.is_empty()) {
            (false, _) => random.pick(&some),
            (_, false) => random.pick(&all),
            _ => pair((random.between(1, self.state.n), random.between(1, self.state.n))),
        }
    }

    /// Looks at a set and takes it, or is refused: an ask, something in between, a commit, and often one more.
    fn look_and_take(&mut self, random: &mut Random) {
        let what = random.pick(&BETWEEN);
        let pair = self.pair(random, matches!(what, Between::Cut));
        let shown = self.ask(pair, any_scratch(random));
        self.between(random, pair, what);
        let (acts, scratch) = (any_acts(random, shown), any_scratch(random));
        self.commit(pair, acts, scratch);
        match random.below(4) {
            0 => self.commit(pair, shown, SCRATCH),
            1 => {
                let owner = random.between(1, self.state.n);
                self.commit(Pair { receiver: pair.receiver, owner }, shown, SCRATCH);
            }
            2 => _ = self.ask(pair, SCRATCH),
            _ => {}
        }
    }

    /// Several supervisors ask, and then each commits in turn.
    fn several(&mut self, random: &mut Random) {
        let asked: Vec<(Pair, usize)> = (0..random.between(2, 5))
            .map(|_| {
                let pair = self.pair(random, false);
                (pair, self.ask(pair, SCRATCH))
            })
            .collect();
        for (pair, acts) in asked {
            self.commit(pair, acts, SCRATCH);
        }
    }

    fn go_on(&mut self, random: &mut Random) {
        for _ in 0..random.between(2, 8) {
            let events = random.pick(&[0, 1, 4, 12]);
            self.some(random, events);
            match random.below(5) {
                0 => self.several(random),
                _ => self.look_and_take(random),
            }
        }
    }
}

fn any_n(random: &mut Random) -> usize {
    random.pick(&[1, 2, 2, 3, 3, 3, 4, 5, 7])
}

/// Asks and commits from a fresh table. A third of the lists are handed over to the end.
pub fn previewed(random: &mut Random) -> Case {
    let (version, n) = (any_version(random), any_n(random));
    let mut making = Previewing::new(State::fresh(version, n), random);
    making.go_on(random);
    if random.one_in(3) {
        let run = drain(random, &mut making.state);
        making.calls.extend(as_calls(run));
        making.look_and_take(random);
    }
    Case { head: Head::Fresh { version, n }, calls: making.calls }
}

/// Asks and commits on the last table of a file, and every pair of it.
pub fn previewed_after_file(random: &mut Random) -> Case {
    let (version, events) = (any_version(random), random.pick(&[0, 5, 20, 40]));
    let (bytes, state) = legal_file(random, version, events, Policy::random);
    let mut making = Previewing::new(state, random);
    making.calls.extend(every_ask(random, making.state.n));
    making.go_on(random);
    Case { head: Head::File { bytes, listing: LISTING, scratch: SCRATCH }, calls: making.calls }
}

/// Asks and commits on a table that mostly no run reaches.
pub fn previewed_table(random: &mut Random) -> Case {
    let (n, count) = (random.between(1, 7), random.pick(&[0, 1, 2, 3, 5, 8, 20]));
    let t = good_table(random, n, count);
    let mut making = Previewing::new(to_state(&t), random);
    making.calls.extend(every_ask(random, n));
    for _ in 0..random.between(1, 4) {
        making.look_and_take(random);
    }
    making.commit(any_pair(random, n), any_number(random, n), SCRATCH);
    let mut calls = std::mem::take(&mut making.calls);
    calls.extend(any_calls(random, &mut making.state, 3, 6));
    Case { head: Head::Table(Box::new(t)), calls }
}
