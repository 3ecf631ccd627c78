//! Random cases with calls of the dispatcher: chains in which each names the pair of the one before it, with other
//! calls in between; runs that it drives to "none", with stops and without; and calls that name anything.

use super::files::legal_file;
use super::odd::{any_calls, any_pair, any_scratch, any_version, as_calls, long_scratch, short_scratch};
use super::previews::every_ask;
use super::random::Random;
use super::runs::{follow_dispatch, highest_read, legal_run, Policy};
use super::tables::good_table;
use crate::cases::records::{report_in, stop};
use crate::cases::{Call, Case, Head};
use crate::reference::{to_state, State, LISTING, SCRATCH};
use furnacejade::Pair;

/// A list that is made call by call, with the state that it leaves and the pair that the dispatcher served last.
struct Dispatching {
    state: State,
    last: Pair,
    calls: Vec<Call>,
}

impl Dispatching {
    fn new(state: State) -> Dispatching {
        let last = Pair { receiver: state.n, owner: state.n };
        Dispatching { state, last, calls: vec![] }
    }

    /// A call of the dispatcher. Answers whether it served a pair.
    fn call(&mut self, named: Pair, scratch: usize) -> bool {
        let served = follow_dispatch(&mut self.state, named, scratch);
        self.calls.push(Call::Dispatch { named, scratch });
        if served != Pair::BLANK {
            self.last = served;
        }
        served != Pair::BLANK
    }

    fn next(&mut self) -> bool {
        self.call(self.last, SCRATCH)
    }

    /// A call that serves nothing, unless it happens to name a pair: another pair, or too little scratch.
    fn odd(&mut self, random: &mut Random) {
        match random.below(3) {
            0 => _ = self.call(any_pair(random, self.state.n), SCRATCH),
            1 => _ = self.call(self.last, any_scratch(random)),
            _ => _ = self.call(self.last, short_scratch(random)),
        }
    }

    fn events(&mut self, run: Vec<Vec<u8>>) {
        self.calls.extend(as_calls(run));
    }

    fn some(&mut self, random: &mut Random, policy: &Policy, events: usize) {
        let run = legal_run(random, &mut self.state, policy, events);
        self.events(run);
    }

    /// A number of calls, of which one in `among` is another than the next of the chain: an event, or an odd one.
    fn chain(&mut self, random: &mut Random, policy: &Policy, calls: usize, among: usize) {
        for _ in 0..calls {
            match random.below(2 * among) {
                0 => self.some(random, policy, 1),
                1 => self.odd(random),
                _ => _ = self.next(),
            }
        }
    }

    /// Calls of the dispatcher alone until it says "none", and one more; on the way, some with too little scratch.
    fn drive(&mut self, random: &mut Random) {
        while self.next() {
            if random.one_in(20) {
                self.odd(random);
            }
        }
        self.odd(random);
        self.next();
    }

    /// Stops of some controllers, or of all, each of which keeps all that was read of its log or more.
    fn stops(&mut self, random: &mut Random, among: usize) {
        for c in 1..=self.state.n {
            if self.state.controllers[c - 1].running && random.one_in(among) {
                let (low, high) = (highest_read(&self.state, c), self.state.controllers[c - 1].log.len());
                let bytes = stop(c, random.between(low, high));
                self.state.event(&bytes, &mut [0; SCRATCH]);
                self.events(vec![bytes]);
            }
        }
    }

    fn looks(&mut self) {
        self.calls.extend((1..=self.state.n).map(Call::Look));
    }
}

fn any_n(random: &mut Random) -> usize {
    random.pick(&[1, 2, 2, 3, 3, 3, 4, 5, 7])
}

/// Chains with other calls in between, from a fresh table. Half of the lists are driven to "none".
pub fn dispatched(random: &mut Random) -> Case {
    let (version, n) = (any_version(random), any_n(random));
    let mut making = Dispatching::new(State::fresh(version, n));
    let policy = Policy::random(random);
    for _ in 0..random.between(1, 3) {
        let (events, calls) = (random.pick(&[1, 4, 12]), random.pick(&[1, n * n, n * n + n]));
        making.some(random, &policy, events);
        let among = random.pick(&[2, 5, 20]);
        making.chain(random, &policy, calls, among);
    }
    if random.one_in(2) {
        making.drive(random);
        making.looks();
    }
    Case { head: Head::Fresh { version, n }, calls: making.calls }
}

/// Several reports and then the dispatcher alone, to "none"; in half of the runs after stops, some of which leave a
/// majority, some less and some nobody. A few runs stop somebody on the way.
pub fn driven(random: &mut Random) -> Case {
    let (version, n) = (any_version(random), any_n(random));
    let mut making = Dispatching::new(State::fresh(version, n));
    let most = random.pick(&[1, 2, 4]);
    for c in 1..=n {
        let run: Vec<Vec<u8>> = (0..random.between(0, most)).map(|_| report_in(version, c, 5)).collect();
        run.iter().for_each(|bytes| _ = making.state.event(bytes, &mut [0; SCRATCH]));
        making.events(run);
    }
    let calls = random.pick(&[0, n, 2 * n * n]);
    making.chain(random, &Policy::even(6), calls, 10);
    if random.one_in(2) {
        let among = random.pick(&[1, 2, 3, 5]);
        making.stops(random, among);
    }
    making.drive(random);
    making.looks();
    if random.one_in(4) {
        making.stops(random, 2);
        making.drive(random);
    }
    Case { head: Head::Fresh { version, n }, calls: making.calls }
}

/// A file, and the dispatcher on its last table.
pub fn after_file(random: &mut Random) -> Case {
    let (version, events) = (any_version(random), random.pick(&[0, 5, 20, 40]));
    let (bytes, state) = legal_file(random, version, events, Policy::random);
    let mut making = Dispatching::new(state);
    let policy = Policy::random(random);
    let calls = random.pick(&[3, 20, 60]);
    making.chain(random, &policy, calls, 5);
    if random.one_in(3) {
        making.drive(random);
    }
    Case { head: Head::File { bytes, listing: LISTING, scratch: SCRATCH }, calls: making.calls }
}

/// Every pair of a table, named with too little scratch, which leaves the table as it is, and then a chain from any of
/// them; pairs of which one number or both are off; and other calls.
pub fn on_table(random: &mut Random) -> Case {
    let (n, count) = (random.between(1, 7), random.pick(&[0, 1, 2, 3, 5, 8, 20, 64]));
    let t = good_table(random, n, count);
    let mut making = Dispatching::new(to_state(&t));
    making.calls.extend(every_ask(random, n));
    if random.one_in(4) {
        for (receiver, owner) in (0..=n + 1).flat_map(|r| (0..=n + 1).map(move |o| (r, o))) {
            making.call(Pair { receiver, owner }, short_scratch(random));
        }
    }
    for _ in 0..random.between(1, 6) {
        let scratch = if random.one_in(2) { SCRATCH } else { long_scratch(random) };
        making.call(any_pair(random, n), scratch);
    }
    let calls = if count > 8 { random.between(1, 6) } else { random.pick(&[4, n * n, 3 * n * n]) };
    making.chain(random, &Policy::even(3), calls, 20);
    let mut calls = std::mem::take(&mut making.calls);
    calls.extend(any_calls(random, &mut making.state, 3, 6));
    Case { head: Head::Table(Box::new(t)), calls }
}
