//! What is promised of the dispatcher over one list of calls, from arguments and answers alone: it is fair, its
//! handovers are bounded, and "none" is the end. The ledger says which entries wait; here stand the handovers and their
//! order.

use super::demand3::Pair;
use std::collections::VecDeque;

/// The most handovers of a list: 64 entries of each of 7 logs, each read by 7 controllers.
pub const MOST_HANDOVERS: usize = 64 * 7 * 7;

/// An entry that waits: the pair for whose receiver, which runs, it is the next of the owner's log, and its place
/// there, from 0.
pub type Waiting = (Pair, usize);

/// A moment right before a handover of the dispatcher: how many it had made in the list, how many were made in all, and
/// what waited.
struct Moment {
    made: usize,
    handovers: usize,
    waiting: Vec<Waiting>,
}

/// How often the list had something to check.
#[derive(Default)]
pub struct Tally {
    /// Handovers of the dispatcher, and how often it said "none".
    pub made: usize,
    pub nones: usize,
    /// Stretches of n x n of its handovers, each naming the pair of the one before it, without a stop.
    pub rounds: usize,
    /// Those of them in which other calls than the dispatcher's moved the list on.
    pub mixed: usize,
    /// Entries that were read by the last of n x n handovers, and by none before.
    pub last_moment: usize,
}

impl Tally {
    pub fn add(&mut self, other: &Tally) {
        self.made += other.made;
        self.nones += other.nones;
        self.rounds += other.rounds;
        self.mixed += other.mixed;
        self.last_moment += other.last_moment;
    }
}

pub struct Dispatched {
    n: usize,
    /// All handovers of the list, the dispatcher's and others.
    handovers: usize,
    /// The moments before the latest handovers of the dispatcher, back to the first from which on each handover names
    /// the pair of the one before it and nobody stops.
    moments: VecDeque<Moment>,
    last: Option<Pair>,
    pub tally: Tally,
}

impl Dispatched {
    pub fn new(n: usize) -> Dispatched {
        Dispatched { n, handovers: 0, moments: VecDeque::new(), last: None, tally: Tally::default() }
    }

    /// An accepted handover, the dispatcher's or another.
    pub fn handover(&mut self) -> Result<(), String> {
        self.handovers += 1;
        match self.handovers {
            0..=MOST_HANDOVERS => Ok(()),
            more => Err(format!("not bounded: handover {more} of one list")),
        }
    }

    /// An accepted stop: no stretch goes on beyond it.
    pub fn stop(&mut self) {
        self.moments.clear();
    }

    /// A call of the dispatcher that names numbers from 1 to n and is lent enough scratch is not refused.
    pub fn refused(&self, named: Pair, enough: bool, number: u8) -> Result<(), String> {
        let known = |c: usize| (1..=self.n).contains(&c);
        match enough && known(named.0) && known(named.1) {
            true => Err(format!("not bounded: the dispatcher is refused by {number} where it names {named:?}")),
            false => Ok(()),
        }
    }

    /// The dispatcher says "none" where these wait.
    pub fn none(&mut self, waiting: &[Waiting]) -> Result<(), String> {
        self.tally.nones += 1;
        match waiting.first() {
            Some(((r, o), place)) => {
                Err(format!("none is not the end: {r} runs and has not read entry {} of log {o}", place + 1))
            }
            None => Ok(()),
        }
    }

    /// The moment before a handover of the dispatcher that names a pair.
    pub fn before(&mut self, named: Pair, waiting: Vec<Waiting>) {
        if self.last != Some(named) {
            self.moments.clear();
        }
        self.moments.push_back(Moment { made: self.tally.made, handovers: self.handovers, waiting });
    }

    /// The moment after it. Once n x n handovers were made since an earlier moment, all that waited there has been
    /// read. `read` says how many entries of a pair's log its receiver has read by now.
    pub fn after(&mut self, pair: Pair, read: impl Fn(Pair) -> usize) -> Result<(), String> {
        self.tally.made += 1;
        self.last = Some(pair);
        let Some(Moment { made, handovers, waiting }) = self.moments.front() else { return Ok(()) };
        if self.tally.made < made + self.n * self.n {
            return Ok(());
        }
        let unread = waiting.iter().find(|(pair, place)| read(*pair) <= *place);
        if let Some(((r, o), place)) = unread {
            return Err(format!(
                "unfair: entry {} of log {o} waited for {r} before handover {} of the dispatcher, \
                 and waits after handover {}",
                place + 1,
                made + 1,
                self.tally.made
            ));
        }
        self.tally.rounds += 1;
        self.tally.mixed += (self.handovers - handovers > self.n * self.n) as usize;
        self.tally.last_moment += waiting.iter().any(|(x, place)| *x == pair && read(pair) == place + 1) as usize;
        self.moments.pop_front();
        Ok(())
    }
}
