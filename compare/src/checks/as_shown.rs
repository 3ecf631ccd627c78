//! What is promised of asks and commits over one list of calls, from arguments and answers alone: an ask answers how often
//! its receiver has acted; a commit with that count takes the set that was shown; and it is accepted as long as the
//! receiver has not acted, unless the entry was cut away. The ledger says who acts and which entries there are; here
//! stand the acts, and what was shown.

use super::demand3::{Name, Pair};
use std::collections::HashMap;

/// What an accepted ask showed: its count and its set; and, by the list, how often its receiver had acted before it, and
/// how often all controllers together.
struct Shown {
    count: usize,
    set: Vec<Name>,
    acts: usize,
    of_all: usize,
}

/// A commit: its pair, the count that it gives back, whether it is lent enough scratch, and whether its receiver has an
/// entry of the owner's log unread.
pub struct Commit {
    pub pair: Pair,
    pub count: usize,
    pub enough: bool,
    pub unread: bool,
}

/// How often the list had something to check.
#[derive(Default)]
pub struct Tally {
    /// Accepted asks, and those of them that showed a set.
    pub asks: usize,
    pub sets: usize,
    /// Commits that took what was shown, those of them with a set, and those before which others had acted since.
    pub taken: usize,
    pub taken_sets: usize,
    pub others_acted: usize,
    /// Commits of what was shown that found the entry cut away, and those before which the receiver had acted.
    pub cut_away: usize,
    pub acted: usize,
    /// Handovers of what was shown before which the receiver had not acted, by any call.
    pub handed: usize,
}

impl Tally {
    pub fn add(&mut self, other: &Tally) {
        self.asks += other.asks;
        self.sets += other.sets;
        self.taken += other.taken;
        self.taken_sets += other.taken_sets;
        self.others_acted += other.others_acted;
        self.cut_away += other.cut_away;
        self.acted += other.acted;
        self.handed += other.handed;
    }
}

pub struct AsShown {
    /// How often each controller has sent a message, was the receiver of a handover or stopped.
    acts: Vec<usize>,
    shown: HashMap<Pair, Vec<Shown>>,
    pub tally: Tally,
}

impl AsShown {
    pub fn new(n: usize) -> AsShown {
        AsShown { acts: vec![0; n], shown: HashMap::new(), tally: Tally::default() }
    }

    /// A controller sends a message, is the receiver of a handover or stops.
    pub fn act(&mut self, c: usize) {
        self.acts[c - 1] += 1;
    }

    /// How often a controller has acted.
    pub fn acts(&self, c: usize) -> usize {
        self.acts[c - 1]
    }

    /// An accepted ask with its answer: it counts the acts of its receiver.
    pub fn ask(&mut self, pair: Pair, count: usize, set: &[Name]) -> Result<(), String> {
        let (acts, of_all) = (self.acts(pair.0), self.acts.iter().sum());
        self.tally.asks += 1;
        self.tally.sets += !set.is_empty() as usize;
        self.shown.entry(pair).or_default().push(Shown { count, set: set.to_vec(), acts, of_all });
        match count == acts {
            true => Ok(()),
            false => Err(format!("acts: {} has acted {acts} times, and an ask answers {count}", pair.0)),
        }
    }

    /// What was shown of a pair to the callers who were given this count.
    fn with_count(&self, pair: Pair, count: usize) -> impl Iterator<Item = &Shown> {
        self.shown.get(&pair).into_iter().flatten().filter(move |shown| shown.count == count)
    }

    /// An accepted commit, before its handover: it takes the set that was shown with its count, whatever stood in between.
    pub fn accepted(&mut self, Commit { pair, count, .. }: &Commit, set: &[Name]) -> Result<(), String> {
        let other = self.with_count(*pair, *count).find(|shown| shown.set != set);
        if let Some(Shown { set: shown, .. }) = other {
            return Err(format!("not as shown: a commit of {pair:?} takes {set:?}, and {shown:?} was shown"));
        }
        let first = self.with_count(*pair, *count).next().map(|shown| shown.of_all);
        if let Some(of_all) = first {
            self.tally.taken += 1;
            self.tally.taken_sets += !set.is_empty() as usize;
            self.tally.others_acted += (self.acts.iter().sum::<usize>() > of_all) as usize;
        }
        Ok(())
    }

    /// A refused commit: what was shown with its count is not refused with enough scratch as long as the receiver has not
    /// acted, but by 13 if the entry was cut away.
    pub fn refused(&mut self, commit: &Commit, number: u8) -> Result<(), String> {
        let Commit { pair, count, enough, unread } = *commit;
        let acts = self.acts.get(pair.0.wrapping_sub(1)).copied();
        let (now, before): (Vec<&Shown>, Vec<&Shown>) =
            self.with_count(pair, count).partition(|shown| Some(shown.acts) == acts);
        let (due, acted) = (enough && !now.is_empty(), now.is_empty() && !before.is_empty());
        self.tally.acted += acted as usize;
        match (due, unread) {
            (true, false) if number == 13 => self.tally.cut_away += 1,
            (true, _) => {
                let r = pair.0;
                return Err(format!(
                    "not taken: a commit of {pair:?} is refused by {number}, and {r} has not acted since"
                ));
            }
            _ => {}
        }
        Ok(())
    }

    /// A handover of a pair, by whichever call, before it counts as an act: it applies what was shown, if the receiver has
    /// not acted since.
    pub fn handover(&mut self, pair: Pair, set: &[Name]) -> Result<(), String> {
        let acts = self.acts(pair.0);
        let mut since = self.shown.get(&pair).into_iter().flatten().filter(|shown| shown.acts == acts).peekable();
        self.tally.handed += since.peek().is_some() as usize;
        match since.find(|shown| shown.set != set) {
            Some(Shown { set: shown, .. }) => {
                Err(format!("not as shown: a handover of {pair:?} applies {set:?}, and {shown:?} was shown"))
            }
            None => Ok(()),
        }
    }
}
