//! A reading that is never stale, checked over one list of calls. A message is finished by the handover by which its
//! sender applies it, and begun when it is sent. Whatever was finished before a message was begun is found where that
//! message is finished. Only the list's order counts here; which set contains which is not asked.

use super::demand3::{Name, Stamp, Sums};
use std::collections::{BTreeMap, BTreeSet};
use std::rc::Rc;

/// A message that its sender applies: whether it is a sync; and of a write, the register's place and the stamp.
pub struct Own {
    pub name: Name,
    pub sync: bool,
    pub write: Option<(usize, Stamp)>,
}

/// What a panel shows, but for the values.
#[derive(Clone, Default)]
pub struct Shown {
    pub sums: Sums,
    pub classes: [Sums; 5],
    pub stamps: [Stamp; 8],
}

/// What was finished up to some moment.
#[derive(Clone, Default)]
struct Finished {
    messages: BTreeSet<Name>,
    /// The controllers that have finished a sync.
    synced: BTreeSet<usize>,
    /// All that a sender had applied when a message of its own was finished, each with the first such message.
    rested_on: BTreeMap<Name, Name>,
    /// The greatest that the panel of such a sender would then show, of each figure.
    greatest: Shown,
    /// Of each register the greatest stamp of a finished write.
    writes: [Stamp; 8],
}

/// How often the list had something to check.
#[derive(Default)]
pub struct Tally {
    /// Syncs that were finished, and begun after a message of another controller was.
    pub syncs: usize,
    /// Those of them whose sender had not applied all that was finished when they were begun.
    pub lacking: usize,
    /// Those of them that were begun after a sync of another controller was finished.
    pub second_syncs: usize,
    /// Looks that must find a finished write of another controller.
    pub looks: usize,
    /// Local reads that gave less than a controller had when it finished a message.
    pub stale_reads: usize,
}

impl Tally {
    pub fn add(&mut self, other: &Tally) {
        self.syncs += other.syncs;
        self.lacking += other.lacking;
        self.second_syncs += other.second_syncs;
        self.looks += other.looks;
        self.stale_reads += other.stale_reads;
    }
}

pub struct NeverStale {
    now: Rc<Finished>,
    /// What was finished when each message was begun.
    begun: BTreeMap<Name, Rc<Finished>>,
    /// The messages whose sender had not applied all of that.
    lacking: BTreeSet<Name>,
    /// Of each controller, of the messages that it has finished the one begun last, and what was finished before that.
    last: Vec<Option<(Name, Rc<Finished>)>>,
    pub tally: Tally,
}

/// Each sum is no smaller than the other's.
fn no_less(sums: Sums, than: Sums) -> bool {
    sums.0 >= than.0 && sums.1 >= than.1
}

fn greater_of(one: Sums, other: Sums) -> Sums {
    (one.0.max(other.0), one.1.max(other.1))
}

fn holds(right: bool, what: impl FnOnce() -> String) -> Result<(), String> {
    if right {
        Ok(())
    } else {
        Err(what())
    }
}

/// What has been applied where a message is finished has all that was finished before it was begun, and all that this
/// rested on.
fn included(before: &Finished, name: Name, applied: &BTreeSet<Name>) -> Result<(), String> {
    if let Some(x) = before.messages.iter().find(|x| !applied.contains(x)) {
        return Err(format!("not included: {name:?} is finished without {x:?}, finished before it was begun"));
    }
    if let Some((y, x)) = before.rested_on.iter().find(|(y, _)| !applied.contains(y)) {
        return Err(format!(
            "rests on less: {name:?} is finished without {y:?}, on which {x:?} rested, finished before it was begun"
        ));
    }
    Ok(())
}

impl Finished {
    /// The sender of these messages finishes them.
    fn finish(&mut self, own: &[Own], applied: &BTreeSet<Name>, shown: &Shown) {
        for Own { name, sync, write } in own {
            self.messages.insert(*name);
            if *sync {
                self.synced.insert(name.0);
            }
            if let Some((place, stamp)) = *write {
                self.writes[place] = self.writes[place].max(stamp);
            }
            applied.iter().for_each(|x| _ = self.rested_on.entry(*x).or_insert(*name));
        }
        let greatest = &mut self.greatest;
        greatest.sums = greater_of(greatest.sums, shown.sums);
        greatest.classes = std::array::from_fn(|k| greater_of(greatest.classes[k], shown.classes[k]));
        greatest.stamps = std::array::from_fn(|r| greatest.stamps[r].max(shown.stamps[r]));
    }
}

impl NeverStale {
    pub fn new(n: usize) -> NeverStale {
        NeverStale {
            now: Rc::default(),
            begun: BTreeMap::new(),
            lacking: BTreeSet::new(),
            last: vec![None; n],
            tally: Tally::default(),
        }
    }

    /// A message is sent by a controller that has applied these.
    pub fn begin(&mut self, name: Name, applied: &BTreeSet<Name>) {
        self.begun.insert(name, self.now.clone());
        if !self.now.messages.is_subset(applied) {
            self.lacking.insert(name);
        }
    }

    /// A controller applies messages of its own; what it has then applied, and what its panel would then show. That is
    /// worked out from what it has applied, and so is checked where an answer gives it.
    pub fn finish(&mut self, own: &[Own], applied: &BTreeSet<Name>, shown: &Shown) -> Result<(), String> {
        for Own { name, sync, .. } in own {
            let Some(before) = self.begun.get(name) else { continue };
            included(before, *name, applied)?;
            let c = name.0;
            if *sync {
                self.tally.syncs += before.messages.iter().any(|x| x.0 != c) as usize;
                self.tally.lacking += self.lacking.contains(name) as usize;
                self.tally.second_syncs += before.synced.iter().any(|o| *o != c) as usize;
            }
            let last = &mut self.last[c - 1];
            if last.as_ref().map_or(true, |(_, known)| known.messages.len() <= before.messages.len()) {
                *last = Some((*name, before.clone()));
            }
        }
        Rc::make_mut(&mut self.now).finish(own, applied, shown);
        Ok(())
    }

    /// The sums that a finished sync of c answers, that a line of c has, or that a look at c shows.
    pub fn sums(&self, c: usize, sums: Sums) -> Result<(), String> {
        let Some((name, before)) = &self.last[c - 1] else { return Ok(()) };
        let least = before.greatest.sums;
        holds(no_less(sums, least), || {
            format!("reads less: {c} gives {sums:?}, and {least:?} was reached before {name:?} was begun")
        })
    }

    /// What a look at c shows.
    pub fn look(&mut self, c: usize, shown: &Shown) -> Result<(), String> {
        self.sums(c, shown.sums)?;
        let Some((name, before)) = &self.last[c - 1] else { return Ok(()) };
        self.tally.looks += before.writes.iter().any(|stamp| stamp.1 != 0 && stamp.1 != c) as usize;
        for (class, (sums, least)) in shown.classes.into_iter().zip(before.greatest.classes).enumerate() {
            holds(no_less(sums, least), || {
                format!("reads less of class {class}: {c} shows {sums:?}, and {least:?} was reached before {name:?} was begun")
            })?;
        }
        for (place, stamp) in shown.stamps.into_iter().enumerate() {
            let (register, write, least) = (place + 1, before.writes[place], before.greatest.stamps[place]);
            holds(stamp >= write, || {
                format!(
                    "not found: register {register} of {c} bears {stamp:?}, \
                     and {write:?} was finished before {name:?} was begun"
                )
            })?;
            holds(stamp >= least, || {
                format!(
                    "reads earlier: register {register} of {c} bears {stamp:?}, \
                     and {least:?} was reached before {name:?} was begun"
                )
            })?;
        }
        Ok(())
    }

    /// A local read may be stale, and is counted.
    pub fn local_read(&mut self, sums: Sums) {
        self.tally.stale_reads += !no_less(sums, self.now.greatest.sums) as usize;
    }
}
