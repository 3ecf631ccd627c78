//! What a caller asks of a table: the latest message of a sender, the standing of a message at a controller, how many
//! entries are unread, which lengths a stop may keep, and whether a controller runs. It is worked out twice: from a
//! state that a run has reached, in the words of docs/RULES.md; and from any bytes, by the places of a table's fields.

use super::*;

/// The standing of a message at a controller (sections 3 and 9).
#[derive(Clone, Copy, PartialEq, Eq, PartialOrd, Ord, Debug)]
pub enum Standing {
    Unknown,
    Pending,
    Applied,
    CutOff,
}

/// Whatever answers what a caller asks of a table. A controller is any number.
pub trait Says {
    fn latest(&self, sender: usize) -> Option<Name>;
    fn standing(&self, c: usize, x: &Name) -> Standing;
    fn unread(&self, receiver: usize, owner: usize) -> usize;
    /// The least length and the greatest; none if there is no such controller.
    fn kept(&self, c: usize) -> Option<(usize, usize)>;
    fn runs(&self, c: usize) -> bool;
}

impl State {
    fn controller(&self, c: usize) -> Option<&Controller> {
        self.controllers.get(c.checked_sub(1)?)
    }

    /// Section 9: its sender has stopped, and its entry in the sender's own log went with the cut.
    fn cut_off(&self, x: &Name) -> bool {
        let sent = self.messages.iter().any(|message| message.name == *x);
        let gone = |sender: &Controller| !sender.running && !sender.log.contains(x);
        sent && self.controller(x.sender).is_some_and(gone)
    }
}

/// A state that a run has reached.
impl Says for State {
    /// Messages stand in the order sent, so the latest is the last.
    fn latest(&self, sender: usize) -> Option<Name> {
        self.messages.iter().rev().map(|message| message.name).find(|name| name.sender == sender)
    }

    fn standing(&self, c: usize, x: &Name) -> Standing {
        match self.controller(c) {
            Some(at) if at.applied.contains(x) => Standing::Applied,
            Some(_) if self.cut_off(x) => Standing::CutOff,
            Some(at) if at.pending.contains_key(x) => Standing::Pending,
            _ => Standing::Unknown,
        }
    }

    fn unread(&self, receiver: usize, owner: usize) -> usize {
        let (Some(reader), Some(owned)) = (self.controller(receiver), self.controller(owner)) else { return 0 };
        owned.log[reader.read[owner - 1]..].len()
    }

    fn kept(&self, c: usize) -> Option<(usize, usize)> {
        let longest = self.controller(c)?.log.len();
        let read_within = |kept: &usize| self.controllers.iter().all(|reader| reader.read[c - 1] <= *kept);
        Some(((0..=longest).find(read_within)?, longest))
    }

    fn runs(&self, c: usize) -> bool {
        self.controller(c).is_some_and(|controller| controller.running)
    }
}

/// The bytes of a table, whatever they are, as far as these answers need them. Of its controllers and messages it has
/// those that are counted and have a place.
pub struct Raw {
    /// The first slot of each name.
    slots: BTreeMap<Name, usize>,
    controllers: Vec<RawController>,
}

struct RawController {
    length: usize,
    read: Vec<usize>,
    held: BTreeSet<usize>,
    applied: BTreeSet<usize>,
    running: bool,
}

/// Where the fields of a table stand, in bytes, and how far apart those of a list are.
const N_AT: usize = 8;
const COUNT_AT: usize = 16;
const MESSAGES_AT: usize = 24;
const MESSAGE_SIZE: usize = 16;
const CONTROLLERS_AT: usize = 1048;
const CONTROLLER_SIZE: usize = 712;
const READ_AT: usize = 72;
const PENDING_AT: usize = 128;
const PENDING_SIZE: usize = 8;
const APPLIED_AT: usize = 640;
const RUNNING_AT: usize = 711;

/// A number of eight bytes, the low byte first.
fn word(bytes: &[u8], at: usize) -> usize {
    bytes[at..at + 8].iter().rev().fold(0, |number, byte| number << 8 | *byte as usize)
}

fn raw_controller(own: &[u8], controllers: usize, messages: usize) -> RawController {
    let marked = |at: usize, size: usize| (0..messages).filter(|slot| own[at + size * slot] != 0).collect();
    RawController {
        length: word(own, 0),
        read: (0..controllers).map(|owner| word(own, READ_AT + 8 * owner)).collect(),
        held: marked(PENDING_AT, PENDING_SIZE),
        applied: marked(APPLIED_AT, 1),
        running: own[RUNNING_AT] != 0,
    }
}

impl Raw {
    pub fn new(bytes: &[u8]) -> Raw {
        let controllers = word(bytes, N_AT).min(MAX_CONTROLLERS);
        let messages = word(bytes, COUNT_AT).min(MAX_MESSAGES);
        let mut slots = BTreeMap::new();
        for slot in 0..messages {
            let at = MESSAGES_AT + MESSAGE_SIZE * slot;
            let name = Name { sender: bytes[at] as usize, number: bytes[at + 1] as usize };
            slots.entry(name).or_insert(slot);
        }
        let own = |c: usize| &bytes[CONTROLLERS_AT + CONTROLLER_SIZE * c..][..CONTROLLER_SIZE];
        let controllers = (0..controllers).map(|c| raw_controller(own(c), controllers, messages)).collect();
        Raw { slots, controllers }
    }

    fn controller(&self, c: usize) -> Option<&RawController> {
        self.controllers.get(c.checked_sub(1)?)
    }
}

impl Says for Raw {
    /// Names are in order, by sender and then number.
    fn latest(&self, sender: usize) -> Option<Name> {
        self.controller(sender)?;
        let own = Name { sender, number: 0 }..Name { sender: sender + 1, number: 0 };
        self.slots.range(own).next_back().map(|(name, _)| *name)
    }

    fn standing(&self, c: usize, x: &Name) -> Standing {
        let (Some(at), Some(sender), Some(slot)) = (self.controller(c), self.controller(x.sender), self.slots.get(x))
        else {
            return Standing::Unknown;
        };
        let cut_off = !sender.running && x.number > sender.length;
        match (at.applied.contains(slot), cut_off, at.held.contains(slot)) {
            (true, _, _) => Standing::Applied,
            (_, true, _) => Standing::CutOff,
            (_, _, true) => Standing::Pending,
            _ => Standing::Unknown,
        }
    }

    fn unread(&self, receiver: usize, owner: usize) -> usize {
        let positions = self.controller(receiver).map(|reader| &reader.read);
        let position = positions.and_then(|read| read.get(owner.checked_sub(1)?));
        position.map_or(0, |position| self.controllers[owner - 1].length.saturating_sub(*position))
    }

    fn kept(&self, c: usize) -> Option<(usize, usize)> {
        let longest = self.controller(c)?.length;
        let mut positions: Vec<usize> = self.controllers.iter().map(|reader| reader.read[c - 1]).collect();
        positions.sort();
        Some((*positions.last()?, longest))
    }

    fn runs(&self, c: usize) -> bool {
        self.controller(c).is_some_and(|own| own.running)
    }
}
