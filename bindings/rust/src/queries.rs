//! What a table says of its messages, logs and controllers. These functions read its fields and call no library. They
//! answer for every table, well formed or not: of more than 7 controllers and of more than 64 messages they read those
//! that have a place, and a controller outside 1 to n has no log, has sent nothing and does not run.

use crate::{Controller, Name, Pair, Table, CONTROLLERS};
use core::ops::RangeInclusive;

/// The state of a message at a controller (docs/RULES.md, sections 3 and 9).
#[derive(Clone, Copy, Debug, PartialEq, Eq, Hash)]
pub enum State {
    /// The controller has not heard of the message, or no message of the table has this name.
    Unknown,
    /// The controller has heard of the message and has not applied it.
    Pending,
    /// The controller has applied the message.
    Applied,
    /// The controller has not applied the message and never will: its sender has stopped, and the message's entry in
    /// the sender's log went with the cut. This is the answer at its stopped sender too, though the table still holds the
    /// message as pending there.
    CutOff,
}

impl Table {
    /// The run's controllers, 1 to n.
    #[must_use]
    pub fn controller_numbers(&self) -> RangeInclusive<u8> {
        #[expect(clippy::cast_possible_truncation, reason = "at most 7")]
        let last = self.n.min(CONTROLLERS) as u8;
        1..=last
    }

    /// n and n, the pair with which a round of the dispatcher ends. The first call of [`dispatch`](crate::dispatch) names
    /// it: the pair after it is the first of the next round, 1 and 1.
    #[must_use]
    pub fn end_of_round(&self) -> Pair {
        let last = *self.controller_numbers().end();
        Pair::new(last, last)
    }

    /// The latest message of a sender: of all that it has sent, the one with the greatest number. Right after an
    /// accepted report, sync or write it is the message just sent. Question 20 asks whether it is an applied sync.
    #[must_use]
    pub fn latest(&self, sender: u8) -> Option<Name> {
        self.controller(sender)?;
        let sent = self.messages.iter().take(self.count).filter(|message| message.sender == sender);
        sent.map(|message| message.number).max().map(|number| Name { sender, number })
    }

    /// The state of a message at a controller, which may have stopped.
    #[must_use]
    pub fn state(&self, controller: u8, message: Name) -> State {
        let (Some(at), Some(sender)) = (self.controller(controller), self.controller(message.sender)) else {
            return State::Unknown;
        };
        let named = |slot: &usize| {
            self.messages[*slot].sender == message.sender && self.messages[*slot].number == message.number
        };
        let Some(slot) = (0..self.messages.len().min(self.count)).find(named) else { return State::Unknown };
        if at.applied[slot] != 0 {
            State::Applied
        } else if sender.running == 0 && usize::from(message.number.0) > sender.length {
            State::CutOff
        } else if at.pending[slot].held != 0 {
            State::Pending
        } else {
            State::Unknown
        }
    }

    /// How many entries of the owner's log the receiver has not read. A handover is refused by question 13 if there is
    /// none. A receiver that has stopped keeps its unread entries for good: a loop that hands over asks
    /// [`runs`](Table::runs) too, or lets [`dispatch`](crate::dispatch) choose.
    #[must_use]
    pub fn unread(&self, receiver: u8, owner: u8) -> usize {
        let (Some(log), Some(position)) = (self.controller(owner), self.read_position(receiver, owner)) else {
            return 0;
        };
        log.length.saturating_sub(position)
    }

    /// The lengths that a stop of the controller may keep of its log: from the greatest read position that any
    /// controller has in it to its length. Question 14 asks for one of these. None if there is no such controller. (A
    /// controller that has stopped is not stopped again: question 10 comes first.)
    ///
    /// A length is given as a stop's record has it. One of more than 65,535, which no well-formed table has, is given as
    /// that.
    #[must_use]
    pub fn kept(&self, controller: u8) -> Option<RangeInclusive<u16>> {
        let longest = self.controller(controller)?.length;
        let positions = self.controller_numbers().filter_map(|reader| self.read_position(reader, controller));
        let said = |length| u16::try_from(length).unwrap_or(u16::MAX);
        Some(said(positions.max().unwrap_or(0))..=said(longest))
    }

    /// Whether the controller runs. Question 10 asks that of whoever sends, receives, stops or reads.
    #[must_use]
    pub fn runs(&self, controller: u8) -> bool {
        self.controller(controller).is_some_and(|controller| controller.running != 0)
    }

    fn controller(&self, number: u8) -> Option<&Controller> {
        self.controller_numbers().contains(&number).then(|| &self.controllers[usize::from(number) - 1])
    }

    /// How many entries of the owner's log the reader has read.
    fn read_position(&self, reader: u8, owner: u8) -> Option<usize> {
        self.controller(owner)?;
        Some(self.controller(reader)?.read[usize::from(owner) - 1])
    }
}
