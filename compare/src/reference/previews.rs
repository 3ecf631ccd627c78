//! Ask and commit: what a handover would apply, how often its receiver has acted, and the handover itself for a caller
//! who gives that count back.

use super::*;

/// What an ask shows: the set that the handover would apply, and its receiver's act count.
#[derive(Clone, PartialEq, Eq, Debug, Default)]
pub struct Preview {
    pub set: Vec<Name>,
    pub acts: usize,
}

impl State {
    /// The act count of controller c: the messages that it sent, those that were cut off too; the handovers to it, which
    /// its read positions in the logs of 1 to n add up to; and its stop.
    pub fn acts(&self, c: usize) -> usize {
        let own = &self.controllers[c - 1];
        let sent = self.messages.iter().filter(|message| message.name.sender == c).count();
        let received: usize = own.read.iter().sum();
        sent + received + usize::from(!own.running)
    }

    /// Question 8, put to both numbers of a pair; then its receiver, and whether the owner's log has an entry that the
    /// receiver has not read.
    fn named(&self, Pair { receiver, owner }: Pair) -> Result<(&Controller, bool), u8> {
        let is_controller = |c: usize| 1 <= c && c <= self.n;
        first_no(&[(8, is_controller(receiver) && is_controller(owner))])?;
        let (reads, log) = (&self.controllers[receiver - 1], &self.controllers[owner - 1].log);
        Ok((reads, reads.read[owner - 1] < log.len()))
    }

    /// An ask on a table that is known to be well formed. It is refused where the handover would be.
    pub fn ask(&self, pair: Pair, scratch: &mut [u8]) -> Result<Preview, u8> {
        let (receiver, unread) = self.named(pair)?;
        first_no(&[(10, receiver.running), (13, unread), (15, scratch.len() >= SCRATCH)])?;
        let set = self.clone().handover(pair.receiver, pair.owner);
        clear(scratch);
        Ok(Preview { set: Vec::from_iter(set), acts: self.acts(pair.receiver) })
    }

    /// A commit on a table that is known to be well formed: exactly the handover, if the count is its receiver's.
    pub fn commit(&mut self, pair: Pair, count: usize, scratch: &mut [u8]) -> Result<Answer, u8> {
        let (receiver, unread) = self.named(pair)?;
        let counted = count == self.acts(pair.receiver);
        first_no(&[(10, receiver.running), (21, counted), (13, unread), (15, scratch.len() >= SCRATCH)])?;
        let answer = self.carry_out(Event::Handover { receiver: pair.receiver, owner: pair.owner });
        clear(scratch);
        Ok(answer)
    }
}
