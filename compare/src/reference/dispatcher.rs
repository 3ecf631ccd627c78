//! The dispatcher: it goes round all pairs of receiver and log owner, beginning after the pair that its caller names,
//! and carries out the first handover that is left.

use super::*;

/// A receiver, and the owner of the log that it reads. Pairs are ordered by receiver and then owner.
#[derive(Clone, Copy, PartialEq, Eq, PartialOrd, Ord, Debug, Default)]
pub struct Pair {
    pub receiver: usize,
    pub owner: usize,
}

/// What the dispatcher answers: the pair that it served, 0 and 0 if it served none, and the answer to that handover.
#[derive(Clone, PartialEq, Eq, Debug, Default)]
pub struct Dispatched {
    pub pair: Pair,
    pub answer: Answer,
}

impl State {
    /// All n x n pairs in order.
    fn pairs(&self) -> Vec<Pair> {
        (1..=self.n).flat_map(|receiver| (1..=self.n).map(move |owner| Pair { receiver, owner })).collect()
    }

    /// All pairs in the order in which they are tried: those after the one named, and then the others, of which the one
    /// named is the last.
    fn round(&self, named: Pair) -> Vec<Pair> {
        let (others, after): (Vec<Pair>, Vec<Pair>) = self.pairs().into_iter().partition(|pair| *pair <= named);
        [after, others].concat()
    }

    /// Is there a handover of this pair? Its receiver runs and has an entry of the log unread. Its owner may have
    /// stopped.
    fn waits(&self, Pair { receiver, owner }: Pair) -> bool {
        let (reader, owned) = (&self.controllers[receiver - 1], &self.controllers[owner - 1]);
        reader.running && reader.read[owner - 1] < owned.log.len()
    }

    /// Question 8, put to both numbers of the pair named; then the pair that is served, if there is one; and question
    /// 15 only if there is.
    fn served(&self, named: Pair, scratch: usize) -> Result<Option<Pair>, u8> {
        let known = |c: usize| (1..=self.n).contains(&c);
        first_no(&[(8, known(named.receiver) && known(named.owner))])?;
        let next = self.round(named).into_iter().find(|pair| self.waits(*pair));
        if next.is_some() {
            first_no(&[(15, SCRATCH <= scratch)])?;
        }
        Ok(next)
    }

    /// The dispatcher call on a table that is known to be well formed.
    pub fn dispatch(&mut self, named: Pair, scratch: &mut [u8]) -> Dispatched {
        match self.served(named, scratch.len()) {
            Ok(Some(pair)) => {
                let Pair { receiver, owner } = pair;
                let answer = self.carry_out(Event::Handover { receiver, owner });
                clear(scratch);
                Dispatched { pair, answer }
            }
            Ok(None) => Dispatched::default(),
            Err(refusal) => Dispatched { pair: Pair::default(), answer: Answer { refusal, ..Answer::default() } },
        }
    }
}
