//! A machine that owns its table and its scratch.

use crate::{ask, commit, count_before, dispatch, event, fresh, look};
use crate::{Answer, Asked, DispatchAnswer, Name, Pair, Panel, Preview, Record, Refusal, Table, SCRATCH};
use core::fmt::{Debug, Formatter};
use core::ops::RangeInclusive;

/// A machine: a [`Table`] that is always well formed, and the scratch that events need. It takes 6 KB and allocates
/// nothing.
///
/// ```
/// use furnacejade::{Machine, Record, Refusal, Sums};
///
/// # fn main() -> Result<(), Refusal> {
/// let mut machine = Machine::new(1, 1)?;
/// machine.play(Record::Report { sender: 1, amount: 30 })?;
/// machine.play(Record::Handover { receiver: 1, owner: 1 })?;
/// assert_eq!(machine.look(1)?.sums, Sums { added: 30, withdrawn: 0 });
///
/// // The table can be saved, and the machine goes on from it.
/// let saved = machine.table().clone();
/// assert_eq!(Machine::from_table(saved)?, machine);
/// # Ok(())
/// # }
/// ```
#[derive(Clone, PartialEq, Eq)]
pub struct Machine {
    table: Table,
    scratch: [u8; SCRATCH],
}

impl Machine {
    /// A machine of n controllers, 1 to 7, that all run and have sent nothing. Its version, 1 or 2, says whether its
    /// reports name a class, and stays.
    ///
    /// # Errors
    ///
    /// [`Refusal::Version`] and [`Refusal::ControllerCount`].
    pub fn new(version: u8, n: u8) -> Result<Machine, Refusal> {
        Ok(Machine { table: fresh(version, n)?, scratch: [0; SCRATCH] })
    }

    /// A machine that goes on from a table. The table is tested for its form alone: an amount that was changed from 30
    /// to 31 passes.
    ///
    /// # Errors
    ///
    /// [`Refusal::Table`], if the table is not well formed.
    pub fn from_table(table: Table) -> Result<Machine, Refusal> {
        // Every well-formed table has a controller 1, so only the table can be refused.
        look(&table, 1)?;
        Ok(Machine { table, scratch: [0; SCRATCH] })
    }

    /// Carries out one event. The answer has the set applied, and the sums of a finished sync or of a local read. A
    /// refused event changes nothing.
    ///
    /// # Errors
    ///
    /// The first question, of those that are put to the record, that is answered no.
    pub fn play(&mut self, record: Record) -> Result<Answer, Refusal> {
        event(&mut self.table, &record.bytes(), &mut self.scratch).map(|(answer, _)| answer)
    }

    /// Makes the next handover after that of the pair named, or gives none if no handover is left: [`dispatch`] in the
    /// machine's table. The machine does not keep the pair: name the pair that was served last, and
    /// [`end_of_round`](Machine::end_of_round) at first.
    ///
    /// # Errors
    ///
    /// [`Refusal::Controller`], unless both numbers of the pair named are from 1 to n.
    pub fn dispatch(&mut self, after: Pair) -> Result<Option<DispatchAnswer>, Refusal> {
        dispatch(&mut self.table, after, &mut self.scratch)
    }

    /// Hands over until no handover is left, every pair in its turn, and gives how many there were. Every running
    /// controller has then read every log to its end. If more than half of all controllers run, each of those that run
    /// has applied all that was sent, less what was cut off.
    ///
    /// The answers of syncs that are finished on the way are not returned. To get them, call
    /// [`dispatch`](Machine::dispatch) in a loop.
    pub fn dispatch_to_end(&mut self) -> usize {
        let (mut last, mut handovers) = (self.end_of_round(), 0);
        // The table is well formed, the pair is one of its own and the scratch is long enough: nothing is refused.
        while let Ok(Some(handed)) = self.dispatch(last) {
            last = handed.pair;
            handovers += 1;
        }
        handovers
    }

    /// Shows the set that a handover would apply, without making it: [`ask`] of the machine's table. The scratch for it
    /// stands on the stack, 64 bytes, so that the machine is only read.
    ///
    /// # Errors
    ///
    /// [`Refusal::Controller`], unless both numbers of the pair are from 1 to n, [`Refusal::Stopped`] and
    /// [`Refusal::NoEntry`].
    pub fn ask(&self, pair: Pair) -> Result<Preview, Refusal> {
        ask(&self.table, pair, &mut [0; SCRATCH])
    }

    /// Makes a handover that was asked about, if its receiver has not acted since: [`commit`] in the machine's table. A
    /// refused commit changes nothing.
    ///
    /// # Errors
    ///
    /// Those of [`ask`](Machine::ask), and [`Refusal::ActCount`].
    pub fn commit(&mut self, asked: Asked) -> Result<Answer, Refusal> {
        commit(&mut self.table, asked, &mut self.scratch)
    }

    /// What the panel of a controller shows: [`look`] at the machine's table.
    ///
    /// # Errors
    ///
    /// [`Refusal::Controller`], unless the controller is one of 1 to n.
    pub fn look(&self, controller: u8) -> Result<Panel, Refusal> {
        look(&self.table, controller)
    }

    /// How many controllers put the first message before the second at a controller: [`count_before`] in the machine's
    /// table.
    ///
    /// # Errors
    ///
    /// [`Refusal::Controller`], unless the controller is one of 1 to n.
    pub fn count_before(&self, controller: u8, first: Name, second: Name) -> Result<usize, Refusal> {
        count_before(&self.table, controller, first, second)
    }

    /// The machine's table, to be read, copied or saved.
    #[must_use]
    pub fn table(&self) -> &Table {
        &self.table
    }

    /// The machine's table, without the machine.
    #[must_use]
    pub fn into_table(self) -> Table {
        self.table
    }

    /// n and n, the pair with which a round of the dispatcher ends. The first call names it.
    #[must_use]
    pub fn end_of_round(&self) -> Pair {
        self.table.end_of_round()
    }

    /// The machine's controllers, 1 to n.
    #[must_use]
    pub fn controllers(&self) -> RangeInclusive<u8> {
        self.table.controller_numbers()
    }
}

impl Debug for Machine {
    fn fmt(&self, f: &mut Formatter<'_>) -> core::fmt::Result {
        f.debug_struct("Machine").field("table", &self.table).finish_non_exhaustive()
    }
}
