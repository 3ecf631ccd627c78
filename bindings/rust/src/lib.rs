//! Safe calls of the event engine for machines whose controllers keep one count without a master. The package is
//! `no_std` and allocates nothing.
//!
//! A [`Machine`] owns the [`Table`] that holds the whole machine: all controllers, what each has sent, read and
//! applied. An event is a [`Record`]. Controllers are numbered from 1.
//!
//! ```
//! use furnacejade::{Machine, Record, Refusal, Sums};
//!
//! # fn main() -> Result<(), Refusal> {
//! let mut machine = Machine::new(1, 2)?; // version 1, 2 controllers
//!
//! // Controller 1 reports 5 eggs. Controller 2 reads the report in 1's log and forwards it, and 1 reads that in 2's
//! // log. Now more than half of them back the report, and panel 1 applies it.
//! machine.play(Record::Report { sender: 1, amount: 5 })?;
//! machine.play(Record::Handover { receiver: 2, owner: 1 })?;
//! let answer = machine.play(Record::Handover { receiver: 1, owner: 2 })?;
//! assert_eq!(answer.applied(), ["1.1".parse().unwrap()]);
//! assert_eq!(machine.look(1)?.sums, Sums { added: 5, withdrawn: 0 });
//! assert_eq!(machine.look(2)?.sums, Sums { added: 0, withdrawn: 0 });
//!
//! // There is no panel 3.
//! let refusal = machine.look(3).unwrap_err();
//! assert_eq!(refusal, Refusal::Controller);
//! assert_eq!(refusal.to_string(), "refused by question 8: is every controller named from 1 to n?");
//! # Ok(())
//! # }
//! ```
//!
//! No call trusts its caller: any table, any bytes and any lengths are answered. What cannot be carried out is refused
//! with the first question that is answered no, a [`Refusal`], and a refused call changes nothing that was lent to it.
//! Only the [`run`] of a file, which ends at the first record that is refused, keeps what the records before it did:
//! their lines in the listing, and zeros in the first [`SCRATCH`] bytes of scratch if an event was accepted. A file
//! that is refused by questions 1 to 3 changes nothing. No call changes a byte of scratch after the first [`SCRATCH`].
//!
//! # Report weight classes
//!
//! In version 2 each report names a weight class, and a panel shows the sums of each:
//!
//! ```
//! use furnacejade::{Class, Machine, Record, Refusal, Sums};
//!
//! # fn main() -> Result<(), Refusal> {
//! let mut machine = Machine::new(2, 1)?;
//! machine.play(Record::ClassedReport { sender: 1, amount: 12, class: Class::L.into() })?;
//! machine.play(Record::ClassedReport { sender: 1, amount: -7, class: Class::S.into() })?;
//! machine.play(Record::Handover { receiver: 1, owner: 1 })?;
//! assert_eq!(machine.look(1)?.sums, Sums { added: 12, withdrawn: 7 });
//! assert_eq!(machine.look(1)?.of(Class::S), Sums { added: 0, withdrawn: 7 });
//! # Ok(())
//! # }
//! ```
//!
//! # Read a count at a lane
//!
//! A local read gives what the controller's panel shows, without a message, once the controller has applied all that it
//! has sent. It may lack what is finished elsewhere:
//!
//! ```
//! use furnacejade::{Machine, Record, Refusal, Sums};
//!
//! # fn main() -> Result<(), Refusal> {
//! let mut machine = Machine::new(1, 1)?;
//! machine.play(Record::Report { sender: 1, amount: 30 })?;
//! assert_eq!(machine.play(Record::LocalRead { controller: 1 }), Err(Refusal::ReadPending));
//! machine.play(Record::Handover { receiver: 1, owner: 1 })?;
//! assert_eq!(machine.play(Record::LocalRead { controller: 1 })?.sums, Sums { added: 30, withdrawn: 0 });
//! # Ok(())
//! # }
//! ```
//!
//! # Read a count that is never stale
//!
//! A message is finished when its own sender has applied it. What was finished before a sync was sent is in the answer
//! of the sync:
//!
//! ```
//! use furnacejade::{Machine, Record, Refusal, Sums};
//!
//! # fn main() -> Result<(), Refusal> {
//! let mut machine = Machine::new(1, 3)?;
//! machine.play(Record::Report { sender: 1, amount: 30 })?;
//! machine.play(Record::Handover { receiver: 2, owner: 1 })?;
//! machine.play(Record::Handover { receiver: 1, owner: 2 })?; // 1 applies its report: it is finished
//! assert_eq!(machine.play(Record::LocalRead { controller: 2 })?.sums, Sums { added: 0, withdrawn: 0 });
//!
//! machine.play(Record::Sync { sender: 2 })?;
//! machine.play(Record::Handover { receiver: 1, owner: 2 })?;
//! assert_eq!(machine.play(Record::Handover { receiver: 2, owner: 1 })?.sync_answer(), None);
//! let answer = machine.play(Record::Handover { receiver: 2, owner: 2 })?;
//! assert_eq!(answer.sync_answer(), Some(Sums { added: 30, withdrawn: 0 }));
//! # Ok(())
//! # }
//! ```
//!
//! # Set a belt speed
//!
//! A supervisor sets one of eight registers at any lane, right after a sync of that lane is finished. Every panel shows
//! the write with the greatest [`Stamp`] among those that its controller has applied:
//!
//! ```
//! use furnacejade::{Machine, Record, Refusal, Register, Stamp};
//!
//! # fn main() -> Result<(), Refusal> {
//! let mut machine = Machine::new(1, 1)?;
//! let write = Record::Write { sender: 1, register: 1, value: 1500 };
//! assert_eq!(machine.play(write), Err(Refusal::NotSynced));
//! machine.play(Record::Sync { sender: 1 })?;
//! machine.play(Record::Handover { receiver: 1, owner: 1 })?;
//! machine.play(write)?;
//! machine.play(Record::Handover { receiver: 1, owner: 1 })?;
//! let belt_speed = Register { value: 1500, stamp: Stamp { date: 1, writer: 1 } };
//! assert_eq!(machine.look(1)?.register(1), Some(belt_speed));
//! # Ok(())
//! # }
//! ```
//!
//! # Hand over fairly
//!
//! The dispatcher, [`Machine::dispatch`], makes the next handover. It is told the pair that it served last, and goes
//! round from there, so that every pair of a receiver and a log owner gets its turn:
//!
//! ```
//! use furnacejade::{Machine, Pair, Record, Refusal, Sums};
//!
//! # fn main() -> Result<(), Refusal> {
//! let mut machine = Machine::new(1, 3)?;
//! machine.play(Record::Report { sender: 1, amount: 30 })?;
//! let mut last = machine.end_of_round(); // 3 and 3, at first
//! while let Some(handed) = machine.dispatch(last)? {
//!     last = handed.pair;
//!     for name in handed.answer.applied() {
//!         println!("panel {} applies {name}", last.receiver);
//!     }
//! }
//! // None is left: every controller has read every log to its end.
//! assert_eq!(last, Pair::new(2, 3));
//! for controller in machine.controllers() {
//!     assert_eq!(machine.look(controller)?.sums, Sums { added: 30, withdrawn: 0 });
//! }
//!
//! // If you need no answers, one call makes all handovers.
//! machine.play(Record::Report { sender: 3, amount: -2 })?;
//! assert_eq!(machine.dispatch_to_end(), 9);
//! # Ok(())
//! # }
//! ```
//!
//! # Look at a set, then take it
//!
//! [`Machine::ask`] shows the set that a handover would apply, without making it. [`Machine::commit`] makes the
//! handover, as long as its receiver has not acted in between, and applies the set that was shown. What other
//! controllers do in between does not change that set:
//!
//! ```
//! use furnacejade::{Asked, Machine, Name, Pair, Record, Refusal};
//!
//! # fn main() -> Result<(), Refusal> {
//! let mut machine = Machine::new(1, 3)?;
//! machine.play(Record::Report { sender: 1, amount: 30 })?;
//! machine.play(Record::Handover { receiver: 2, owner: 1 })?;
//! let shown = machine.ask(Pair::new(1, 2))?;
//! assert_eq!(shown.set(), [Name::new(1, 1)]);
//!
//! machine.play(Record::Report { sender: 2, amount: 12 })?; // another controller acts
//! let answer = machine.commit(shown.asked)?;
//! assert_eq!(answer.applied(), shown.set());
//!
//! // Now 1 has acted, so what was asked before is old. Plain numbers do as well: 1 has acted twice.
//! assert_eq!(machine.commit(shown.asked), Err(Refusal::ActCount));
//! machine.commit(Asked::new(1, 2, 2))?;
//! # Ok(())
//! # }
//! ```
//!
//! # Follow a message
//!
//! A table says the name of the message that a controller has just sent, where it has arrived, and what is left to
//! read:
//!
//! ```
//! use furnacejade::{Machine, Name, Record, Refusal, State};
//!
//! # fn main() -> Result<(), Refusal> {
//! let mut machine = Machine::new(1, 2)?;
//! machine.play(Record::Report { sender: 1, amount: 5 })?;
//! let sent = machine.table().latest(1).unwrap();
//! assert_eq!(sent, Name::new(1, 1));
//! let states = |machine: &Machine| [1, 2].map(|controller| machine.table().state(controller, sent));
//! assert_eq!(states(&machine), [State::Pending, State::Unknown]);
//!
//! // Nobody has read 1's log. A stop of 1 may keep its entry or not; here it does not.
//! assert_eq!((machine.table().unread(2, 1), machine.table().kept(1)), (1, Some(0..=1)));
//! machine.play(Record::Stop { controller: 1, kept: 0 })?;
//! assert_eq!((machine.table().unread(2, 1), machine.table().runs(1)), (0, false));
//! assert_eq!(states(&machine), [State::CutOff, State::CutOff]);
//! # Ok(())
//! # }
//! ```
//!
//! # See why a panel waits
//!
//! A pending message is applied ahead of another only if at least `n / 2 + 1` controllers put it first:
//!
//! ```
//! use furnacejade::{Machine, Name, Record, Refusal};
//!
//! # fn main() -> Result<(), Refusal> {
//! let mut machine = Machine::new(1, 3)?;
//! machine.play(Record::Report { sender: 1, amount: 30 })?;
//! machine.play(Record::Report { sender: 3, amount: -2 })?;
//! // Controller 2 hears of 1's report and then of 3's, and 3 hears of both from 2.
//! for (receiver, owner) in [(2, 1), (2, 3), (3, 2), (3, 2)] {
//!     machine.play(Record::Handover { receiver, owner })?;
//! }
//! // Panel 3 waits: only 3 puts 3.1 first, and only 2 puts 1.1 first. 2 are needed.
//! let (one, three) = (Name::new(1, 1), Name::new(3, 1));
//! assert_eq!((machine.count_before(3, three, one)?, machine.count_before(3, one, three)?), (1, 1));
//! # Ok(())
//! # }
//! ```
//!
//! # Lend your own memory
//!
//! [`fresh`], [`event`], [`dispatch`], [`ask`], [`commit`], [`look`] and [`count_before`] are the same calls over a
//! table and scratch of the caller's:
//!
//! ```
//! use furnacejade::{event, fresh, look, Record, Refusal, Sums, SCRATCH};
//!
//! # fn main() -> Result<(), Refusal> {
//! let mut table = fresh(1, 1)?;
//! let mut scratch = [0; SCRATCH];
//! let report = Record::Report { sender: 1, amount: 5 };
//! event(&mut table, &report.bytes(), &mut scratch)?;
//!
//! // The bytes may hold more than one record: the first is carried out, and the others come back.
//! let (answer, rest) = event(&mut table, &[3, 3, 1, 1, 2, 5, 1], &mut scratch)?;
//! assert_eq!((answer.applied().len(), rest), (1, &[2, 5, 1][..]));
//! assert_eq!(look(&table, 1)?.sums, Sums { added: 5, withdrawn: 0 });
//! # Ok(())
//! # }
//! ```
//!
//! # Run a file
//!
//! A run file is a [`head`] and records. [`run`] carries out a whole file and writes a line for each set applied;
//! [`records`] reads it without carrying it out:
//!
//! ```
//! use furnacejade::{head, records, run, Record, RefusalNumber, LISTING, SCRATCH};
//!
//! let played = [Record::Report { sender: 1, amount: 12 }, Record::Handover { receiver: 1, owner: 1 }];
//! let mut file = head(1, 1).to_vec();
//! file.extend(played.iter().flat_map(Record::bytes));
//!
//! let (mut listing, mut scratch) = ([0; LISTING], [0; SCRATCH]);
//! let answer = run(&file, &mut listing, &mut scratch);
//! assert_eq!((answer.refusal, answer.events), (RefusalNumber::ACCEPTED, 2));
//! assert_eq!(&listing[..answer.written], b"2 1 12 0 1.1\n");
//!
//! assert!(records(&file).filter_map(|part| part.record).eq(played));
//! ```
//!
//! # Check the library
//!
//! A program that is linked with a library of another state of the sources finds that at its start:
//!
//! ```
//! assert_eq!(furnacejade::interface(), furnacejade::INTERFACE);
//! ```

#![no_std]

pub mod calls;
mod class;
mod layout;
mod machine;
mod preview;
mod queries;
mod record;
mod refusal;

pub use class::{Class, ClassNumber, ParseClassError};
pub use layout::{
    Answer, AskAnswer, Controller, CountAnswer, DispatchAnswer, ForwardNumber, FreshAnswer, LookAnswer, Message,
    MessageNumber, Name, Pair, Panel, ParseNameError, Payload, Pending, Register, RunAnswer, Stamp, Sums, Table,
    CLASSES, CONTROLLERS, INTERFACE, LISTING, MESSAGES, REGISTERS, SCRATCH,
};
pub use machine::Machine;
pub use preview::{Asked, Preview};
pub use queries::State;
pub use record::{head, records, Part, Record, RecordBytes, Records, LONGEST_RECORD};
pub use refusal::{Refusal, RefusalNumber};

/// The interface that the library was built with. If it is not [`INTERFACE`], the library is of another state of the
/// sources than this package, and no other call may be made.
#[must_use]
pub fn interface() -> usize {
    calls::interface()
}

/// A fresh table of n controllers, 1 to 7, that all run and have sent nothing. Its version, 1 or 2, says whether its
/// reports name a class, and stays.
///
/// # Errors
///
/// [`Refusal::Version`] and [`Refusal::ControllerCount`].
pub fn fresh(version: u8, n: u8) -> Result<Table, Refusal> {
    let mut answer = FreshAnswer::BLANK;
    calls::fresh(version.into(), n.into(), &mut answer);
    answer.refusal.check()?;
    Ok(answer.table)
}

/// Carries out the record with which the bytes begin. Gives its answer and the bytes after the record. The answer has
/// the set applied, and the sums of a finished sync or of a local read. The table's version says whether a report has a
/// class byte.
///
/// An accepted event needs [`SCRATCH`] bytes of scratch, and leaves them zero and later ones as they were. A refused one
/// leaves table and scratch as they were.
///
/// # Errors
///
/// The first of questions 4 to 15 and 17 to 20 that is answered no.
pub fn event<'a>(table: &mut Table, bytes: &'a [u8], scratch: &mut [u8]) -> Result<(Answer, &'a [u8]), Refusal> {
    let mut answer = Answer::BLANK;
    let left = calls::event(table, bytes, scratch, &mut answer);
    answer.refusal.check()?;
    Ok((answer, &bytes[bytes.len().saturating_sub(left)..]))
}

/// Makes the next handover, where every pair of a receiver and a log owner gets its turn. Gives its pair and its answer,
/// or none if no handover is left. `after` is the pair that the dispatcher served last, and n and n at first
/// ([`Table::end_of_round`]).
///
/// The dispatcher goes round all pairs, by receiver and then owner, from the one after `after`, which comes last. It
/// passes over stopped receivers and over pairs without an unread entry. (A log owner may have stopped.)
///
/// - If each call names the pair that the call before it served, and nobody stops, an entry that is next for a running
///   receiver is read within n x n handovers of the dispatcher, whatever other calls are made in between.
/// - A run has at most 3,136 accepted handovers in all, so calls in a row come to none.
/// - Where none is left, every running controller has read every log to its end.
///
/// A handover needs [`SCRATCH`] bytes of scratch, and leaves table and scratch as the same event does. Where none is left
/// scratch may be shorter. Then, and where the call is refused, table and scratch are left as they were.
///
/// # Errors
///
/// [`Refusal::Table`], if the table is not well formed. [`Refusal::Controller`], unless both numbers of the pair named
/// are from 1 to n, also where no handover is left. [`Refusal::Scratch`], if a handover is left and scratch is too short
/// for it.
pub fn dispatch(table: &mut Table, after: Pair, scratch: &mut [u8]) -> Result<Option<DispatchAnswer>, Refusal> {
    let mut answer = DispatchAnswer::BLANK;
    calls::dispatch(table, after, scratch, &mut answer);
    answer.answer.refusal.check()?;
    Ok(answer.served().map(|_| answer))
}

/// Shows the set that a handover would apply, without making it. The preview also has what [`commit`] is given to take
/// this very set.
///
/// The table stays as it is. An accepted ask needs [`SCRATCH`] bytes of scratch, and leaves them zero and later ones as
/// they were. A refused one leaves scratch as it was.
///
/// # Errors
///
/// The first of these, in this order:
///
/// - [`Refusal::Table`], if the table is not well formed;
/// - [`Refusal::Controller`], unless both numbers of the pair are from 1 to n;
/// - [`Refusal::Stopped`], if the receiver has stopped;
/// - [`Refusal::NoEntry`], if the receiver has read the owner's log to its end;
/// - [`Refusal::Scratch`], if scratch is too short.
pub fn ask(table: &Table, pair: Pair, scratch: &mut [u8]) -> Result<Preview, Refusal> {
    let mut answer = AskAnswer::BLANK;
    calls::ask(table, pair, scratch, &mut answer);
    answer.refusal.check()?;
    Ok(Preview::new(pair, answer))
}

/// Makes a handover that was asked about, if its receiver has not acted since, and gives its answer. The set applied is
/// the one that the ask showed, whatever other controllers did in between.
///
/// A controller acts when it sends a message, is the receiver of a handover or stops. Local reads, looks, counts, asks
/// and refused calls are no acts. As long as the receiver has not acted, the commit is accepted, unless a stop of the
/// owner has cut the entry away.
///
/// An accepted commit needs [`SCRATCH`] bytes of scratch, and leaves table and scratch as the handover's event does. A
/// refused one leaves both as they were.
///
/// # Errors
///
/// Those of [`ask`], in the same order, and right after [`Refusal::Stopped`] also [`Refusal::ActCount`], if the
/// receiver's act count is not the one given. If an ask gave the count, [`Refusal::NoEntry`] says that the entry was
/// cut away since.
pub fn commit(table: &mut Table, asked: Asked, scratch: &mut [u8]) -> Result<Answer, Refusal> {
    let mut answer = Answer::BLANK;
    calls::commit(table, asked.pair, asked.acts, scratch, &mut answer);
    answer.refusal.check()?;
    Ok(answer)
}

/// What the panel of a controller shows, 1 to n, running or stopped: the sums of all classes together, the sums of each
/// class, and the registers.
///
/// # Errors
///
/// [`Refusal::Table`], if the table is not well formed, and [`Refusal::Controller`].
pub fn look(table: &Table, controller: u8) -> Result<Panel, Refusal> {
    let mut answer = LookAnswer::BLANK;
    calls::look(table, controller.into(), &mut answer);
    answer.refusal.check()?;
    Ok(answer.panel)
}

/// How many of the controllers 1 to n put the first message before the second at a controller, 1 to n, running or
/// stopped. The first goes before the second if that is a majority, `n / 2 + 1` or more.
///
/// The count is of the marks that the controller keeps: how many are smaller for the first message than for the second.
/// An absent mark is greater than every number, and not less than another absent one. A message that is not pending
/// there, or is not of the run, has only absent marks. A name may hold anything.
///
/// # Errors
///
/// [`Refusal::Table`], if the table is not well formed, and [`Refusal::Controller`].
pub fn count_before(table: &Table, controller: u8, first: Name, second: Name) -> Result<usize, Refusal> {
    let mut answer = CountAnswer::BLANK;
    calls::count_before(table, controller.into(), &first, &second, &mut answer);
    answer.refusal.check()?;
    Ok(answer.count)
}

/// Carries out a whole file, up to its end or the first record that is refused, and writes a line into the listing for
/// each set applied. The answer has the refusal that ended the run, the number of events accepted before it, the number
/// of bytes written, and the last table. Of a file that is refused by questions 1 to 3, all but the refusal is blank.
#[must_use]
pub fn run(bytes: &[u8], listing: &mut [u8], scratch: &mut [u8]) -> RunAnswer {
    let mut answer = RunAnswer::BLANK;
    calls::run(bytes, listing, scratch, &mut answer);
    answer
}
