//! A run file played event by event, and then by the dispatcher if that is asked for. What an event did is read from its answer
//! and from the table before and after it.

use crate::text::Expectation;
use furnacejade::{dispatch, event, fresh, look, records, run};
use furnacejade::{
    Answer, Controller, ForwardNumber, Message, Name, Part, Pending, Record, Refusal, State, Sums, Table, LISTING,
    SCRATCH,
};

/// What an event did. The set that it applied stands apart.
#[derive(Debug)]
pub enum Effect {
    /// A message was sent.
    Sent(Name),
    /// The receiver read this entry of a log, and there a message. The marks are those that the receiver then has for the
    /// message, before it applies anything; none if it has applied the message already.
    Read { owner: u8, entry: usize, name: Name, heard: Heard, marks: Vec<Mark> },
    /// A log was cut: how many entries are kept, and which ones came after these.
    Stopped { kept: usize, lost: Vec<Name> },
    /// A controller read its own sums.
    LocalRead(Sums),
}

/// A mark: the controller that gave it, and the place of the message in that controller's log.
pub type Mark = (u8, u8);

/// What the message of a handover was to its receiver.
#[derive(Debug)]
pub enum Heard {
    /// Unknown: the receiver forwarded the message, as this entry of its own log.
    Forwarded { entry: usize },
    /// Pending: the receiver noted the mark of the log's owner.
    Marked,
    /// Pending, and the receiver's own message: its own mark was there from the start.
    Known,
    /// Applied already: the receiver passed over the entry.
    Passed,
}

/// A set that a panel applied, the sums that the panel then showed, and the answer of a sync of its own that the set
/// finished.
#[derive(Debug)]
pub struct Applied {
    pub names: Vec<Name>,
    pub sums: Sums,
    pub finished: Option<Sums>,
}

/// An event that was accepted.
#[derive(Debug)]
pub struct Step {
    /// The number of the event, from 1, and of its record in the file. The dispatcher's handovers are counted on.
    pub number: usize,
    pub record: Record,
    /// The controller that acted.
    pub controller: u8,
    pub effect: Effect,
    pub applied: Option<Applied>,
}

/// A file or a record that was refused: why, where it begins, and what is there of it.
#[derive(Debug)]
pub struct Refused<'a> {
    pub refusal: Refusal,
    pub offset: usize,
    pub bytes: &'a [u8],
}

/// An expectation that was reached.
#[derive(Debug)]
pub struct Checked {
    pub expectation: Expectation,
    /// How many events come before the expectation.
    pub events: usize,
    /// What the panel showed; none if there is no such panel.
    pub shown: Option<Sums>,
}

impl Checked {
    pub fn holds(&self) -> bool {
        self.shown == Some(self.expectation.sums)
    }
}

/// A file that was played.
#[derive(Debug)]
pub struct Play<'a> {
    pub file: &'a [u8],
    pub steps: Vec<Step>,
    /// How many of the steps are records of the file. The others are handovers of the dispatcher.
    pub recorded: usize,
    /// Whether the dispatcher was to hand over after the last record.
    pub to_end: bool,
    pub refused: Option<Refused<'a>>,
    pub checked: Vec<Checked>,
    /// The expectations that were not reached.
    pub unreached: &'a [Expectation],
    /// The table that the last accepted event left; a blank table if the file itself was refused.
    pub table: Table,
}

/// The controller that acts in a record: it sends, receives, stops or reads.
pub fn actor(record: Record) -> u8 {
    match record {
        Record::Report { sender, .. }
        | Record::ClassedReport { sender, .. }
        | Record::Sync { sender }
        | Record::Write { sender, .. } => sender,
        Record::Handover { receiver, .. } => receiver,
        Record::Stop { controller, .. } | Record::LocalRead { controller } => controller,
    }
}

pub fn name_of(message: &Message) -> Name {
    Name { sender: message.sender, number: message.number }
}

/// A controller by its number, from 1.
pub fn controller(table: &Table, number: u8) -> &Controller {
    &table.controllers[usize::from(number) - 1]
}

/// The names in a log.
pub fn log(table: &Table, owner: u8) -> Vec<Name> {
    let Controller { length, log, .. } = controller(table, owner);
    log[..*length].iter().map(|slot| name_of(&table.messages[usize::from(*slot)])).collect()
}

/// How many entries of a log a controller has read.
pub fn read(table: &Table, reader: u8, owner: u8) -> usize {
    controller(table, reader).read[usize::from(owner) - 1]
}

/// The names of all messages, in the order sent.
pub fn sent(table: &Table) -> Vec<Name> {
    table.messages[..table.count].iter().map(name_of).collect()
}

/// The names of the messages that are in this state at a controller, in the order sent.
pub fn in_state(table: &Table, c: u8, state: State) -> Vec<Name> {
    sent(table).into_iter().filter(|name| table.state(c, *name) == state).collect()
}

/// The names of the messages that a controller holds, in the order sent. They are pending there, or were cut off when it
/// stopped.
pub fn held(table: &Table, c: u8) -> Vec<Name> {
    let pending = controller(table, c).pending.iter();
    sent(table).into_iter().zip(pending).filter(|(_, pending)| pending.held != 0).map(|(name, _)| name).collect()
}

/// The marks that a controller keeps for a message; none if it does not hold it.
fn marks(table: &Table, c: u8, slot: usize) -> Vec<Mark> {
    let Pending { held, marks } = controller(table, c).pending[slot];
    let marks = table.controller_numbers().zip(marks).filter(|(_, mark)| held != 0 && *mark != ForwardNumber::ABSENT);
    marks.map(|(f, mark)| (f, mark.0)).collect()
}

/// The marks of a message after a handover, with the mark that the entry gave if it gave one.
fn marks_with(mut marks: Vec<Mark>, read: Mark, heard: &Heard) -> Vec<Mark> {
    if matches!(heard, Heard::Forwarded { .. } | Heard::Marked) {
        marks.push(read);
        marks.sort_unstable();
    }
    marks
}

fn effect_of(record: Record, before: &Table, after: &Table, answer: &Answer) -> Effect {
    match record {
        Record::Handover { receiver, owner } => {
            let (known, then) = (controller(before, receiver), controller(after, receiver));
            let place = read(before, receiver, owner);
            let slot = usize::from(controller(before, owner).log[place]);
            let heard = match known.pending[slot] {
                _ if then.length > known.length => Heard::Forwarded { entry: then.length },
                Pending { held: 0, .. } => Heard::Passed,
                Pending { marks, .. } if marks[usize::from(owner) - 1] == ForwardNumber::ABSENT => Heard::Marked,
                _ => Heard::Known,
            };
            let name = name_of(&before.messages[slot]);
            let marks = marks_with(marks(before, receiver, slot), (owner, place as u8 + 1), &heard);
            Effect::Read { owner, entry: place + 1, name, heard, marks }
        }
        Record::Stop { controller, kept } => {
            let kept = usize::from(kept);
            Effect::Stopped { kept, lost: log(before, controller).split_off(kept) }
        }
        Record::LocalRead { .. } => Effect::LocalRead(answer.sums),
        _ => Effect::Sent(name_of(&after.messages[before.count])),
    }
}

fn applied_by(answer: &Answer, table: &Table, c: u8) -> Option<Applied> {
    let names = answer.applied().to_vec();
    if names.is_empty() {
        return None;
    }
    let sums = look(table, c).expect("the engine's own table").sums;
    Some(Applied { names, sums, finished: answer.sync_answer() })
}

/// Plays a file up to its end, its first refusal or its first `most` events.
pub fn play<'a>(bytes: &'a [u8], expectations: &'a [Expectation], most: usize) -> Play<'a> {
    let (mut listing, mut scratch) = (vec![0; LISTING], [0; SCRATCH]);
    let (unreached, table) = (expectations, Table::BLANK);
    let mut play = Play {
        file: bytes,
        steps: vec![],
        recorded: 0,
        to_end: false,
        refused: None,
        checked: vec![],
        unreached,
        table,
    };
    // A run of the whole file asks what is asked of a file. (A request for a fresh table does not ask for the length.)
    let refusal = run(bytes, &mut listing, &mut scratch).refusal.refusal();
    if let Some(refusal @ (Refusal::FileLength | Refusal::Version | Refusal::ControllerCount)) = refusal {
        let offset = usize::from(refusal == Refusal::ControllerCount);
        play.refused = Some(Refused { refusal, offset, bytes: &bytes[..bytes.len().min(2)] });
        return play;
    }
    play.table = fresh(bytes[0], bytes[1]).expect("the file's version and number of controllers were accepted");
    play.check(2);
    for Part { offset, bytes, record } in records(bytes).take(most) {
        let before = play.table.clone();
        match event(&mut play.table, bytes, &mut scratch) {
            Ok((answer, _)) => {
                play.add(record.expect("an accepted record has the form of one"), &before, &answer);
                play.recorded += 1;
                play.check(offset + bytes.len());
            }
            Err(refusal) => {
                play.refused = Some(Refused { refusal, offset, bytes });
                break;
            }
        }
    }
    play
}

impl Play<'_> {
    /// Adds an event that was accepted, by the table before it and its answer.
    fn add(&mut self, record: Record, before: &Table, answer: &Answer) {
        let (number, c) = (self.steps.len() + 1, actor(record));
        let effect = effect_of(record, before, &self.table, answer);
        let applied = applied_by(answer, &self.table, c);
        self.steps.push(Step { number, record, controller: c, effect, applied });
    }

    /// Lets the dispatcher hand over until no handover is left. After a refusal, which ends a run, it makes none.
    pub fn go_to_end(&mut self) {
        self.to_end = true;
        let (mut last, mut scratch) = (self.table.end_of_round(), [0; SCRATCH]);
        while self.refused.is_none() {
            let before = self.table.clone();
            let handed = dispatch(&mut self.table, last, &mut scratch).expect("the engine's own table");
            let Some(handed) = handed else { break };
            last = handed.pair;
            self.add(last.into(), &before, &handed.answer);
        }
    }

    /// The handovers that the dispatcher made.
    pub fn dispatched(&self) -> &[Step] {
        &self.steps[self.recorded..]
    }

    /// The file with the handovers of the dispatcher after its last record. The engine may refuse it for its length.
    pub fn longer_file(&self) -> (Vec<u8>, Option<Refusal>) {
        let mut longer = self.file.to_vec();
        longer.extend(self.dispatched().iter().flat_map(|step| step.record.bytes()));
        let refusal = run(&longer, &mut vec![0; LISTING], &mut [0; SCRATCH]).refusal.refusal();
        (longer, refusal)
    }

    /// Checks the expectations up to an offset that were not reached before.
    fn check(&mut self, offset: usize) {
        while let Some((expectation, others)) = self.unreached.split_first().filter(|(next, _)| next.offset <= offset) {
            let (expectation, events) = (*expectation, self.steps.len());
            let shown = look(&self.table, expectation.panel).ok().map(|panel| panel.sums);
            self.checked.push(Checked { expectation, events, shown });
            self.unreached = others;
        }
    }

    /// The slot of a message that was sent.
    pub fn slot(&self, name: Name) -> Option<usize> {
        sent(&self.table).iter().position(|other| *other == name)
    }

    /// The marks that a controller keeps for a message; none if it does not hold it.
    pub fn marks(&self, c: u8, name: Name) -> Vec<Mark> {
        self.slot(name).map(|slot| marks(&self.table, c, slot)).unwrap_or_default()
    }

    /// The event that sent a message.
    pub fn sent(&self, name: Name) -> Option<&Step> {
        self.steps.iter().find(|step| matches!(step.effect, Effect::Sent(sent) if sent == name))
    }

    /// The event in which a panel applied a message, with the set.
    pub fn applied(&self, name: Name, panel: u8) -> Option<(&Step, &Applied)> {
        let mine = self.steps.iter().filter(|step| step.controller == panel);
        let mut sets = mine.filter_map(|step| Some((step, step.applied.as_ref()?)));
        sets.find(|(_, applied)| applied.names.contains(&name))
    }

    /// The event that stopped a controller.
    pub fn stopped(&self, c: u8) -> Option<&Step> {
        self.steps.iter().find(|step| step.controller == c && matches!(step.effect, Effect::Stopped { .. }))
    }

    /// How many controllers must put a message first, or mark it.
    pub fn majority(&self) -> usize {
        self.table.n / 2 + 1
    }
}
