//! The structs that the library shares with its callers, as they lie in memory. Their layouts are asserted below.

use crate::{Class, ClassNumber, RefusalNumber};
use core::error::Error;
use core::fmt::{Arguments, Display, Formatter, Write};
use core::mem::{offset_of, size_of};
use core::str::FromStr;

/// The interface that this package was written for. It goes up whenever a struct, a constant, a refusal or a call
/// changes. [`interface`](crate::interface) says which one the library was built with.
pub const INTERFACE: usize = 4;

/// The greatest number of controllers of a run.
pub const CONTROLLERS: usize = 7;

/// The greatest number of messages of a run.
pub const MESSAGES: usize = 64;

/// The number of classes whose sums a panel shows, [`Class::None`] among them.
pub const CLASSES: usize = 5;

/// The number of registers that a panel shows.
pub const REGISTERS: usize = 8;

/// The bytes of scratch that an event, a handover of the dispatcher, an ask or a commit needs: one for each message that
/// can be pending.
pub const SCRATCH: usize = 64;

/// The bytes of a listing in which the lines of every run file fit.
pub const LISTING: usize = 16384;

/// A place in a log, 1 to 64.
#[repr(C)]
#[derive(Clone, Copy, Debug, PartialEq, Eq, PartialOrd, Ord, Hash)]
pub struct ForwardNumber(pub u8);

/// The number that a sender gives its message, 1 to 64.
#[repr(C)]
#[derive(Clone, Copy, Debug, PartialEq, Eq, PartialOrd, Ord, Hash)]
pub struct MessageNumber(pub u8);

/// What a message says.
#[repr(C)]
#[derive(Clone, Copy, Debug, PartialEq, Eq, Hash)]
pub struct Payload {
    /// [`Payload::REPORT`], [`Payload::SYNC`] or [`Payload::WRITE`].
    pub kind: u8,
    /// The number of its class: [`Class::Xl`] to [`Class::S`] for a report of version 2, else [`Class::None`].
    pub class: ClassNumber,
    /// The amount if it is positive, else 0.
    pub added: u16,
    /// The magnitude of the amount if it is negative, else 0.
    pub withdrawn: u16,
    /// The register that a write sets, 1 to 8; else 0. (The field has its name from the C header, where `register` is a
    /// keyword.)
    pub reg: u16,
    /// The value that a write sets; else 0.
    pub value: u32,
}

/// A message; its index in the table is its slot.
#[repr(C)]
#[derive(Clone, Copy, Debug, PartialEq, Eq, Hash)]
pub struct Message {
    /// The controller that sent the message, 1 to n.
    pub sender: u8,
    /// The message's place in its sender's log.
    pub number: MessageNumber,
    /// The date of a write: one more than its register's date at its sender when it was sent. Else 0.
    pub date: u16,
    /// What the message says.
    pub payload: Payload,
}

/// A message's name, `sender.number`.
///
/// ```
/// use furnacejade::Name;
/// let name = Name::new(3, 1);
/// assert_eq!((name.to_string().as_str(), "3.1".parse()), ("3.1", Ok(name)));
/// let error = "3".parse::<Name>().unwrap_err();
/// assert_eq!(error.to_string(), "a message is named by its sender and its number, as in 3.1");
/// ```
#[repr(C)]
#[derive(Clone, Copy, Debug, PartialEq, Eq, PartialOrd, Ord, Hash)]
pub struct Name {
    /// The controller that sent the message.
    pub sender: u8,
    /// The message's number.
    pub number: MessageNumber,
}

/// What a controller keeps of a message that it has not applied.
#[repr(C)]
#[derive(Clone, Copy, Debug, PartialEq, Eq, Hash)]
pub struct Pending {
    /// Whether the message is pending: 0 is no, anything else yes.
    pub held: u8,
    /// Each controller's forward number for the message, or [`ForwardNumber::ABSENT`].
    pub marks: [ForwardNumber; CONTROLLERS],
}

/// One controller.
#[repr(C)]
#[derive(Clone, Debug, PartialEq, Eq, Hash)]
pub struct Controller {
    /// How many entries the controller's log has.
    pub length: usize,
    /// The slots that the controller forwarded, in order.
    pub log: [u8; MESSAGES],
    /// How many entries of each log the controller has read.
    pub read: [usize; CONTROLLERS],
    /// What is pending, by slot.
    pub pending: [Pending; MESSAGES],
    /// What the controller has applied, by slot: 0 is no, anything else yes.
    pub applied: [u8; MESSAGES],
    /// The highest number applied of each sender, or [`MessageNumber::NONE`].
    pub highest: [MessageNumber; CONTROLLERS],
    /// Whether the controller runs: 0 is no, anything else yes.
    pub running: u8,
}

/// The table of a run, which its owner keeps and lends to each call. Its fields may be read at any time. Any values may
/// be lent: a table that is not well formed is refused by [`Refusal::Table`](crate::Refusal::Table). That is a test of
/// form and no checksum: an amount that was changed from 30 to 31 passes.
///
/// What most programs ask of a table has a function: [`latest`](Table::latest), [`state`](Table::state),
/// [`unread`](Table::unread), [`kept`](Table::kept) and [`runs`](Table::runs).
#[repr(C)]
#[derive(Clone, Debug, PartialEq, Eq, Hash)]
pub struct Table {
    /// The version in which records are read: 1, or 2 if reports name a class.
    pub version: usize,
    /// n: how many controllers the run has.
    pub n: usize,
    /// How many messages were sent.
    pub count: usize,
    /// The messages, in the order sent.
    pub messages: [Message; MESSAGES],
    /// The controllers, controller c at c - 1.
    pub controllers: [Controller; CONTROLLERS],
}

/// Two sums of amounts. Both together are at most 23,040. Their text is both, as a listing has them.
///
/// ```
/// use furnacejade::Sums;
/// assert_eq!(Sums { added: 30, withdrawn: 2 }.to_string(), "30 2");
/// ```
#[repr(C)]
#[derive(Clone, Copy, Debug, PartialEq, Eq, Hash)]
pub struct Sums {
    /// The sum of the amounts above 0.
    pub added: u32,
    /// The sum of the amounts below 0, with the sign dropped.
    pub withdrawn: u32,
}

/// The stamp of a write. Of two writes of a register the one with the greater stamp wins: dates decide before writers.
///
/// ```
/// use furnacejade::Stamp;
/// assert!(Stamp { date: 2, writer: 1 } > Stamp { date: 1, writer: 7 });
/// ```
#[repr(C)]
#[derive(Clone, Copy, Debug, PartialEq, Eq, PartialOrd, Ord, Hash)]
pub struct Stamp {
    /// The date of the write, 1 or more; 0 if the register was not written.
    pub date: u16,
    /// The controller that sent the write; 0 if the register was not written.
    pub writer: u16,
}

/// A register (set point) as a panel shows it: the write with the greatest stamp among those that were applied.
#[repr(C)]
#[derive(Clone, Copy, Debug, PartialEq, Eq, Hash)]
pub struct Register {
    /// The register's value; 0 if it was not written.
    pub value: u32,
    /// The stamp of the write that set it.
    pub stamp: Stamp,
}

/// What a panel shows.
#[repr(C)]
#[derive(Clone, Debug, PartialEq, Eq, Hash)]
pub struct Panel {
    /// The sums of all that was applied.
    pub sums: Sums,
    /// The sums of each class, from [`Class::None`] on; they add up to `sums`.
    pub classes: [Sums; CLASSES],
    /// The registers, register r at r - 1.
    pub registers: [Register; REGISTERS],
}

/// What an event answers, and what the dispatcher and a commit answer of the handover that they made.
#[repr(C)]
#[derive(Clone, Debug, PartialEq, Eq, Hash)]
pub struct Answer {
    /// [`RefusalNumber::ACCEPTED`], or why the event was refused.
    pub refusal: RefusalNumber,
    /// 1 if a sync of the receiver's own is in the set applied, else 0.
    pub finished: u8,
    /// If `finished` is 1, the answer of that sync, which is the sums after the set. After a local read, the sums that
    /// it gives. Else zeros.
    pub sums: Sums,
    /// How many messages were applied as one set.
    pub size: usize,
    /// The names of the set, by sender and then number. Blank names follow.
    pub names: [Name; MESSAGES],
}

/// A handover by its numbers, as the dispatcher, an ask and a commit name it. Pairs are in the order in which the dispatcher
/// goes round: by receiver and then owner.
///
/// ```
/// use furnacejade::{Pair, Record};
/// let pair = Pair::new(2, 1);
/// assert!(Pair::new(1, 3) < pair);
/// assert_eq!(Record::from(pair), Record::Handover { receiver: 2, owner: 1 });
/// ```
#[repr(C)]
#[derive(Clone, Copy, Debug, PartialEq, Eq, PartialOrd, Ord, Hash)]
pub struct Pair {
    /// The controller that reads.
    pub receiver: usize,
    /// The owner of the log that it reads.
    pub owner: usize,
}

/// What the dispatcher answers.
#[repr(C)]
#[derive(Clone, Debug, PartialEq, Eq, Hash)]
pub struct DispatchAnswer {
    /// The handover that was made, which the next call names; blank if none was.
    pub pair: Pair,
    /// What an event answers of that handover. If none was made, all but the refusal is blank.
    pub answer: Answer,
}

/// What an ask answers.
#[repr(C)]
#[derive(Clone, Debug, PartialEq, Eq, Hash)]
pub struct AskAnswer {
    /// [`RefusalNumber::ACCEPTED`], or why the ask was refused.
    pub refusal: RefusalNumber,
    /// The receiver's act count, which a commit gives back; 0 if refused.
    pub acts: usize,
    /// How many messages the handover would apply as one set.
    pub size: usize,
    /// The names of the set, by sender and then number. Blank names follow.
    pub names: [Name; MESSAGES],
}

/// What a request for a fresh table answers.
#[repr(C)]
#[derive(Clone, Debug, PartialEq, Eq, Hash)]
pub struct FreshAnswer {
    /// [`RefusalNumber::ACCEPTED`], or why the request was refused.
    pub refusal: RefusalNumber,
    /// The fresh table; blank if refused.
    pub table: Table,
}

/// What a panel look answers.
#[repr(C)]
#[derive(Clone, Debug, PartialEq, Eq, Hash)]
pub struct LookAnswer {
    /// [`RefusalNumber::ACCEPTED`], or why the look was refused.
    pub refusal: RefusalNumber,
    /// What the panel shows; blank if refused.
    pub panel: Panel,
}

/// What the count of "goes before" answers.
#[repr(C)]
#[derive(Clone, Debug, PartialEq, Eq, Hash)]
pub struct CountAnswer {
    /// [`RefusalNumber::ACCEPTED`], or why the call was refused.
    pub refusal: RefusalNumber,
    /// How many controllers put the first message before the second, 0 to n; 0 if refused.
    pub count: usize,
}

/// What the run of a file answers.
#[repr(C)]
#[derive(Clone, Debug, PartialEq, Eq, Hash)]
pub struct RunAnswer {
    /// [`RefusalNumber::ACCEPTED`] if the whole file was carried out, else what refused the file or ended the run.
    pub refusal: RefusalNumber,
    /// How many events were accepted.
    pub events: usize,
    /// How many bytes of the listing were written.
    pub written: usize,
    /// The last table; blank if the file itself was refused.
    pub table: Table,
}

impl ForwardNumber {
    /// No forward number.
    pub const ABSENT: ForwardNumber = ForwardNumber(255);
}

impl MessageNumber {
    /// No message.
    pub const NONE: MessageNumber = MessageNumber(0);
}

impl Payload {
    /// The kind of a report, which has an amount.
    pub const REPORT: u8 = 1;

    /// The kind of a sync, which has no amount.
    pub const SYNC: u8 = 2;

    /// The kind of a write, which has a register and a value.
    pub const WRITE: u8 = 6;

    /// Every field zero.
    pub const BLANK: Payload =
        Payload { kind: 0, class: ClassNumber(Class::None.number()), added: 0, withdrawn: 0, reg: 0, value: 0 };
}

impl Message {
    /// Every field zero.
    pub const BLANK: Message = Message { sender: 0, number: MessageNumber::NONE, date: 0, payload: Payload::BLANK };
}

impl Name {
    /// Every field zero.
    pub const BLANK: Name = Name { sender: 0, number: MessageNumber::NONE };

    /// The name of a sender's message with this number. Any bytes make a name.
    #[must_use]
    pub const fn new(sender: u8, number: u8) -> Name {
        Name { sender, number: MessageNumber(number) }
    }
}

impl Display for Name {
    fn fmt(&self, f: &mut Formatter<'_>) -> core::fmt::Result {
        padded(f, format_args!("{}.{}", self.sender, self.number.0))
    }
}

impl FromStr for Name {
    type Err = ParseNameError;

    fn from_str(text: &str) -> Result<Name, ParseNameError> {
        let (sender, number) = text.split_once('.').ok_or(ParseNameError(()))?;
        Ok(Name::new(byte_of(sender)?, byte_of(number)?))
    }
}

/// A number from 0 to 255 in decimal digits, without a sign.
fn byte_of(text: &str) -> Result<u8, ParseNameError> {
    let digits = text.bytes().all(|byte| byte.is_ascii_digit());
    text.parse().ok().filter(|_| digits).ok_or(ParseNameError(()))
}

/// A text that is not the name of a message.
#[derive(Clone, Debug, PartialEq, Eq)]
pub struct ParseNameError(());

impl Display for ParseNameError {
    fn fmt(&self, f: &mut Formatter<'_>) -> core::fmt::Result {
        f.write_str("a message is named by its sender and its number, as in 3.1")
    }
}

impl Error for ParseNameError {}

impl Pending {
    /// Every field zero.
    pub const BLANK: Pending = Pending { held: 0, marks: [ForwardNumber(0); CONTROLLERS] };
}

impl Controller {
    /// Every field zero.
    pub const BLANK: Controller = Controller {
        length: 0,
        log: [0; MESSAGES],
        read: [0; CONTROLLERS],
        pending: [Pending::BLANK; MESSAGES],
        applied: [0; MESSAGES],
        highest: [MessageNumber::NONE; CONTROLLERS],
        running: 0,
    };
}

impl Table {
    /// Every field zero: the table of a refused answer, which is not well formed.
    pub const BLANK: Table = Table {
        version: 0,
        n: 0,
        count: 0,
        messages: [Message::BLANK; MESSAGES],
        controllers: [Controller::BLANK; CONTROLLERS],
    };

    /// The table as it lies in memory, to be saved, sent to a machine of the same kind, or compared.
    ///
    /// ```
    /// use furnacejade::{fresh, Table};
    /// let table = fresh(1, 3).unwrap();
    /// assert_eq!(Table::from_bytes(table.as_bytes()), table);
    /// ```
    #[must_use]
    pub fn as_bytes(&self) -> &[u8; size_of::<Table>()] {
        // SAFETY: no byte of a table is padding, which is asserted below, so every byte has been set. Bytes have no
        // alignment, and the result borrows the table.
        unsafe { &*core::ptr::from_ref(self).cast() }
    }

    /// The table that lies in these bytes. Every pattern of bytes is a table, though few are well formed.
    #[must_use]
    pub fn from_bytes(bytes: &[u8; size_of::<Table>()]) -> Table {
        // SAFETY: both types have one size, and every field of a table is a number, of which every pattern of bytes is
        // a value.
        unsafe { core::mem::transmute(*bytes) }
    }
}

impl Sums {
    /// Every field zero.
    pub const BLANK: Sums = Sums { added: 0, withdrawn: 0 };
}

impl Display for Sums {
    fn fmt(&self, f: &mut Formatter<'_>) -> core::fmt::Result {
        padded(f, format_args!("{} {}", self.added, self.withdrawn))
    }
}

/// A short text with the width that a format asks for, as in `{:>8}`.
fn padded(f: &mut Formatter<'_>, text: Arguments<'_>) -> core::fmt::Result {
    let mut short = Short { length: 0, bytes: [0; Short::LONGEST] };
    short.write_fmt(text)?;
    f.pad(core::str::from_utf8(&short.bytes[..short.length]).unwrap_or_default())
}

/// A text on the stack.
struct Short {
    length: usize,
    bytes: [u8; Short::LONGEST],
}

impl Short {
    /// Two numbers of 32 bits and what stands between them.
    const LONGEST: usize = 21;
}

impl Write for Short {
    fn write_str(&mut self, text: &str) -> core::fmt::Result {
        let end = self.length + text.len();
        self.bytes.get_mut(self.length..end).ok_or(core::fmt::Error)?.copy_from_slice(text.as_bytes());
        self.length = end;
        Ok(())
    }
}

impl Stamp {
    /// Every field zero: the stamp of a register that was not written.
    pub const BLANK: Stamp = Stamp { date: 0, writer: 0 };
}

impl Register {
    /// Every field zero: a register that was not written.
    pub const BLANK: Register = Register { value: 0, stamp: Stamp::BLANK };
}

impl Panel {
    /// Every field zero.
    pub const BLANK: Panel =
        Panel { sums: Sums::BLANK, classes: [Sums::BLANK; CLASSES], registers: [Register::BLANK; REGISTERS] };

    /// The sums of a class.
    ///
    /// ```
    /// use furnacejade::{Class, Panel, Sums};
    /// let sums = Sums { added: 30, withdrawn: 2 };
    /// let classes = [Sums::BLANK, sums, Sums::BLANK, Sums::BLANK, Sums::BLANK];
    /// let panel = Panel { sums, classes, ..Panel::BLANK };
    /// assert_eq!((panel.of(Class::Xl), panel.of(Class::L)), (sums, Sums::BLANK));
    /// ```
    #[must_use]
    pub fn of(&self, class: Class) -> Sums {
        self.classes[usize::from(class.number())]
    }

    /// A register by its number, 1 to 8; none for any other number.
    ///
    /// ```
    /// use furnacejade::{Panel, Register};
    /// let panel = Panel::BLANK;
    /// assert_eq!((panel.register(0), panel.register(8), panel.register(9)), (None, Some(Register::BLANK), None));
    /// ```
    #[must_use]
    pub fn register(&self, number: u8) -> Option<Register> {
        self.registers.get(usize::from(number).checked_sub(1)?).copied()
    }
}

impl Answer {
    /// Every field zero: a place for an answer.
    pub const BLANK: Answer = Answer {
        refusal: RefusalNumber::ACCEPTED,
        finished: 0,
        sums: Sums::BLANK,
        size: 0,
        names: [Name::BLANK; MESSAGES],
    };

    /// The set applied, by sender and then number. It is empty if nothing was applied. (Of an answer made by hand, at
    /// most the names that it has a place for.)
    #[must_use]
    pub fn applied(&self) -> &[Name] {
        &self.names[..self.size.min(MESSAGES)]
    }

    /// The answer of the sync that the event finished: its sender's sums after the set applied. None if it finished
    /// none.
    #[must_use]
    pub fn sync_answer(&self) -> Option<Sums> {
        (self.finished != 0).then_some(self.sums)
    }
}

impl Pair {
    /// Every field zero: the pair of no handover.
    pub const BLANK: Pair = Pair { receiver: 0, owner: 0 };

    /// The handover to a receiver of the next entry of an owner's log.
    #[must_use]
    pub const fn new(receiver: u8, owner: u8) -> Pair {
        Pair { receiver: receiver as usize, owner: owner as usize }
    }
}

impl DispatchAnswer {
    /// Every field zero: a place for an answer, and what the dispatcher answers where no handover is left.
    pub const BLANK: DispatchAnswer = DispatchAnswer { pair: Pair::BLANK, answer: Answer::BLANK };

    /// The handover that was made; none if no handover was left, or the call was refused.
    #[must_use]
    pub fn served(&self) -> Option<Pair> {
        (self.pair.receiver > 0).then_some(self.pair)
    }
}

impl AskAnswer {
    /// Every field zero: a place for an answer.
    pub const BLANK: AskAnswer =
        AskAnswer { refusal: RefusalNumber::ACCEPTED, acts: 0, size: 0, names: [Name::BLANK; MESSAGES] };

    /// The set that the handover would apply, by sender and then number. It is empty if nothing would be applied.
    /// (Of an answer made by hand, at most the names that it has a place for.)
    #[must_use]
    pub fn set(&self) -> &[Name] {
        &self.names[..self.size.min(MESSAGES)]
    }
}

impl FreshAnswer {
    /// Every field zero: a place for an answer.
    pub const BLANK: FreshAnswer = FreshAnswer { refusal: RefusalNumber::ACCEPTED, table: Table::BLANK };
}

impl LookAnswer {
    /// Every field zero: a place for an answer.
    pub const BLANK: LookAnswer = LookAnswer { refusal: RefusalNumber::ACCEPTED, panel: Panel::BLANK };
}

impl CountAnswer {
    /// Every field zero: a place for an answer.
    pub const BLANK: CountAnswer = CountAnswer { refusal: RefusalNumber::ACCEPTED, count: 0 };
}

impl RunAnswer {
    /// Every field zero: a place for an answer.
    pub const BLANK: RunAnswer =
        RunAnswer { refusal: RefusalNumber::ACCEPTED, events: 0, written: 0, table: Table::BLANK };
}

const fn size_of_field<T, F>(_: fn(&T) -> &F) -> usize {
    size_of::<F>()
}

/// Asserts a struct's size, where its fields stand, and how many bytes of it are no field's.
macro_rules! layout {
    ($type:ident, $size:literal bytes, $padding:literal of padding: $($field:tt at $place:literal),+) => {
        const _: () = {
            assert!(size_of::<$type>() == $size);
            $(assert!(offset_of!($type, $field) == $place);)+
            assert!($size == $padding $(+ size_of_field(|x: &$type| &x.$field))+);
        };
    };
}

// The layouts that the library was compiled with. A table, and every struct inside one, is its fields and nothing more.
layout!(ForwardNumber, 1 bytes, 0 of padding: 0 at 0);
layout!(MessageNumber, 1 bytes, 0 of padding: 0 at 0);
layout!(ClassNumber, 1 bytes, 0 of padding: 0 at 0);
layout!(RefusalNumber, 1 bytes, 0 of padding: 0 at 0);
layout!(Payload, 12 bytes, 0 of padding: kind at 0, class at 1, added at 2, withdrawn at 4, reg at 6, value at 8);
layout!(Message, 16 bytes, 0 of padding: sender at 0, number at 1, date at 2, payload at 4);
layout!(Name, 2 bytes, 0 of padding: sender at 0, number at 1);
layout!(Pending, 8 bytes, 0 of padding: held at 0, marks at 1);
layout!(Controller, 712 bytes, 0 of padding: length at 0, log at 8, read at 72, pending at 128, applied at 640,
    highest at 704, running at 711);
layout!(Table, 6032 bytes, 0 of padding: version at 0, n at 8, count at 16, messages at 24, controllers at 1048);
layout!(Sums, 8 bytes, 0 of padding: added at 0, withdrawn at 4);
layout!(Stamp, 4 bytes, 0 of padding: date at 0, writer at 2);
layout!(Register, 8 bytes, 0 of padding: value at 0, stamp at 4);
layout!(Panel, 112 bytes, 0 of padding: sums at 0, classes at 8, registers at 48);
layout!(Answer, 152 bytes, 6 of padding: refusal at 0, finished at 1, sums at 4, size at 16, names at 24);
layout!(Pair, 16 bytes, 0 of padding: receiver at 0, owner at 8);
layout!(DispatchAnswer, 168 bytes, 0 of padding: pair at 0, answer at 16);
layout!(AskAnswer, 152 bytes, 7 of padding: refusal at 0, acts at 8, size at 16, names at 24);
layout!(FreshAnswer, 6040 bytes, 7 of padding: refusal at 0, table at 8);
layout!(LookAnswer, 116 bytes, 3 of padding: refusal at 0, panel at 4);
layout!(CountAnswer, 16 bytes, 7 of padding: refusal at 0, count at 8);
layout!(RunAnswer, 6056 bytes, 7 of padding: refusal at 0, events at 8, written at 16, table at 24);
