//! Records and run files: a record as a type that writes its own bytes, and the records of a file. Nothing is
//! allocated.

use crate::{ClassNumber, Pair};
use core::fmt::{Debug, Formatter};
use core::iter::FusedIterator;
use core::ops::Deref;

/// The bytes of the longest record, a write.
pub const LONGEST_RECORD: usize = 8;

/// One event. Its fields may hold anything: the engine answers a record that it cannot carry out with a refusal.
#[derive(Clone, Copy, Debug, PartialEq, Eq, Hash)]
pub enum Record {
    /// In version 1, a sender reports an amount of eggs, -360 to 360 and not 0. Any number of its reports may be
    /// pending.
    Report {
        /// The controller that sends the report.
        sender: u8,
        /// How many eggs were added, or, if negative, withdrawn.
        amount: i16,
    },
    /// In version 2, a sender reports an amount of eggs of one weight class.
    ClassedReport {
        /// The controller that sends the report.
        sender: u8,
        /// How many eggs were added, or, if negative, withdrawn.
        amount: i16,
        /// The number of the eggs' class, [`Class::Xl`](crate::Class::Xl) to [`Class::S`](crate::Class::S).
        class: ClassNumber,
    },
    /// A sender asks for its sums, and gets them when it applies the sync. They have in them every message that was
    /// finished before the sync was sent. (A message is finished when its own sender has applied it.) The sender must
    /// have no message of its own pending.
    Sync {
        /// The controller that sends the sync.
        sender: u8,
    },
    /// A receiver reads the next entry of a log, its own or another's, and applies the largest set that it may.
    Handover {
        /// The controller that reads.
        receiver: u8,
        /// The controller whose log is read.
        owner: u8,
    },
    /// A controller stops for good, and its log is cut.
    Stop {
        /// The controller that stops.
        controller: u8,
        /// How many entries of its log are kept; [`Table::kept`](crate::Table::kept) says how many may be.
        kept: u16,
    },
    /// A controller asks for the sums that its panel shows. It sends no message, and the table stays as it is. The sums
    /// may lack what is finished elsewhere. The controller must have no message of its own pending.
    LocalRead {
        /// The controller that reads.
        controller: u8,
    },
    /// A sender sets a register. Its latest message must be a sync that it has applied.
    Write {
        /// The controller that sends the write.
        sender: u8,
        /// The register, 1 to 8.
        register: u8,
        /// The value that the register gets.
        value: u32,
    },
}

impl Record {
    /// The bytes of the record: the number of bytes that follow, the kind, the fields.
    ///
    /// ```
    /// use furnacejade::{Class, Record};
    /// assert_eq!(Record::Report { sender: 3, amount: -2 }.bytes(), [4, 1, 3, 0xFF, 0xFE]);
    /// let classed = Record::ClassedReport { sender: 3, amount: -2, class: Class::M.into() };
    /// assert_eq!(classed.bytes(), [5, 1, 3, 0xFF, 0xFE, 3]);
    /// assert_eq!(Record::Handover { receiver: 2, owner: 1 }.bytes(), [3, 3, 2, 1]);
    /// assert_eq!(Record::LocalRead { controller: 2 }.bytes(), [2, 5, 2]);
    /// assert_eq!(Record::Write { sender: 2, register: 1, value: 1500 }.bytes(), [7, 6, 2, 1, 0, 0, 5, 0xDC]);
    /// ```
    #[must_use]
    pub fn bytes(&self) -> RecordBytes {
        match *self {
            Record::Report { sender, amount } => {
                let [high, low] = amount.to_be_bytes();
                RecordBytes::of(&[4, 1, sender, high, low])
            }
            Record::ClassedReport { sender, amount, class } => {
                let [high, low] = amount.to_be_bytes();
                RecordBytes::of(&[5, 1, sender, high, low, class.0])
            }
            Record::Sync { sender } => RecordBytes::of(&[2, 2, sender]),
            Record::Handover { receiver, owner } => RecordBytes::of(&[3, 3, receiver, owner]),
            Record::Stop { controller, kept } => {
                let [high, low] = kept.to_be_bytes();
                RecordBytes::of(&[4, 4, controller, high, low])
            }
            Record::LocalRead { controller } => RecordBytes::of(&[2, 5, controller]),
            Record::Write { sender, register, value } => {
                let [a, b, c, d] = value.to_be_bytes();
                RecordBytes::of(&[7, 6, sender, register, a, b, c, d])
            }
        }
    }

    /// The record of which these are all the bytes, whatever its fields hold; none if no record has this form. Both
    /// forms of a report are read, whatever the version.
    ///
    /// ```
    /// use furnacejade::Record;
    /// let write = Record::Write { sender: 2, register: 9, value: 1500 };
    /// assert_eq!(Record::from_bytes(&write.bytes()), Some(write));
    /// assert_eq!(Record::from_bytes(&[3, 5, 2, 0]), None);
    /// ```
    #[must_use]
    pub fn from_bytes(bytes: &[u8]) -> Option<Record> {
        Some(match *bytes {
            [4, 1, sender, high, low] => Record::Report { sender, amount: i16::from_be_bytes([high, low]) },
            [5, 1, sender, high, low, class] => {
                Record::ClassedReport { sender, amount: i16::from_be_bytes([high, low]), class: ClassNumber(class) }
            }
            [2, 2, sender] => Record::Sync { sender },
            [3, 3, receiver, owner] => Record::Handover { receiver, owner },
            [4, 4, controller, high, low] => Record::Stop { controller, kept: u16::from_be_bytes([high, low]) },
            [2, 5, controller] => Record::LocalRead { controller },
            [7, 6, sender, register, a, b, c, d] => {
                Record::Write { sender, register, value: u32::from_be_bytes([a, b, c, d]) }
            }
            _ => return None,
        })
    }
}

/// The handover that the pair names, as a record of a run file. A number above 255 becomes 255, which no question lets
/// pass.
impl From<Pair> for Record {
    fn from(Pair { receiver, owner }: Pair) -> Record {
        let byte = |number| u8::try_from(number).unwrap_or(u8::MAX);
        Record::Handover { receiver: byte(receiver), owner: byte(owner) }
    }
}

/// The bytes of a record, on the stack. They are used as a slice.
#[derive(Clone, Copy, PartialEq, Eq, Hash)]
pub struct RecordBytes {
    length: usize,
    /// Zero from `length` on.
    bytes: [u8; LONGEST_RECORD],
}

impl RecordBytes {
    fn of(record: &[u8]) -> RecordBytes {
        let mut bytes = [0; LONGEST_RECORD];
        bytes[..record.len()].copy_from_slice(record);
        RecordBytes { length: record.len(), bytes }
    }
}

impl Deref for RecordBytes {
    type Target = [u8];

    fn deref(&self) -> &[u8] {
        &self.bytes[..self.length]
    }
}

impl AsRef<[u8]> for RecordBytes {
    fn as_ref(&self) -> &[u8] {
        self
    }
}

impl Debug for RecordBytes {
    fn fmt(&self, f: &mut Formatter<'_>) -> core::fmt::Result {
        Debug::fmt(&**self, f)
    }
}

impl IntoIterator for RecordBytes {
    type Item = u8;
    type IntoIter = core::iter::Take<core::array::IntoIter<u8, LONGEST_RECORD>>;

    fn into_iter(self) -> Self::IntoIter {
        self.bytes.into_iter().take(self.length)
    }
}

impl<'a> IntoIterator for &'a RecordBytes {
    type Item = &'a u8;
    type IntoIter = core::slice::Iter<'a, u8>;

    fn into_iter(self) -> Self::IntoIter {
        self.iter()
    }
}

impl PartialEq<[u8]> for RecordBytes {
    fn eq(&self, other: &[u8]) -> bool {
        **self == *other
    }
}

impl PartialEq<&[u8]> for RecordBytes {
    fn eq(&self, other: &&[u8]) -> bool {
        **self == **other
    }
}

impl<const N: usize> PartialEq<[u8; N]> for RecordBytes {
    fn eq(&self, other: &[u8; N]) -> bool {
        **self == *other
    }
}

/// The two bytes with which a run file begins: its version, 1 or 2, and its number of controllers. The bytes of its
/// records follow.
///
/// ```
/// use furnacejade::{head, Record};
/// let mut file = head(1, 3).to_vec();
/// file.extend(Record::Sync { sender: 2 }.bytes());
/// assert_eq!(file, [1, 3, 2, 2, 2]);
/// ```
#[must_use]
pub const fn head(version: u8, n: u8) -> [u8; 2] {
    [version, n]
}

/// The records of a run file, which stand from its third byte on, one after the other. The last may be cut short.
///
/// ```
/// use furnacejade::{records, Record};
/// let file = [1, 3, 2, 2, 1, 1, 9, 4, 1];
/// let parts: Vec<_> = records(&file).map(|part| (part.offset, part.bytes, part.record)).collect();
/// let sync = Record::Sync { sender: 1 };
/// assert_eq!(parts, [(2, &file[2..5], Some(sync)), (5, &file[5..7], None), (7, &file[7..9], None)]);
/// ```
#[must_use]
pub const fn records(file: &[u8]) -> Records<'_> {
    Records { file, offset: 2 }
}

/// One record of a run file.
#[derive(Clone, Copy, Debug, PartialEq, Eq, Hash)]
pub struct Part<'a> {
    /// The place of the record's length byte in the file.
    pub offset: usize,
    /// The length byte and the bytes that it counts, as far as the file has them.
    pub bytes: &'a [u8],
    /// The record, if the bytes have the form of one.
    pub record: Option<Record>,
}

/// What [`records`] makes: an iterator over the records of a run file.
#[derive(Clone, Debug)]
pub struct Records<'a> {
    file: &'a [u8],
    offset: usize,
}

impl<'a> Iterator for Records<'a> {
    type Item = Part<'a>;

    fn next(&mut self) -> Option<Part<'a>> {
        let (rest, offset) = (self.file.get(self.offset..)?, self.offset);
        let bytes = rest.get(..=usize::from(*rest.first()?)).unwrap_or(rest);
        self.offset += bytes.len();
        Some(Part { offset, bytes, record: Record::from_bytes(bytes) })
    }
}

impl FusedIterator for Records<'_> {}
