//! Refusals: one list of their numbers, names and questions, and the types that are made from it.

use core::error::Error;
use core::fmt::{Debug, Display, Formatter};
use core::num::NonZeroU8;

macro_rules! refusals {
    ($(($number:literal, $name:ident, $question:literal),)*) => {
        /// Why a call was refused: the first question that was answered no. `docs/API.md` says what to do after each. A
        /// later package may have more of them, so a `match` ends with `_`.
        ///
        /// ```
        /// use furnacejade::{look, Refusal, Table};
        /// let refusal = look(&Table::BLANK, 1).unwrap_err();
        /// assert_eq!(refusal, Refusal::Table);
        /// assert_eq!((refusal.number(), refusal.question()), (4, "Is the table well formed?"));
        /// assert_eq!(refusal.to_string(), "refused by question 4: is the table well formed?");
        /// assert_eq!(format!("{refusal:?}"), "Table (refused by question 4: is the table well formed?)");
        /// ```
        #[non_exhaustive]
        #[derive(Clone, Copy, PartialEq, Eq, PartialOrd, Ord, Hash)]
        pub enum Refusal {
            $(
                #[doc = concat!("Question ", $number, ": ", $question)]
                $name,
            )*
            /// A number that no question of this package has. It stands in an answer that was made by hand, or
            /// in an answer of a later library.
            Unknown(NonZeroU8),
        }

        impl Refusal {
            /// The refusal of each question, in the order of the questions' numbers, from 1 on.
            pub const ALL: &'static [Refusal] = &[$(Refusal::$name,)*];

            const fn name(self) -> &'static str {
                match self {
                    $(Refusal::$name => stringify!($name),)*
                    Refusal::Unknown(_) => "Unknown",
                }
            }

            /// The number of the question.
            #[must_use]
            pub const fn number(self) -> u8 {
                match self {
                    $(Refusal::$name => $number,)*
                    Refusal::Unknown(number) => number.get(),
                }
            }

            /// The question in words. For [`Refusal::Unknown`] it says that no question has the number.
            #[must_use]
            pub const fn question(self) -> &'static str {
                match self {
                    $(Refusal::$name => $question,)*
                    Refusal::Unknown(_) => "No question of this package has this number",
                }
            }
        }

        impl From<NonZeroU8> for Refusal {
            fn from(number: NonZeroU8) -> Refusal {
                match number.get() {
                    $($number => Refusal::$name,)*
                    _ => Refusal::Unknown(number),
                }
            }
        }
    };
}

refusals! {
    (1, FileLength, "Has the file 2 to 65,535 bytes?"),
    (2, Version, "Is the version 1 or 2?"),
    (3, ControllerCount, "Is the number of controllers from 1 to 7?"),
    (4, Table, "Is the table well formed?"),
    (5, Record, "Are the length byte and all the bytes it counts there?"),
    (6, Kind, "Is there a kind, from 1 to 6?"),
    (7, RecordLength, "Is the length that of the kind?"),
    (8, Controller, "Is every controller named from 1 to n?"),
    (9, Amount, "Is a report's amount from -360 to 360 and not 0?"),
    (10, Stopped, "Is the sender, receiver, or controller to be stopped or read still running?"),
    (11, OwnPending, "Has the sender of a sync or write no message of its own pending?"),
    (12, Full, "Has the run fewer than 64 messages?"),
    (13, NoEntry, "Does the log have an entry that the receiver has not read?"),
    (14, Kept, "Is the length kept at most the log's, and at least every read position in it?"),
    (15, Scratch, "Has the scratch area 64 bytes or more?"),
    (16, Listing, "Does the line fit in what is left of the listing?"),
    (17, Class, "Is the class of a report of version 2 from 1 to 4?"),
    (18, ReadPending, "Has the controller of a local read no message of its own pending?"),
    (19, Register, "Is the register of a write from 1 to 8?"),
    (20, NotSynced, "Is the latest message of a write's sender a sync that it has applied?"),
    (21, ActCount, "Is the act count of a commit its receiver's?"),
}

impl Display for Refusal {
    fn fmt(&self, f: &mut Formatter<'_>) -> core::fmt::Result {
        if let Refusal::Unknown(number) = self {
            return write!(f, "refused by number {number}, which no question of this package has");
        }
        let mut question = self.question().chars();
        let first = question.next().map_or(' ', |letter| letter.to_ascii_lowercase());
        write!(f, "refused by question {}: {first}{}", self.number(), question.as_str())
    }
}

/// Its name and its text, since this is what a program prints whose `main` returns a refusal.
impl Debug for Refusal {
    fn fmt(&self, f: &mut Formatter<'_>) -> core::fmt::Result {
        write!(f, "{} ({self})", self.name())
    }
}

impl Error for Refusal {}

/// What an answer holds of its refusal: the question's number, and 0 where the call was accepted. Any byte may stand
/// there.
///
/// ```
/// use furnacejade::{Refusal, RefusalNumber};
/// assert_eq!(RefusalNumber::ACCEPTED.check(), Ok(()));
/// assert_eq!(RefusalNumber(12).check(), Err(Refusal::Full));
/// ```
#[repr(transparent)]
#[derive(Clone, Copy, Debug, PartialEq, Eq, PartialOrd, Ord, Hash)]
pub struct RefusalNumber(pub u8);

impl RefusalNumber {
    /// The number of an answer whose call was accepted.
    pub const ACCEPTED: RefusalNumber = RefusalNumber(0);

    /// Nothing if the call was accepted, and otherwise the refusal as an error.
    ///
    /// # Errors
    ///
    /// The refusal, for every number but 0.
    pub fn check(self) -> Result<(), Refusal> {
        self.refusal().map_or(Ok(()), Err)
    }

    /// The refusal, if there is one.
    #[must_use]
    pub fn refusal(self) -> Option<Refusal> {
        NonZeroU8::new(self.0).map(Refusal::from)
    }
}

impl From<Refusal> for RefusalNumber {
    fn from(refusal: Refusal) -> RefusalNumber {
        RefusalNumber(refusal.number())
    }
}
