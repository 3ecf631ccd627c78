//! Weight classes: the enum that results have, and the number that tables and records have.

use crate::CLASSES;
use core::error::Error;
use core::fmt::{Display, Formatter};
use core::str::FromStr;

/// The weight class of a report's eggs. Its text is its name, and is read in capitals and in small letters.
///
/// ```
/// use furnacejade::Class;
/// assert_eq!(Class::Xl.to_string(), "XL");
/// assert_eq!("xl".parse(), Ok(Class::Xl));
/// assert_eq!("XXL".parse::<Class>().unwrap_err().to_string(), "a class is XL, L, M, S or none");
/// ```
#[derive(Clone, Copy, Debug, PartialEq, Eq, PartialOrd, Ord, Hash)]
pub enum Class {
    /// No class: reports of version 1, syncs and writes have none.
    None,
    /// Very large eggs.
    Xl,
    /// Large eggs.
    L,
    /// Medium eggs.
    M,
    /// Small eggs.
    S,
}

impl Class {
    /// The classes that a report of version 2 may name.
    pub const ALL: [Class; CLASSES - 1] = [Class::Xl, Class::L, Class::M, Class::S];

    /// The number of the class: 0 for none, and 1 to 4.
    #[must_use]
    pub const fn number(self) -> u8 {
        match self {
            Class::None => 0,
            Class::Xl => 1,
            Class::L => 2,
            Class::M => 3,
            Class::S => 4,
        }
    }

    const fn name(self) -> &'static str {
        match self {
            Class::None => "none",
            Class::Xl => "XL",
            Class::L => "L",
            Class::M => "M",
            Class::S => "S",
        }
    }

    fn find(wanted: impl Fn(&Class) -> bool) -> Option<Class> {
        [Class::None].into_iter().chain(Class::ALL).find(wanted)
    }
}

impl Display for Class {
    fn fmt(&self, f: &mut Formatter<'_>) -> core::fmt::Result {
        f.pad(self.name())
    }
}

impl FromStr for Class {
    type Err = ParseClassError;

    fn from_str(text: &str) -> Result<Class, ParseClassError> {
        Class::find(|class| class.name().eq_ignore_ascii_case(text)).ok_or(ParseClassError(()))
    }
}

/// A text that is not the name of a class.
#[derive(Clone, Debug, PartialEq, Eq)]
pub struct ParseClassError(());

impl Display for ParseClassError {
    fn fmt(&self, f: &mut Formatter<'_>) -> core::fmt::Result {
        f.write_str("a class is XL, L, M, S or none")
    }
}

impl Error for ParseClassError {}

/// A class as tables and records have it: its number. Any byte may stand there.
///
/// ```
/// use furnacejade::{Class, ClassNumber};
/// assert_eq!(ClassNumber::from(Class::M), ClassNumber(3));
/// assert_eq!((ClassNumber(3).class(), ClassNumber(77).class()), (Some(Class::M), None));
/// ```
#[repr(transparent)]
#[derive(Clone, Copy, Debug, PartialEq, Eq, PartialOrd, Ord, Hash)]
pub struct ClassNumber(pub u8);

impl ClassNumber {
    /// The class with this number, if there is one.
    #[must_use]
    pub fn class(self) -> Option<Class> {
        Class::find(|class| class.number() == self.0)
    }
}

impl From<Class> for ClassNumber {
    fn from(class: Class) -> ClassNumber {
        ClassNumber(class.number())
    }
}
