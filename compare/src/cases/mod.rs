//! A case: a head that gives a table, and calls on it. Here stand its text, the folder of kept cases, records as bytes,
//! and how a failing case is made small.

mod fields;
pub mod kept;
pub mod minimise;
pub mod records;
pub mod text;

use crate::reference::{LISTING, SCRATCH};
use furnacejade::{MessageNumber, Name, Pair, Table};

#[derive(Clone)]
pub enum Head {
    Fresh { version: usize, n: usize },
    File { bytes: Vec<u8>, listing: usize, scratch: usize },
    Table(Box<Table>),
}

#[derive(Clone)]
pub enum Call {
    Event { bytes: Vec<u8>, scratch: usize },
    Look(usize),
    CountBefore(Asked),
    Dispatch { named: Pair, scratch: usize },
    Ask { pair: Pair, scratch: usize },
    Commit { pair: Pair, acts: usize, scratch: usize },
}

impl Call {
    /// What is asked, if it is a count of "goes before".
    fn asked(&self) -> Option<Asked> {
        match self {
            Call::CountBefore(asked) => Some(*asked),
            _ => None,
        }
    }
}

#[derive(Clone)]
pub struct Case {
    pub head: Head,
    pub calls: Vec<Call>,
}

/// How many put the first message before the second at a controller? All three may be anything.
#[derive(Clone, Copy, Debug, PartialEq, Eq, Hash)]
pub struct Asked {
    pub controller: usize,
    pub first: Name,
    pub second: Name,
}

pub fn name(sender: usize, number: usize) -> Name {
    Name { sender: sender as u8, number: MessageNumber(number as u8) }
}

/// What is asked by calls that are counts of "goes before".
pub fn asked_in(calls: &[Call]) -> Vec<Asked> {
    calls.iter().filter_map(Call::asked).collect()
}

impl Case {
    /// The calls, each alone; only counts of "goes before" in a row stay together. There may be very many of these on
    /// one table, which the reference then reads once.
    pub fn counts_together(&self) -> impl Iterator<Item = &[Call]> {
        self.calls.chunk_by(|one, next| one.asked().is_some() && next.asked().is_some())
    }

    /// The bytes of a case that is a file.
    pub fn file_bytes(&self) -> &[u8] {
        match &self.head {
            Head::File { bytes, .. } => bytes,
            _ => &[],
        }
    }

    /// A file alone, with what the program lends to its run.
    pub fn file_alone(bytes: Vec<u8>) -> Case {
        Case { head: Head::File { bytes, listing: LISTING, scratch: SCRATCH }, calls: vec![] }
    }

    /// The case's own file alone, if it has one.
    pub fn into_file_alone(self) -> Option<Case> {
        match self.head {
            Head::File { bytes, .. } => Some(Case::file_alone(bytes)),
            _ => None,
        }
    }
}
