//! A run file with what the reference says of it: the run, and what the program prints. And what the checks of all
//! commands need: its first records, names as text, the majority.

use crate::reference::{self, run_file, Name, Run, State, LISTING, SCRATCH};

/// A file with what the reference says of it.
pub struct Played<'a> {
    pub bytes: &'a [u8],
    pub run: Run,
    /// What the program prints.
    pub printed: String,
    /// Also the number of its picture, and the seed of what is asked of it.
    pub index: usize,
}

impl Played<'_> {
    pub fn new(bytes: &[u8], index: usize) -> Played<'_> {
        let printed = String::from_utf8_lossy(&reference::program(bytes)).into_owned();
        Played { bytes, run: run_of(bytes), printed, index }
    }

    /// The status of a command that plays the file.
    pub fn status(&self) -> i32 {
        (self.run.refusal != 0) as i32
    }
}

/// The run of a file.
pub fn run_of(bytes: &[u8]) -> Run {
    run_file(bytes, &mut vec![0; LISTING], &mut [0; SCRATCH])
}

/// The bytes of the first records of a file.
pub fn first_records(bytes: &[u8], number: usize) -> Vec<&[u8]> {
    let mut rest = bytes.get(2..).unwrap_or_default();
    let mut next = || {
        let (record, after) = rest.split_at((*rest.first()? as usize + 1).min(rest.len()));
        rest = after;
        Some(record)
    };
    (0..number).map_while(|_| next()).collect()
}

pub fn name_text(name: &Name) -> String {
    format!("{}.{}", name.sender, name.number)
}

pub fn majority(state: &State) -> usize {
    state.n / 2 + 1
}
