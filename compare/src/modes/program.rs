//! The mode `program`: the same run files through an executable, the library and the reference. What they print must be
//! the same.

use super::{check, check_printed, ONCE};
use crate::cases::text::hexadecimal;
use crate::cases::{minimise, Case};
use crate::{generate, reference};
use std::io::Write;
use std::process::{exit, Command, Stdio};

/// Runs the executable on one input.
fn printed_by(path: &str, input: &[u8]) -> Vec<u8> {
    let mut child =
        Command::new(path).stdin(Stdio::piped()).stdout(Stdio::piped()).spawn().expect("the program starts");
    // A program may stop reading after 65,535 bytes, so a failed write is no failure.
    let _ = child.stdin.take().unwrap().write_all(input);
    child.wait_with_output().expect("the program ends").stdout
}

/// The same files through the program, the library and the reference.
pub fn compare(path: &str, files: usize, seed: u64) {
    println!("seed {seed}, {files} files");
    check_printed(|input| printed_by(path, input));
    let differs = |case: &Case| reference::program(case.file_bytes()) != printed_by(path, case.file_bytes());
    for case in (0..).filter_map(|index| generate::case(seed, index).1.into_file_alone()).take(files) {
        check("a file", &case, &ONCE);
        if differs(&case) {
            let small = minimise::minimise(&case, &differs);
            let (right, found) = (reference::program(small.file_bytes()), printed_by(path, small.file_bytes()));
            let (right, found) = (String::from_utf8_lossy(&right), String::from_utf8_lossy(&found));
            println!("FAILED, made small: {}\nexpected\n{right}found\n{found}", hexadecimal(small.file_bytes()));
            exit(1);
        }
    }
    println!("{files} files: program, library and reference say the same");
}
