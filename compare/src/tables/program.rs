//! The program `bindings/c/tables.c`, which prints what the C header's functions say of tables.

use furnacejade::Table;
use std::io::Write;
use std::process::{Command, Stdio};

/// What the program prints of each of these tables.
pub fn printed_by(path: &str, tables: &[Table]) -> Result<Vec<String>, String> {
    let mut child = Command::new(path)
        .stdin(Stdio::piped())
        .stdout(Stdio::piped())
        .spawn()
        .map_err(|error| format!("{path} does not start: {error}"))?;
    let mut input = child.stdin.take().expect("standard input");
    let output = std::thread::scope(|scope| {
        // The program prints while it reads, so neither may wait for the other. A failed write shows in the output.
        scope.spawn(move || tables.iter().all(|t| input.write_all(t.as_bytes()).is_ok()));
        child.wait_with_output()
    });
    let output = output.map_err(|error| format!("{path} does not end: {error}"))?;
    let text = String::from_utf8_lossy(&output.stdout).into_owned();
    let parts: Vec<String> = (1..).zip(split(&text)).map_while(|(place, part)| part_of(place, part)).collect();
    match output.status.success() && parts.len() == tables.len() {
        true => Ok(parts),
        false => Err(format!("{path} prints {} tables of {}: {}", parts.len(), tables.len(), output.status)),
    }
}

/// The text of each table, which begins with its place.
fn split(text: &str) -> impl Iterator<Item = &str> {
    text.split("table ").skip(1)
}

fn part_of(place: usize, part: &str) -> Option<String> {
    part.strip_prefix(&format!("{place}\n")).map(String::from)
}
