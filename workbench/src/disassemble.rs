//! The text of any run file. Bytes that have the form of no record are shown as bytes, with what is wrong with them.

use crate::play::Play;
use crate::text::record_text;
use crate::words::{hexadecimal, malformed};
use furnacejade::{records, Part, Record, Refusal};
use std::fmt::Write;

/// A line has at most this many handovers to one receiver.
const HANDOVERS: usize = 8;

/// A line has at most this many bytes.
const BYTES: usize = 16;

/// The column of the comments.
const COMMENT: usize = 34;

/// The number of a part of a file, and the part: a record, or bytes that have the form of none.
type Numbered<'a> = (usize, Part<'a>);

fn receiver((_, part): &Numbered) -> Option<u8> {
    match part.record {
        Some(Record::Handover { receiver, .. }) => Some(receiver),
        _ => None,
    }
}

/// A line for each event, for handovers in a row to one receiver, and for bytes that are no record. Each ends in a comment
/// with the numbers of its records and the offset at which it begins.
pub fn disassemble(file: &[u8]) -> String {
    let [version, controllers, ..] = *file else {
        return line(&bytes_line(file), "offset 0: a run file has 2 bytes or more");
    };
    format!("version {version}\ncontrollers {controllers}\n\n") + &lines_after(file, version, 0)
}

/// The lines that make the dispatcher's handovers when they stand at the end of the text, after a comment. The comment says so
/// where the engine refuses the file for its length then.
pub fn hand_lines(play: &Play) -> Vec<String> {
    if play.dispatched().is_empty() {
        return vec![];
    }
    let (longer, refusal) = play.longer_file();
    let mut lines = vec!["# the same handovers, to be put at the end of the text".to_string()];
    if let Some(refusal @ Refusal::FileLength) = refusal {
        lines.push(format!("# with them the file has {} bytes, and is {refusal}", longer.len()));
    }
    lines.extend(lines_after(&longer, longer[0], play.recorded).lines().map(str::to_string));
    lines
}

/// The lines of all records but the first ones.
fn lines_after(file: &[u8], version: u8, first: usize) -> String {
    let mut text = String::new();
    let parts: Vec<Numbered> = (1..).zip(records(file)).skip(first).collect();
    for run in parts.chunk_by(|one, next| receiver(one).is_some() && receiver(one) == receiver(next)) {
        for group in run.chunks(HANDOVERS) {
            text += &group_text(group, version);
        }
    }
    text
}

fn group_text(group: &[Numbered], version: u8) -> String {
    let ((number, first), (last, _)) = (&group[0], &group[group.len() - 1]);
    let numbers = match group {
        [_] => format!("record {number}"),
        _ => format!("records {number} to {last}"),
    };
    let wrong = malformed(first.bytes, version).map_or(String::new(), |wrong| format!(": {wrong}"));
    let comment = format!("{numbers}, offset {}{wrong}", first.offset);
    let Some(record) = first.record else {
        let mut lines = first.bytes.chunks(BYTES).map(bytes_line);
        let head = line(&lines.next().unwrap_or_default(), &comment);
        return lines.fold(head, |text, bytes| text + &bytes + "\n");
    };
    let mut event = record_text(record);
    for (_, part) in &group[1..] {
        if let Some(Record::Handover { owner, .. }) = part.record {
            let _ = write!(event, " {owner}");
        }
    }
    line(&event, &comment)
}

fn bytes_line(bytes: &[u8]) -> String {
    format!("bytes {}", hexadecimal(bytes)).trim_end().into()
}

fn line(text: &str, comment: &str) -> String {
    format!("{text:COMMENT$} # {comment}\n")
}
