//! What a command is given: a run file, or a text that is assembled to one.

use crate::text::{assemble, Assembled, Expectation, Mistake, Place};
use furnacejade::{records, Machine, Record, Refusal};
use std::io::Read;

/// The least byte of the characters of a text. Every record of a run file begins with two lower bytes, its length and its
/// kind.
const LEAST_IN_TEXT: u8 = 9;

/// The mark of the order of bytes. Some editors put it before a text; it is no part of the text.
const ORDER_MARK: &str = "\u{FEFF}";

/// What a file is taken for.
#[derive(Clone, Copy, PartialEq, Eq)]
pub enum Form {
    Text,
    Bytes,
    /// A text if it begins as one.
    Either,
}

/// A run file, with the text that it comes from if there is one.
pub struct Source {
    pub name: String,
    pub assembled: Assembled,
}

/// The bytes of a file, or of standard input for `-`.
pub fn read(path: &str) -> Result<Vec<u8>, String> {
    let mut bytes = vec![];
    let result = match path {
        "-" => std::io::stdin().read_to_end(&mut bytes).map(|_| bytes),
        _ => std::fs::read(path),
    };
    result.map_err(|error| format!("{}: {error}\n", shown(path)))
}

/// The name of a path in output.
pub fn shown(path: &str) -> &str {
    match path {
        "-" => "standard input",
        _ => path,
    }
}

/// Whether bytes begin as a text does. A run file begins with a version and a number of controllers, which are control
/// characters.
fn begins_as_text(bytes: &[u8]) -> bool {
    let in_text = |byte: &u8| b"\t\r\n".contains(byte) || !byte.is_ascii_control();
    !bytes.is_empty() && bytes.iter().take(2).all(in_text)
}

/// The first byte that no text has, with its offset.
fn not_in_text(bytes: &[u8]) -> Option<(usize, u8)> {
    bytes.iter().copied().enumerate().find(|(_, byte)| *byte < LEAST_IN_TEXT)
}

/// Whether bytes look like a text: they begin as one, with a character of ASCII, and have no byte that no text has.
pub fn is_text(bytes: &[u8]) -> bool {
    let bytes = bytes.strip_prefix(ORDER_MARK.as_bytes()).unwrap_or(bytes);
    begins_as_text(bytes) && bytes[0].is_ascii() && not_in_text(bytes).is_none()
}

/// The text of bytes without the mark of their order, or the place of the first byte that is not UTF-8.
fn text_of<'a>(bytes: &'a [u8], advice: &str) -> Result<&'a str, Mistake> {
    let text = std::str::from_utf8(bytes).map_err(|error| {
        let before = String::from_utf8_lossy(&bytes[..error.valid_up_to()]);
        let line = before.matches('\n').count() + 1;
        let column = before.rsplit('\n').next().unwrap_or_default().chars().count() + 1;
        let text = format!("a text is written in UTF-8, and this byte is not; if this is a run file, {advice}");
        Mistake { place: Place { line, column }, text }
    })?;
    Ok(text.strip_prefix(ORDER_MARK).unwrap_or(text))
}

/// The mistakes of a text, a line for each, with file, line and column.
fn mistakes(name: &str, mistakes: &[Mistake]) -> String {
    mistakes.iter().map(|Mistake { place, text }| format!("{}: {text}\n", in_file(name, *place))).collect()
}

/// A place as editors understand it: file, line and column.
fn in_file(name: &str, Place { line, column }: Place) -> String {
    format!("{name}:{line}:{column}")
}

impl Source {
    /// A file in one of its forms. If it looks like a run file where a text is expected, `advice` says what takes a run
    /// file.
    pub fn load(path: &str, form: Form, advice: &str) -> Result<Source, String> {
        let (bytes, name) = (read(path)?, shown(path).to_string());
        if form == Form::Bytes || form == Form::Either && !begins_as_text(&bytes) {
            let assembled = Assembled { bytes, ..Assembled::default() };
            return Ok(Source { name, assembled });
        }
        let assembled = text_of(&bytes, advice).map_err(|mistake| vec![mistake]).and_then(assemble);
        match (assembled, not_in_text(&bytes)) {
            (Ok(assembled), _) => Ok(Source { name, assembled }),
            (Err(found), None) => Err(mistakes(&name, &found)),
            (Err(_), Some((offset, byte))) => {
                let why = format!("byte {offset} is {byte:02X}, which no text has");
                Err(format!("{name}: this looks like a run file: {why}; {advice}\n"))
            }
        }
    }

    /// The reports of a text whose amounts the engine refuses, a line for each. The engine is asked. It puts the question
    /// for the amount before all questions that depend on what was sent, so one machine serves for every report.
    pub fn notes(&self) -> String {
        let mut machine = Machine::new(1, 1).expect("a machine of one controller");
        let mut notes = String::new();
        for part in records(self.bytes()) {
            let (Some(Record::Report { amount, .. } | Record::ClassedReport { amount, .. }), Some(place)) =
                (part.record, self.assembled.place(part.offset))
            else {
                continue;
            };
            if let Err(refusal @ Refusal::Amount) = machine.play(Record::Report { sender: 1, amount }) {
                let question = format!("question {}: {}", refusal.number(), refusal.question());
                let place = self.place(place);
                notes += &format!("{place}: note: the engine refuses an amount of {amount} by {question}\n");
            }
        }
        notes
    }

    /// A place in the text.
    pub fn place(&self, place: Place) -> String {
        in_file(&self.name, place)
    }

    pub fn bytes(&self) -> &[u8] {
        &self.assembled.bytes
    }

    pub fn expectations(&self) -> &[Expectation] {
        &self.assembled.expectations
    }
}
