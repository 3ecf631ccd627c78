//! A case as text, for failures and for the folder `cases`.
//!
//! The text is one line for the head and one for each call; below the head `table` stands a line for each field that is
//! not as in a fresh table of version 1, and a head `fresh` names its version if that is not 1. Bytes are hexadecimal;
//! `(00*512)` stands for 512 bytes 00, and `(020501*90)` for 90 times these three. Lent memory is given by its length;
//! what it holds at first is the same dirt in every case. `before 3 3.1 1.1` asks how many put 3.1 before 1.1 at 3, and
//! `dispatch 2 1 scratch 64` calls the dispatcher, which is told that it served receiver 2 and owner 1 last.
//! `ask 2 1 scratch 64` asks what the handover to 2 from 1 would apply, and `commit 2 1 acts 7 scratch 64` makes that
//! handover if 7 is the act count of 2.

use super::fields::{plain_table, set_field, table_text};
use super::{Asked, Call, Case, Head};
use furnacejade::Pair;

/// The length of the part that these bytes begin with eight times or more in a row, and how often they do. The part is
/// no longer than a record.
fn repeated(bytes: &[u8]) -> Option<(usize, usize)> {
    let times = |size: usize| bytes.chunks_exact(size).take_while(|part| *part == &bytes[..size]).count();
    (1..=8).map(|size| (size, times(size))).find(|(_, times)| *times >= 8)
}

pub fn hexadecimal(bytes: &[u8]) -> String {
    let (mut text, mut left) = (String::new(), bytes);
    let digits = |bytes: &[u8]| -> String { bytes.iter().map(|b| format!("{b:02x}")).collect() };
    while !left.is_empty() {
        let (size, times) = repeated(left).unwrap_or((1, 1));
        let part = digits(&left[..size]);
        text += &if times > 1 { format!("({part}*{times})") } else { part };
        left = &left[size * times..];
    }
    if text.is_empty() {
        "-".into()
    } else {
        text
    }
}

pub fn from_hexadecimal(text: &str) -> Vec<u8> {
    let mut bytes = vec![];
    let mut left = if text == "-" { "" } else { text };
    let byte = |digits: &str| u8::from_str_radix(digits, 16).expect("two hexadecimal digits");
    let all = |digits: &str| -> Vec<u8> { (0..digits.len()).step_by(2).map(|at| byte(&digits[at..at + 2])).collect() };
    while !left.is_empty() {
        if let Some(run) = left.strip_prefix('(') {
            let (inside, after) = run.split_once(')').expect("a closing bracket");
            let (digits, times) = inside.split_once('*').expect("a star");
            bytes.extend(all(digits).repeat(times.parse().expect("a number")));
            left = after;
        } else {
            bytes.push(byte(&left[..2]));
            left = &left[2..];
        }
    }
    bytes
}

impl Case {
    pub fn text(&self) -> String {
        let mut text = match &self.head {
            Head::Fresh { version: 1, n } => format!("fresh {n}\n"),
            Head::Fresh { version, n } => format!("fresh {n} version {version}\n"),
            Head::File { bytes, listing, scratch } => {
                format!("file {} listing {listing} scratch {scratch}\n", hexadecimal(bytes))
            }
            Head::Table(t) => format!("table\n{}", table_text(t)),
        };
        for call in &self.calls {
            text += &match call {
                Call::Event { bytes, scratch } => format!("event {} scratch {scratch}\n", hexadecimal(bytes)),
                Call::Look(c) => format!("look {c}\n"),
                Call::CountBefore(Asked { controller, first, second }) => {
                    format!("before {controller} {first} {second}\n")
                }
                Call::Dispatch { named: Pair { receiver, owner }, scratch } => {
                    format!("dispatch {receiver} {owner} scratch {scratch}\n")
                }
                Call::Ask { pair: Pair { receiver, owner }, scratch } => {
                    format!("ask {receiver} {owner} scratch {scratch}\n")
                }
                Call::Commit { pair: Pair { receiver, owner }, acts, scratch } => {
                    format!("commit {receiver} {owner} acts {acts} scratch {scratch}\n")
                }
            };
        }
        text
    }

    /// The cases of a text; each head starts one. Lines that start with # are comments.
    pub fn all_of(text: &str) -> Vec<Case> {
        let mut cases: Vec<Case> = vec![];
        for line in text.lines().filter(|line| !line.trim().is_empty() && !line.starts_with('#')) {
            match head_of(line) {
                Some(head) => cases.push(Case { head, calls: vec![] }),
                None => cases.last_mut().expect("a head").add(line),
            }
        }
        cases
    }

    /// Adds a call, or a field of the table, from its line.
    fn add(&mut self, line: &str) {
        let words: Vec<&str> = line.split_whitespace().collect();
        let number = |place: usize| words[place].parse().expect("a number");
        match (words[0], &mut self.head) {
            ("event", _) => self.calls.push(Call::Event { bytes: from_hexadecimal(words[1]), scratch: number(3) }),
            ("look", _) => self.calls.push(Call::Look(number(1))),
            ("before", _) => {
                let [first, second] = [2, 3].map(|place: usize| words[place].parse().expect("sender.number"));
                self.calls.push(Call::CountBefore(Asked { controller: number(1), first, second }));
            }
            ("dispatch", _) => {
                let named = Pair { receiver: number(1), owner: number(2) };
                self.calls.push(Call::Dispatch { named, scratch: number(4) });
            }
            ("ask", _) => {
                let pair = Pair { receiver: number(1), owner: number(2) };
                self.calls.push(Call::Ask { pair, scratch: number(4) });
            }
            ("commit", _) => {
                let pair = Pair { receiver: number(1), owner: number(2) };
                self.calls.push(Call::Commit { pair, acts: number(4), scratch: number(6) });
            }
            (_, Head::Table(t)) => set_field(t, line),
            (other, _) => panic!("no head or call: {other}"),
        }
    }
}

/// The head that a line gives, if it is one.
pub fn head_of(line: &str) -> Option<Head> {
    let words: Vec<&str> = line.split_whitespace().collect();
    let number = |place: usize| words[place].parse().expect("a number");
    Some(match words[0] {
        "fresh" => Head::Fresh { version: if words.len() > 2 { number(3) } else { 1 }, n: number(1) },
        "file" => Head::File { bytes: from_hexadecimal(words[1]), listing: number(3), scratch: number(5) },
        "table" => Head::Table(Box::new(plain_table())),
        _ => return None,
    })
}
