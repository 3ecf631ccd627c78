//! The text form of a run file: a line for each event, and what assembles it.
//!
//! Every field may hold what its bytes can hold. Whether a record is carried out is for the engine to say.

use crate::spelling::did_you_mean;
use furnacejade::{Class, ClassNumber, Record, Sums};
use std::fmt::{Display, Formatter};

/// The word that begins a line, and an example of the line.
const LINES: [(&str, &str); 10] = [
    ("version", "version 1"),
    ("controllers", "controllers 3"),
    ("report", "report 1 +30, or report 1 +30 class 2"),
    ("sync", "sync 1"),
    ("hand", "hand 1 <- 2 3 3, a receiver and the owners of the logs"),
    ("stop", "stop 1 keep 4"),
    ("read", "read 1"),
    ("write", "write 1 register 3 = 1500"),
    ("expect", "expect 1 30 0, a panel and what it shows as added and withdrawn"),
    ("bytes", "bytes 03 09 01 02, in hexadecimal"),
];

/// A complaint shows at most this many characters of a word.
const SHOWN: usize = 40;

/// A place in a text. Lines and columns count from 1, columns in characters.
#[derive(Clone, Copy, Debug, PartialEq, Eq)]
pub struct Place {
    pub line: usize,
    pub column: usize,
}

impl Display for Place {
    fn fmt(&self, f: &mut Formatter<'_>) -> std::fmt::Result {
        write!(f, "line {}, column {}", self.line, self.column)
    }
}

/// A mistake in a text, and its place.
#[derive(Debug, PartialEq, Eq)]
pub struct Mistake {
    pub place: Place,
    pub text: String,
}

/// What a text expects: both sums that a panel shows after the records before an offset.
#[derive(Clone, Copy, Debug, PartialEq, Eq)]
pub struct Expectation {
    pub place: Place,
    pub offset: usize,
    pub panel: u8,
    pub sums: Sums,
}

/// A run file with the places of the text that it comes from.
#[derive(Debug, Default, PartialEq, Eq)]
pub struct Assembled {
    pub bytes: Vec<u8>,
    /// Offsets in order, each with the place in the text that its bytes come from.
    pub places: Vec<(usize, Place)>,
    pub expectations: Vec<Expectation>,
}

impl Assembled {
    /// The place in the text that the byte at an offset comes from.
    pub fn place(&self, offset: usize) -> Option<Place> {
        let after = self.places.partition_point(|(start, _)| *start <= offset);
        Some(self.places[after.checked_sub(1)?].1)
    }

    fn add(&mut self, bytes: &[u8], place: Place) {
        self.places.push((self.bytes.len(), place));
        self.bytes.extend(bytes);
    }
}

/// The text of a record, which assembles to its bytes.
pub fn record_text(record: Record) -> String {
    match record {
        Record::Report { sender, amount } => format!("report {sender} {amount:+}"),
        Record::ClassedReport { sender, amount, class } => {
            let class =
                class.class().filter(|class| *class != Class::None).map_or(class.0.to_string(), |c| c.to_string());
            format!("report {sender} {amount:+} class {class}")
        }
        Record::Sync { sender } => format!("sync {sender}"),
        Record::Handover { receiver, owner } => format!("hand {receiver} <- {owner}"),
        Record::Stop { controller, kept } => format!("stop {controller} keep {kept}"),
        Record::LocalRead { controller } => format!("read {controller}"),
        Record::Write { sender, register, value } => format!("write {sender} register {register} = {value}"),
    }
}

/// The run file of a text, or its mistakes.
pub fn assemble(text: &str) -> Result<Assembled, Vec<Mistake>> {
    let (mut assembled, mut head, mut mistakes) = (Assembled::default(), Head::Version, vec![]);
    let mut lines = 0;
    for (number, text) in (1..).zip(text.lines()) {
        let mut line = Line::new(number, text);
        if let Err(mistake) = line.assemble(&mut head, &mut assembled) {
            mistakes.push(mistake);
        }
        lines = number;
    }
    if mistakes.is_empty() && head != Head::Records {
        let place = Place { line: lines + 1, column: 1 };
        mistakes.push(Mistake { place, text: format!("the text ends before {}", head.wanted()) });
    }
    match mistakes.is_empty() {
        true => Ok(assembled),
        false => Err(mistakes),
    }
}

/// A word of a text as a complaint shows it. A long word is cut, and no character of it controls a terminal.
fn quoted(word: &str) -> String {
    let rest = if word.chars().nth(SHOWN).is_some() { "…" } else { "" };
    format!("`{}{rest}`", word.chars().take(SHOWN).flat_map(char::escape_debug).collect::<String>())
}

/// The part of a text that must come next.
#[derive(Clone, Copy, PartialEq, Eq)]
enum Head {
    Version,
    Controllers,
    Records,
}

impl Head {
    fn wanted(self) -> &'static str {
        match self {
            Head::Version => "`version 1` or `version 2`",
            Head::Controllers => "a line such as `controllers 3`",
            Head::Records => "an event",
        }
    }
}

struct Word<'a> {
    text: &'a str,
    column: usize,
}

/// The words of a line that are left, up to its comment.
struct Line<'a> {
    number: usize,
    words: std::vec::IntoIter<Word<'a>>,
    /// The column after the last word.
    end: usize,
    /// The word that begins the line, as `LINES` has it.
    first: &'static str,
}

/// The words of a line, and the column after the last. The signs `<-` and `=` need no space around them.
fn words(line: &str) -> (Vec<Word<'_>>, usize) {
    let mut rest = line.split('#').next().unwrap_or_default().trim_end();
    let (mut words, mut column) = (vec![], 1);
    while let Some(first) = rest.chars().next() {
        let blank = rest.len() - rest.trim_start().len();
        let size = match rest {
            _ if blank > 0 => blank,
            _ if rest.starts_with("<-") => 2,
            _ if "=<".contains(first) => 1,
            _ => rest.find(|c: char| c.is_whitespace() || "=<".contains(c)).unwrap_or(rest.len()),
        };
        let (text, after) = rest.split_at(size);
        if blank == 0 {
            words.push(Word { text, column });
        }
        column += text.chars().count();
        rest = after;
    }
    (words, column)
}

impl<'a> Line<'a> {
    fn new(number: usize, text: &'a str) -> Line<'a> {
        let (words, end) = words(text);
        Line { number, words: words.into_iter(), end, first: "" }
    }

    fn mistake(&self, column: usize, text: String) -> Mistake {
        Mistake { place: Place { line: self.number, column }, text }
    }

    /// The next word. If there is none, `what` is missing.
    fn word(&mut self, what: &str) -> Result<Word<'a>, Mistake> {
        match self.words.next() {
            Some(word) => Ok(word),
            None => Err(self.mistake(self.end, format!("{what} is missing; {}", self.form()))),
        }
    }

    /// An example of a line that begins as this one does.
    fn form(&self) -> String {
        let form = LINES.iter().find(|(first, _)| *first == self.first);
        form.map_or(String::new(), |(_, form)| format!("a line reads: {form}"))
    }

    /// The next word, which must be this one.
    fn literally(&mut self, wanted: &str) -> Result<(), Mistake> {
        let word = self.word(&format!("`{wanted}`"))?;
        match word.text.eq_ignore_ascii_case(wanted) {
            true => Ok(()),
            false => {
                let text = format!("{} stands where `{wanted}` belongs; {}", quoted(word.text), self.form());
                Err(self.mistake(word.column, text))
            }
        }
    }

    fn number<T: TryFrom<i64>>(&mut self, what: &str, least: i64, most: i64) -> Result<T, Mistake> {
        let word = self.word(what)?;
        self.in_range(&word, what, least, most)
    }

    fn in_range<T: TryFrom<i64>>(&self, word: &Word, what: &str, least: i64, most: i64) -> Result<T, Mistake> {
        let number = word.text.parse().ok().filter(|number| (least..=most).contains(number));
        number.and_then(|number| T::try_from(number).ok()).ok_or_else(|| {
            let text = format!("{what} must be a number from {least} to {most}, not {}", quoted(word.text));
            self.mistake(word.column, text)
        })
    }

    fn byte(&mut self, what: &str) -> Result<u8, Mistake> {
        self.number(what, 0, 255)
    }

    /// An amount: what two bytes can hold, of which the engine accepts a part.
    fn amount(&mut self) -> Result<i16, Mistake> {
        let word = self.word("the amount")?;
        let amount = self.in_range(&word, "the amount", i16::MIN as i64, i16::MAX as i64);
        amount.map_err(|Mistake { place, text }| Mistake {
            place,
            text: format!("{text}; the engine accepts -360 to 360, and not 0"),
        })
    }

    fn class(&mut self) -> Result<ClassNumber, Mistake> {
        let word = self.word("the class")?;
        match word.text.parse::<Class>() {
            Ok(class) => Ok(class.into()),
            Err(_) => self.in_range(&word, "the class, if it is not XL, L, M or S,", 0, 255).map(ClassNumber),
        }
    }

    fn ends(&mut self) -> Result<(), Mistake> {
        match self.words.next() {
            None => Ok(()),
            Some(word) => {
                let text = format!("{} is one word too many; {}", quoted(word.text), self.form());
                Err(self.mistake(word.column, text))
            }
        }
    }

    /// The word that begins the line, as `LINES` has it: words may be written in capitals.
    fn first(&self, word: &Word) -> Result<&'static str, Mistake> {
        let known = LINES.map(|(first, _)| first);
        known.into_iter().find(|first| word.text.eq_ignore_ascii_case(first)).ok_or_else(|| {
            let hint = did_you_mean(word.text, known);
            let hint = hint.unwrap_or_else(|| format!("a line begins with one of {}", known.join(", ")));
            self.mistake(word.column, format!("no line begins with {}; {hint}", quoted(word.text)))
        })
    }

    /// Adds the line's bytes, or its expectation, to what was assembled before.
    fn assemble(&mut self, head: &mut Head, assembled: &mut Assembled) -> Result<(), Mistake> {
        let Some(word) = self.words.next() else { return Ok(()) };
        let place = Place { line: self.number, column: word.column };
        self.first = self.first(&word)?;
        // Bytes may stand in the place of the head too, as a file may be shorter than a head.
        let (wanted, next) = match (self.first, *head) {
            ("version", _) => (Head::Version, Head::Controllers),
            ("controllers", _) => (Head::Controllers, Head::Records),
            ("bytes", Head::Version) => (Head::Version, Head::Records),
            _ => (Head::Records, Head::Records),
        };
        let due = *head;
        // A head that comes too late changes nothing. A head that is missing is complained of once.
        *head = if due == Head::Records { due } else { next };
        if wanted != due {
            let text = format!("{} stands where {} belongs", quoted(word.text), due.wanted());
            return Err(self.mistake(word.column, text));
        }
        match self.first {
            "version" => assembled.add(&[self.byte("the version")?], place),
            "controllers" => assembled.add(&[self.byte("the number of controllers")?], place),
            "hand" => return self.handovers(assembled),
            "expect" => {
                let panel = self.byte("the panel")?;
                let added = self.number("what was added", 0, u32::MAX as i64)?;
                let withdrawn = self.number("what was withdrawn", 0, u32::MAX as i64)?;
                let (offset, sums) = (assembled.bytes.len(), Sums { added, withdrawn });
                assembled.expectations.push(Expectation { place, offset, panel, sums });
            }
            "bytes" => assembled.add(&self.hexadecimal()?, place),
            event => assembled.add(&self.record(event)?.bytes(), place),
        }
        self.ends()
    }

    /// An event of one record.
    fn record(&mut self, event: &str) -> Result<Record, Mistake> {
        Ok(match event {
            "report" => {
                let sender = self.byte("the sender")?;
                let amount = self.amount()?;
                match self.words.as_slice() {
                    [] => Record::Report { sender, amount },
                    _ => {
                        self.literally("class")?;
                        Record::ClassedReport { sender, amount, class: self.class()? }
                    }
                }
            }
            "sync" => Record::Sync { sender: self.byte("the sender")? },
            "stop" => {
                let controller = self.byte("the controller")?;
                self.literally("keep")?;
                Record::Stop { controller, kept: self.number("the number of entries kept", 0, u16::MAX as i64)? }
            }
            "read" => Record::LocalRead { controller: self.byte("the controller")? },
            _ => {
                let sender = self.byte("the sender")?;
                self.literally("register")?;
                let register = self.byte("the register")?;
                self.literally("=")?;
                Record::Write { sender, register, value: self.number("the value", 0, u32::MAX as i64)? }
            }
        })
    }

    /// Handovers to one receiver, one for each owner of a log.
    fn handovers(&mut self, assembled: &mut Assembled) -> Result<(), Mistake> {
        let receiver = self.byte("the receiver")?;
        self.literally("<-")?;
        let mut owner = self.word("the owner of a log")?;
        loop {
            let place = Place { line: self.number, column: owner.column };
            let record = Record::Handover { receiver, owner: self.in_range(&owner, "the owner of a log", 0, 255)? };
            assembled.add(&record.bytes(), place);
            owner = match self.words.next() {
                Some(word) => word,
                None => return Ok(()),
            };
        }
    }

    /// Bytes of two digits each, with or without spaces between them.
    fn hexadecimal(&mut self) -> Result<Vec<u8>, Mistake> {
        let mut bytes = vec![];
        for word in self.words.by_ref() {
            let digits: Option<Vec<u8>> = word.text.chars().map(|c| c.to_digit(16).map(|digit| digit as u8)).collect();
            match digits {
                Some(digits) if digits.len() % 2 == 0 => {
                    bytes.extend(digits.chunks(2).map(|pair| pair[0] * 16 + pair[1]));
                }
                _ => {
                    let place = Place { line: self.number, column: word.column };
                    let text = format!("a byte must have two hexadecimal digits, not {}", quoted(word.text));
                    return Err(Mistake { place, text });
                }
            }
        }
        Ok(bytes)
    }
}
