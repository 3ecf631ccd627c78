//! Lists of calls with answers: those that every engine gives, from `cases/answers/lists.txt`, and those that no engine
//! gives, from `cases/answers/wrong-lists.txt`, with what the checker of demand 3 must say of them.

use super::script::{expect, Script};
use crate::cases::records::{classed_report, file_of, handover, local_read, report, stop, sync, write};
use crate::cases::text::head_of;
use crate::cases::Head;
use crate::checks::demand3::{Figures, Ledger, Name, Pair, Register, Sums};
use crate::checks::side;
use crate::engines::Engine;
use crate::reference::{LISTING, SCRATCH};
use furnacejade::{DispatchAnswer, LookAnswer};

/// A list from a fresh table: what it is about, and its calls. If no engine gives its answers, what the checker says.
#[derive(Default)]
struct List {
    what: String,
    version: usize,
    n: usize,
    calls: Vec<Said>,
    wrong: Option<String>,
}

/// A call with its answer. The sums of a handover are the sums of its line.
enum Said {
    Event { record: Vec<u8>, set: Vec<Name>, finished: u8, sums: Sums },
    Look { c: usize, shown: Box<Shown> },
    Dispatch(Dispatch),
    Ask(Ask),
    Commit(Commit),
}

/// An ask with its answer; a refused one has no count and no set.
struct Ask {
    pair: Pair,
    scratch: usize,
    number: u8,
    count: usize,
    set: Vec<Name>,
}

/// A commit with its answer. If it is accepted, its sums are those of its line.
struct Commit {
    pair: Pair,
    count: usize,
    scratch: usize,
    number: u8,
    set: Vec<Name>,
    finished: u8,
    sums: Sums,
}

/// A call of the dispatcher. Pair 0, 0 is "none", or refused.
struct Dispatch {
    named: Pair,
    scratch: usize,
    number: u8,
    pair: Pair,
    set: Vec<Name>,
    finished: u8,
    sums: Sums,
}

struct Shown {
    sums: Sums,
    classes: [Sums; 5],
    registers: [Register; 8],
}

/// The runs of docs/RULES.md that stand among the lists, each by its name there and how many handovers of the
/// dispatcher it has.
const OF_RULES: [(&str, usize); 7] = [
    ("the worked run", 0),
    ("the run with classes", 0),
    ("the run with reports under way", 0),
    ("the run with a set point", 0),
    ("a finished report is found by another's sync, and not by its local read before", 0),
    ("the run of the dispatcher", 18),
    ("the list with an ask and a commit", 0),
];

fn numbers(text: &str) -> Vec<i64> {
    text.split_whitespace().filter_map(|word| word.parse().ok()).collect()
}

fn sums_in(text: &str) -> Sums {
    let found = numbers(text);
    (found.first().map_or(0, |x| *x as usize), found.get(1).map_or(0, |x| *x as usize))
}

fn names_in(text: &str) -> Vec<Name> {
    let name = |word: &str| word.split_once('.').map(|(s, k)| (s.parse().unwrap(), k.parse().unwrap()));
    text.split_whitespace().filter_map(name).collect()
}

/// In version 1 the sums are the sums of class 0.
fn look_in(version: usize, c: usize, answer: &str) -> Said {
    let (mut classes, mut registers) = ([(0, 0); 5], [((0, 0), 0); 8]);
    let mut parts = answer.split(';');
    let sums = sums_in(parts.next().unwrap_or_default());
    if version == 1 {
        classes[0] = sums;
    }
    for part in parts {
        match numbers(part)[..] {
            [class, added, withdrawn] => classes[class as usize] = (added as usize, withdrawn as usize),
            [register, value, date, writer] => {
                registers[register as usize - 1] = ((date as usize, writer as usize), value as u32)
            }
            _ => panic!("no class and no register: {part}"),
        }
    }
    Said::Look { c, shown: Box::new(Shown { sums, classes, registers }) }
}

fn dispatch_in(named: &[i64], answer: &str) -> Said {
    let (served, answer) = answer.split_once(':').unwrap_or((answer, ""));
    let (number, pair) = match numbers(served)[..] {
        [receiver, owner] => (0, (receiver as usize, owner as usize)),
        [number] => (number as u8, (0, 0)),
        _ => (0, (0, 0)),
    };
    let scratch = named.get(2).map_or(SCRATCH, |length| *length as usize);
    let (finished, sums) = (answer.contains("finished") as u8, sums_in(answer));
    let named = (named[0] as usize, named[1] as usize);
    Said::Dispatch(Dispatch { named, scratch, number, pair, set: names_in(answer), finished, sums })
}

/// The number of a refused call; 0 of one that was accepted.
fn number_in(answer: &str) -> u8 {
    if answer.contains("refused") {
        numbers(answer)[0] as u8
    } else {
        0
    }
}

fn ask_in(asked: &[i64], answer: &str) -> Said {
    let number = number_in(answer);
    let count = if number == 0 { numbers(answer)[0] as usize } else { 0 };
    let scratch = asked.get(2).map_or(SCRATCH, |length| *length as usize);
    let pair = (asked[0] as usize, asked[1] as usize);
    Said::Ask(Ask { pair, scratch, number, count, set: names_in(answer) })
}

fn commit_in(given: &[i64], answer: &str) -> Said {
    let (number, finished) = (number_in(answer), answer.contains("finished") as u8);
    let sums = if number == 0 { sums_in(answer) } else { (0, 0) };
    let scratch = given.get(3).map_or(SCRATCH, |length| *length as usize);
    let (pair, count) = ((given[0] as usize, given[1] as usize), given[2] as usize);
    Said::Commit(Commit { pair, count, scratch, number, set: names_in(answer), finished, sums })
}

fn said(version: usize, line: &str) -> Said {
    let (call, answer) = line.split_once(':').unwrap_or((line, ""));
    let (word, of) = (call.split_whitespace().next().unwrap_or_default(), numbers(call));
    let c = of[0] as usize;
    let record = match (word, &of[1..]) {
        ("report", [amount]) => report(c, *amount as i16),
        ("report", [amount, class]) => classed_report(c, *amount as i16, *class as u8),
        ("sync", []) => sync(c),
        ("write", [register, value]) => write(c, *register as usize, *value as u32),
        ("stop", [kept]) => stop(c, *kept as usize),
        ("read", []) => local_read(c),
        ("look", []) => return look_in(version, c, answer),
        ("dispatch", _) => return dispatch_in(&of, answer),
        ("ask", _) => return ask_in(&of, answer),
        ("commit", _) => return commit_in(&of, answer),
        (_, [owner]) if call.contains(" from ") => handover(c, *owner as usize),
        _ => panic!("no call: {line}"),
    };
    let finished = answer.contains("finished") as u8;
    Said::Event { record, set: names_in(answer), finished, sums: sums_in(answer) }
}

/// What the event call answers besides its set: a handover that finishes no sync has no sums.
fn figures(set: &[Name], finished: u8, sums: Sums) -> Figures {
    Figures { finished, sums: if set.is_empty() || finished == 1 { sums } else { (0, 0) } }
}

/// The events of a list as records, and their listing; looks and asks are left out. A handover of the dispatcher or of a
/// commit is a handover.
fn records_and_listing(calls: &[Said]) -> (Vec<Vec<u8>>, String) {
    let (mut records, mut listing): (Vec<Vec<u8>>, String) = (vec![], String::new());
    for call in calls {
        let (record, set, sums) = match call {
            Said::Event { record, set, sums, .. } => (record.clone(), set, sums),
            Said::Dispatch(Dispatch { pair, set, sums, .. }) if pair.0 > 0 => (handover(pair.0, pair.1), set, sums),
            Said::Commit(Commit { pair, number: 0, set, sums, .. }) => (handover(pair.0, pair.1), set, sums),
            Said::Dispatch(_) | Said::Look { .. } | Said::Ask(_) | Said::Commit(_) => continue,
        };
        if !set.is_empty() {
            let names: String = set.iter().map(|(sender, number)| format!(" {sender}.{number}")).collect();
            listing += &format!("{} {} {} {}{names}\n", records.len() + 1, record[2], sums.0, sums.1);
        }
        records.push(record);
    }
    (records, listing)
}

impl List {
    /// The lists of a text. Lines that start with # are comments.
    fn all_of(text: &str) -> Vec<List> {
        let mut lists: Vec<List> = vec![];
        for line in text.lines().filter(|line| !line.is_empty() && !line.starts_with('#')) {
            match line.strip_prefix("list: ") {
                Some(what) => lists.push(List { what: what.into(), ..List::default() }),
                None => lists.last_mut().expect("a list").add(line),
            }
        }
        lists
    }

    fn add(&mut self, line: &str) {
        if let Some(Head::Fresh { version, n }) = head_of(line) {
            (self.version, self.n) = (version, n);
        } else if let Some(wrong) = line.strip_prefix("wrong: ") {
            self.wrong = Some(wrong.into());
        } else {
            self.calls.push(said(self.version, line));
        }
    }

    /// What the checker says of the first calls of the list, of which some are a file.
    fn told(&self, calls: usize, in_file: usize) -> Option<String> {
        let (head, after) = self.calls[..calls].split_at(in_file);
        let mut ledger = Ledger::new(self.version, self.n);
        if in_file > 0 {
            let (records, listing) = records_and_listing(head);
            ledger = Ledger::file(&file_of(self.version, self.n, &records), in_file, listing.as_bytes());
        }
        for call in after {
            match call {
                Said::Event { record, set, finished, sums } => {
                    ledger.event(record, 0, set, Some(figures(set, *finished, *sums)));
                }
                Said::Look { c, shown } => ledger.look(*c, 0, shown.sums, shown.classes, shown.registers),
                Said::Dispatch(Dispatch { named, scratch, number, pair, set, finished, sums }) => {
                    let figures = figures(set, *finished, *sums);
                    ledger.dispatch(*named, *scratch >= SCRATCH, *number, *pair, set, figures);
                }
                Said::Ask(Ask { pair, scratch, number, count, set }) => {
                    ledger.ask(*pair, *scratch >= SCRATCH, *number, *count, set);
                }
                Said::Commit(Commit { pair, count, scratch, number, set, finished, sums }) => {
                    let figures = figures(set, *finished, *sums);
                    ledger.commit(*pair, *count, *scratch >= SCRATCH, *number, set, figures);
                }
            }
        }
        ledger.broken().map(String::from)
    }

    /// The checker says what is wrong with the whole list, and nothing of what goes before its last call: call by call,
    /// and with every first part of it as a file.
    fn check_told(&self) -> Result<(), String> {
        let (all, is_event) = (self.calls.len(), |call: &&Said| matches!(call, Said::Event { .. }));
        for in_file in 0..=self.calls.iter().take_while(is_event).count() {
            let told = self.told(all, in_file);
            let edge = format!("{}, with {in_file} calls in a file: the checker says {told:?}", self.what);
            expect(told == self.wrong, &edge)?;
            let early = self.told(all - 1, in_file.min(all - 1));
            expect(early.is_none(), &format!("{}: the checker says too early {early:?}", self.what))?;
        }
        Ok(())
    }

    /// An engine gives these answers, and this listing.
    fn check_given(&self, engine: &dyn Engine) -> Result<(), String> {
        let mut script = Script::fresh(engine, self.version, self.n);
        for (place, call) in self.calls.iter().enumerate() {
            expect(gives(&mut script, call), &format!("{}: call {}", self.what, place + 1))?;
        }
        let ((records, lines), mut listing) = (records_and_listing(&self.calls), vec![7; LISTING]);
        let run = engine.run(&file_of(self.version, self.n, &records), &mut listing, &mut [7; SCRATCH]);
        let right = run.refusal.0 == 0 && listing[..run.written] == *lines.as_bytes();
        expect(right, &format!("{}: its listing", self.what))
    }
}

/// Whether a call answers this. Events and looks are accepted.
fn gives(script: &mut Script, call: &Said) -> bool {
    match call {
        Said::Event { record, set, finished, sums } => {
            let (answer, right) = (script.answer(record, SCRATCH), figures(set, *finished, *sums));
            let found = (answer.refusal.0, side::set(&answer), answer.finished, side::sums(answer.sums));
            found == (0, set.clone(), right.finished, right.sums)
        }
        Said::Dispatch(said) => {
            let DispatchAnswer { pair, answer } = script.dispatch(said.named, said.scratch);
            let right = figures(&said.set, said.finished, said.sums);
            let found = (answer.refusal.0, side::numbers(pair), side::set(&answer), answer.finished);
            found == (said.number, said.pair, said.set.clone(), right.finished) && side::sums(answer.sums) == right.sums
        }
        Said::Ask(Ask { pair, scratch, number, count, set }) => {
            let answer = script.ask(*pair, *scratch);
            (answer.refusal.0, answer.acts, side::shown(&answer)) == (*number, *count, set.clone())
        }
        Said::Commit(said) => {
            let answer = script.commit(said.pair, said.count, said.scratch);
            let right = figures(&said.set, said.finished, said.sums);
            let found = (answer.refusal.0, side::set(&answer), answer.finished, side::sums(answer.sums));
            found == (said.number, said.set.clone(), right.finished, right.sums)
        }
        Said::Look { c, shown } => {
            let LookAnswer { refusal, panel } = script.engine.look(&script.table, *c);
            let (classes, registers) = (panel.classes.map(side::sums), panel.registers.map(side::register));
            let found = (refusal.0, side::sums(panel.sums), classes, registers);
            found == (0, shown.sums, shown.classes, shown.registers)
        }
    }
}

pub fn check(engine: &dyn Engine) -> Result<(), String> {
    let right = List::all_of(include_str!("../../cases/answers/lists.txt"));
    for list in &right {
        list.check_given(engine)?;
        list.check_told()?;
    }
    for (what, handovers) in OF_RULES {
        let served = |call: &&Said| matches!(call, Said::Dispatch(dispatch) if dispatch.pair.0 > 0);
        let made = |list: &List| list.calls.iter().filter(served).count() == handovers;
        expect(right.iter().any(|list| list.what == what && made(list)), &format!("{what}, of docs/RULES.md"))?;
    }
    let wrong = List::all_of(include_str!("../../cases/answers/wrong-lists.txt"));
    expect(wrong.iter().all(|list| list.wrong.is_some()), "a list that no engine gives names what is wrong with it")?;
    wrong.iter().try_for_each(List::check_told)
}
