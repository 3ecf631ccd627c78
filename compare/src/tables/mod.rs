//! The mode `tables`: what the functions over a table say, in the package and in the C header, against the reference.
//! The tables are those of random cases: of runs after their events, of files, tables that no run reaches, and tables
//! that are not well formed. Some of them are also mangled in the fields that these functions read.

mod answers;
mod mangle;
mod program;
mod rules;

use crate::cases::records::handover;
use crate::cases::{minimise, Call, Case, Head};
use crate::generate;
use crate::generate::random::Random;
use crate::reference::{well_formed, Name, Raw, State, SCRATCH};
use answers::{difference, first_difference, names, text, unpacked};
use furnacejade::{calls, event, Answer, DispatchAnswer, FreshAnswer, Pair, RunAnswer, Table};
use std::collections::BTreeSet;
use std::process::exit;

/// Of the tables of a case, the first, those after a stop, and one in this many of the others are asked about.
const ASKED_IN: usize = 6;

/// Of the tables that are asked about, one in this many goes through the program in C too, as it is and mangled.
const PRINTED_IN: usize = 6;

/// The program in C is started for this many tables at once.
const BATCH: usize = 200;

/// What is right to say of a table, by the places of its fields.
fn right(t: &Table) -> String {
    text(&Raw::new(t.as_bytes()), &names(t))
}

/// The run of a case: its table, which the library makes, and beside it what the reference knows.
struct Run {
    table: Table,
    /// What the reference made of the same events, if they began with a fresh table.
    state: Option<State>,
    /// What the answers of all events said was applied, and where, if they are all known.
    applied: Option<BTreeSet<(usize, Name)>>,
}

impl Run {
    /// The table with which a case begins.
    fn new(head: &Head) -> Run {
        match head {
            Head::Table(t) => Run { table: (**t).clone(), state: None, applied: None },
            Head::Fresh { version, n } => {
                let mut answer = FreshAnswer::BLANK;
                calls::fresh(*version, *n, &mut answer);
                let state = answer.refusal.check().is_ok().then(|| State::fresh(*version, *n));
                Run { table: answer.table, applied: state.as_ref().map(|_| BTreeSet::new()), state }
            }
            Head::File { bytes, listing, scratch } => {
                let (mut lines, mut area, mut answer) = (vec![0; *listing], vec![0; *scratch], RunAnswer::BLANK);
                calls::run(bytes, &mut lines, &mut area, &mut answer);
                let state = crate::reference::run_file(bytes, &mut lines, &mut area).state;
                Run { table: answer.table, state, applied: None }
            }
        }
    }

    /// The record of a call and the length of its scratch. That of the dispatcher or of a commit is the handover that it
    /// would make.
    fn record(&self, call: &Call) -> Option<(Vec<u8>, usize)> {
        match call {
            Call::Event { bytes, scratch } => Some((bytes.clone(), *scratch)),
            Call::Dispatch { named, scratch } => {
                let mut answer = DispatchAnswer::BLANK;
                calls::dispatch(&mut self.table.clone(), *named, &mut vec![0; *scratch], &mut answer);
                let Pair { receiver, owner } = answer.pair;
                (answer.pair != Pair::BLANK).then(|| (handover(receiver, owner), *scratch))
            }
            Call::Commit { pair, acts, scratch } => {
                let mut answer = Answer::BLANK;
                calls::commit(&mut self.table.clone(), *pair, *acts, &mut vec![0; *scratch], &mut answer);
                let Pair { receiver, owner } = *pair;
                answer.refusal.check().is_ok().then(|| (handover(receiver, owner), *scratch))
            }
            Call::Look(_) | Call::CountBefore(_) | Call::Ask { .. } => None,
        }
    }

    /// Carries out an event. Answers whether it was accepted. After a report, sync or write the latest message of its
    /// sender must be the one just sent.
    fn event(&mut self, bytes: &[u8], scratch: usize) -> Result<bool, String> {
        let Ok((answer, _)) = event(&mut self.table, bytes, &mut vec![0; scratch]) else { return Ok(false) };
        let Some(state) = &mut self.state else { return Ok(true) };
        state.event(bytes, &mut [0; SCRATCH]);
        let (kind, c) = (bytes[1], bytes[2]);
        if let Some(applied) = &mut self.applied {
            applied.extend(answer.applied().iter().map(|x| (usize::from(c), unpacked(*x))));
        }
        let sent = state.messages.last().filter(|_| [1, 2, 6].contains(&kind)).map(|message| message.name);
        match (sent, self.table.latest(c).map(unpacked)) {
            (Some(sent), latest) if latest != Some(sent) => Err(format!("{sent:?} was sent, the latest is {latest:?}")),
            _ => Ok(true),
        }
    }

    /// What the package says of the table now.
    fn check(&self) -> Result<(), String> {
        let (t, right) = (&self.table, right(&self.table));
        let as_run = self.state.as_ref().and_then(|state| first_difference(&text(state, &names(t)), &right));
        match as_run.map(|text| format!("by the run and by the fields: {text}")).or_else(|| difference(t, &right)) {
            Some(text) => Err(text),
            None => self.check_applied(),
        }
    }

    /// A message is applied at a controller exactly if the answer of an event there said so.
    fn check_applied(&self) -> Result<(), String> {
        let Some(applied) = &self.applied else { return Ok(()) };
        for (c, x) in (1..=self.table.n).flat_map(|c| names(&self.table).into_iter().map(move |x| (c, x))) {
            let said = self.table.state(c as u8, answers::packed(&x)) == furnacejade::State::Applied;
            if said != applied.contains(&(c, x)) {
                return Err(format!("{x:?} at {c}: applied {said}, and the answers of events say otherwise"));
            }
        }
        Ok(())
    }
}

/// How much was asked.
#[derive(Default)]
struct Tally {
    tables: usize,
    well_formed: usize,
    printed: usize,
    /// The messages of the tables at each controller, by their state there.
    states: [usize; 4],
}

impl Tally {
    fn add(&mut self, t: &Table) {
        self.tables += 1;
        self.well_formed += usize::from(well_formed(t));
        for c in t.controller_numbers() {
            for message in t.messages.iter().take(t.count) {
                let name = furnacejade::Name { sender: message.sender, number: message.number };
                self.states[t.state(c, name) as usize] += 1;
            }
        }
    }

    fn print(&self) {
        let Tally { tables, well_formed, printed, states: [unknown, pending, applied, cut_off] } = self;
        println!("{tables} tables, {well_formed} of them well formed; {printed} of them also through the program in C");
        println!("states: unknown {unknown}, pending {pending}, applied {applied}, cut off {cut_off}");
        println!("package, C header and reference say the same of all");
    }
}

/// Says what failed, with the table, made small by `fails`, and ends the program.
fn report(name: &str, t: &Table, what: &str, fails: &dyn Fn(&Table) -> bool) -> ! {
    let case = Case { head: Head::Table(Box::new(t.clone())), calls: vec![] };
    let table_fails = |case: &Case| matches!(&case.head, Head::Table(t) if fails(t));
    let small = if fails(t) { minimise::minimise(&case, &table_fails) } else { case };
    println!("FAILED {name}: {what}\n{}", small.text());
    exit(1)
}

/// The mode at work. Tables for the program in C wait until there are enough of them.
struct Tables<'a> {
    path: &'a str,
    random: Random,
    waiting: Vec<Table>,
    tally: Tally,
}

impl Tables<'_> {
    /// Every table of a case that is asked about.
    fn case(&mut self, name: &str, case: &Case) {
        let mut run = Run::new(&case.head);
        self.table(name, &run);
        for (index, call) in case.calls.iter().enumerate() {
            let Some((bytes, scratch)) = run.record(call) else { continue };
            let accepted = run.event(&bytes, scratch);
            let accepted = accepted.unwrap_or_else(|what| report(name, &run.table, &what, &|_| false));
            if accepted && (bytes[1] == 4 || self.random.one_in(ASKED_IN)) {
                self.table(&format!("{name} call {index}"), &run);
            }
        }
    }

    fn table(&mut self, name: &str, run: &Run) {
        let t = &run.table;
        let package_differs = |t: &Table| difference(t, &right(t)).is_some();
        if let Err(what) = run.check() {
            report(name, t, &what, &package_differs);
        }
        self.tally.add(t);
        let printed = self.random.one_in(PRINTED_IN);
        let broken = |t: &Table| well_formed(t).then(|| rules::check(t).err()).flatten();
        if let Some(what) = Some(t).filter(|_| printed || run.state.is_none()).and_then(broken) {
            report(name, t, &what, &|t| broken(t).is_some());
        }
        if !printed {
            return;
        }
        let mangled = mangle::mangled(&mut self.random, t);
        if let Some(what) = difference(&mangled, &right(&mangled)) {
            report(&format!("{name}, mangled"), &mangled, &what, &package_differs);
        }
        self.tally.add(&mangled);
        self.waiting.extend([t.clone(), mangled]);
        if self.waiting.len() >= BATCH {
            self.print_waiting();
        }
    }

    /// The tables that wait go through the program in C.
    fn print_waiting(&mut self) {
        let path = self.path;
        let printed = program::printed_by(path, &self.waiting).unwrap_or_else(|what| {
            println!("FAILED {what}");
            exit(1)
        });
        let differs = |t: &Table, printed: &str| first_difference(&right(t), printed);
        for (t, printed) in self.waiting.iter().zip(&printed) {
            if let Some(what) = differs(t, printed) {
                let again = |t: &Table| program::printed_by(path, std::slice::from_ref(t));
                report("in C", t, &what, &|t| again(t).is_ok_and(|printed| differs(t, &printed[0]).is_some()));
            }
        }
        self.tally.printed += self.waiting.len();
        self.waiting.clear();
    }
}

/// The tables of N random cases through the package, and some of them through the program in C at the path.
pub fn all(path: &str, cases: usize, seed: u64) {
    println!("seed {seed}, {cases} cases");
    let mut tables = Tables { path, random: Random(seed), waiting: vec![], tally: Tally::default() };
    for index in 0..cases {
        let (kind, case) = generate::case(seed, index);
        tables.case(&format!("seed {seed} case {index} ({kind})"), &case);
    }
    tables.print_waiting();
    tables.tally.print();
}
