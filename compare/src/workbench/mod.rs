//! The workbench against the reference, on random and mangled run files and on fixed edges: a file to its text and
//! back, a run in words, why a panel has (not) applied a message, and pictures. Output is read as a user reads it.

mod edges;
mod played;
mod run;
mod why;

use crate::cases::text::hexadecimal;
use crate::cases::{minimise, Case};
use crate::generate;
use played::{name_text, Played};
use run::*;
use std::collections::BTreeMap;
use std::fs;
use std::io::Write;
use std::process::{exit, Command, Stdio};
use std::time::{Duration, Instant};
use why::*;

/// How many kinds of files take turns, each of which is to go both ways and to be drawn.
const FILE_KINDS: usize = 4;

/// One file in this many is drawn.
const DRAWN_IN: usize = 10;

/// Whether a file goes through standard input and output.
fn is_piped(index: usize) -> bool {
    index / FILE_KINDS % 2 == 1
}

/// Whether a file is drawn: one of each ten, and each time the next.
fn is_drawn(index: usize) -> bool {
    index % DRAWN_IN == index / DRAWN_IN % DRAWN_IN
}

/// Whether a file looks like a text: it begins with two characters of one, the first of ASCII, and has no byte below 9.
fn looks_like_text(bytes: &[u8]) -> bool {
    let in_text = |byte: &u8| matches!(byte, b'\t' | b'\r' | b'\n' | 32..=126 | 128..);
    bytes.first().is_some_and(u8::is_ascii) && bytes.iter().take(2).all(in_text) && bytes.iter().all(|byte| *byte >= 9)
}

/// What a check expected, and what it found.
struct Wrong {
    check: &'static str,
    expected: String,
    found: String,
}

/// Whether a check finds what it expects.
fn same(check: &'static str, expected: String, found: String) -> Result<(), Wrong> {
    match expected == found {
        true => Ok(()),
        false => Err(Wrong { check, expected, found }),
    }
}

/// What a command answered: its status, what it wrote, and what it said on standard error.
struct Done {
    status: Option<i32>,
    output: Vec<u8>,
    errors: String,
}

impl Done {
    /// Whether the status is the one expected.
    fn ends_with(&self, check: &'static str, status: i32) -> Result<(), Wrong> {
        let found = match self.status {
            Some(found) if found == status => return Ok(()),
            Some(found) => format!("status {found}"),
            None => "no status".into(),
        };
        Err(Wrong { check, expected: format!("status {status}"), found: format!("{found}\n{}", self.errors) })
    }

    fn text(&self) -> String {
        String::from_utf8_lossy(&self.output).into_owned()
    }
}

/// The executable, and a folder for its files. Half of the files go through standard input and standard output.
struct Workbench<'a> {
    path: &'a str,
    folder: &'a str,
    piped: bool,
}

/// How often each state was asked about, and how many pictures were drawn.
#[derive(Default)]
struct Tally {
    states: BTreeMap<&'static str, usize>,
    pictures: usize,
}

impl Workbench<'_> {
    /// A file of the folder.
    fn file(&self, name: &str) -> String {
        format!("{}/{name}", self.folder)
    }

    /// Puts a run file where commands find it. The old file is removed first, as some disks are slow to write over a
    /// file.
    fn put(&self, bytes: &[u8]) {
        if !self.piped {
            let _ = fs::remove_file(self.file("run"));
            fs::write(self.file("run"), bytes).expect("the folder");
        }
    }

    /// Carries out a command on a file of the folder that has these bytes. The words follow the file's name.
    fn done(&self, command: &str, (name, bytes): (&str, &[u8]), words: &[&str]) -> Done {
        let file = if self.piped { "-".into() } else { self.file(name) };
        let mut call = Command::new(self.path);
        call.arg(command).arg(file).args(words).stdout(Stdio::piped()).stderr(Stdio::piped());
        call.stdin(if self.piped { Stdio::piped() } else { Stdio::null() });
        let mut child = call.spawn().expect("the workbench starts");
        let input = child.stdin.take();
        let output = std::thread::scope(|scope| {
            // It may end before it has read all, so a failed write is no failure.
            input.map(|mut input| scope.spawn(move || drop(input.write_all(bytes))));
            child.wait_with_output().expect("the workbench ends")
        });
        let errors = String::from_utf8_lossy(&output.stderr).into_owned();
        Done { status: output.status.code(), output: output.stdout, errors }
    }

    /// The same for a command that may write its answer to a file.
    fn written(&self, command: &str, input: (&str, &[u8]), name: &str, words: &[&str]) -> Done {
        if self.piped {
            return self.done(command, input, words);
        }
        // What an earlier command wrote must not be taken for the answer.
        let _ = fs::remove_file(self.file(name));
        let done = self.done(command, input, &[words, &["-o", &self.file(name)]].concat());
        Done { output: fs::read(self.file(name)).unwrap_or_default(), ..done }
    }

    /// The text of a file gives the file again. A file that looks like a text is disassembled only if it is said to be
    /// a run file.
    fn check_text(&self, bytes: &[u8]) -> Result<(), Wrong> {
        let mut text = self.written("disassemble", ("run", bytes), "text", &[]);
        if looks_like_text(bytes) {
            text.ends_with("disassemble: a text", 2)?;
            text = self.written("disassemble", ("run", bytes), "text", &["--bytes"]);
        }
        text.ends_with("disassemble", 0)?;
        let back = self.written("assemble", ("text", &text.output), "again", &[]);
        back.ends_with("assemble", 0)?;
        let shown = |bytes: &[u8]| format!("{}\nfrom the text\n{}", hexadecimal(bytes), text.text());
        same("assemble", shown(bytes), shown(&back.output))
    }

    /// A run in words says what the program prints, and shows the panels that the reference has.
    fn check_run(&self, file: &Played) -> Result<(), Wrong> {
        let done = self.done("run", ("run", file.bytes), &["--bytes"]);
        done.ends_with("run", file.status())?;
        let said: Vec<&str> =
            done.errors.lines().map(|line| refusal_in(line).map_or(line, |(_, number)| number)).collect();
        let refusals: Vec<u8> = Some(file.run.refusal).filter(|refusal| *refusal != 0).into_iter().collect();
        same("run: standard error", format!("{refusals:?}"), format!("[{}]", said.join(", ")))?;
        let text = done.text();
        same("run", file.printed.clone(), rebuilt(&text).unwrap_or(text.clone()))?;
        same("run: events", events(file), events_in(&text))?;
        let refused = text.lines().find_map(refusal_in).map(|(what, _)| what.to_string());
        same("run: refusal", self.refused(file), refused.unwrap_or_default())?;
        let Some(state) = &file.run.state else { return Ok(()) };
        for (name, found) in text.lines().filter_map(set_of).flat_map(|set| messages(set.messages)) {
            same("run: messages", said_of(state, name), found.into())?;
        }
        rows(state).into_iter().try_for_each(|(title, cells)| same("run: panels", cells, row_in(&text, &title)))
    }

    /// What the run says is refused: a record by its number, or the file by its name; nothing if all was accepted.
    fn refused(&self, Played { run, .. }: &Played) -> String {
        match (run.refusal, &run.state) {
            (0, _) => String::new(),
            (_, Some(_)) => format!("record {}", run.events + 1),
            (_, None) if self.piped => "standard input".into(),
            (_, None) => self.file("run"),
        }
    }

    /// Why a message is (not) applied at a panel, asked of a random one.
    fn check_why(&self, file: &Played, tally: &mut Tally) -> Result<(), Wrong> {
        let Some(Question { state, name, panel, after }) = question(file) else { return Ok(()) };
        let (message, number) = (name_text(&name), panel.to_string());
        let events = after.map(|after| after.to_string());
        let mut words = vec![message.as_str(), &number, "--bytes"];
        words.extend(events.iter().flat_map(|events| ["--after", events]));
        let done = self.done("why", ("run", file.bytes), &words);
        done.ends_with("why", if after.is_some() { 0 } else { file.status() })?;
        let (text, right) = (done.text(), state_of(&state, &name, panel));
        let first = text.lines().next().unwrap_or_default();
        let found = first.rsplit(": ").next().unwrap_or_default();
        let about = |what: &str| format!("why {}: {what}", words.join(" "));
        same("why: state", about(right), about(found))?;
        *tally.states.entry(right).or_default() += 1;
        offers(&text)
            .iter()
            .try_for_each(|offer| same("why: handovers", offer.clone(), followed(&state, &name, offer)))?;
        offers(&text).iter().try_for_each(|offer| {
            let about = |set: String| format!("{offer}: {set}");
            same("why: sets shown", about(set_shown(&state, offer)), about(set_shown_in(offer)))
        })?;
        if ["pending", "unknown"].contains(&right) {
            same("why: lost", about(&lost(&state, &name, panel)), about(&lost_in(&text)))?;
        }
        match right {
            "applied" => same("why: set", about(&set_with(&file.printed, &message, panel)), about(&set_in(&text))),
            "pending" => {
                same("why: marks", about(&marks(&state, &name, panel)), about(&marks_in(&text)))?;
                same("why: kept out", about(&keeping_out(&state, &name, panel)), about(&keeping_out_in(&text)))
            }
            _ => Ok(()),
        }
    }

    /// A picture is written.
    fn check_picture(&self, file: &Played, tally: &mut Tally) -> Result<(), Wrong> {
        let picture = self.file(&format!("{}.svg", file.index));
        let _ = fs::remove_file(&picture);
        let done = self.done("draw", ("run", file.bytes), &["--bytes", "-o", &picture]);
        done.ends_with("draw", file.status())?;
        let text = fs::read(&picture).map(|bytes| String::from_utf8_lossy(&bytes).chars().take(4).collect());
        tally.pictures += 1;
        same("draw", "<svg".into(), text.unwrap_or_else(|error| error.to_string()))
    }

    fn check(&self, bytes: &[u8], index: usize, tally: &mut Tally) -> Result<(), Wrong> {
        let file = Played::new(bytes, index);
        self.put(bytes);
        self.check_text(bytes)?;
        self.check_run(&file)?;
        self.check_why(&file, tally)?;
        match is_drawn(index) {
            true => self.check_picture(&file, tally),
            false => Ok(()),
        }
    }
}

/// A file that fails a check is made small, by what fails in the same way, and ends the program.
fn report_and_exit(bytes: &[u8], failed: &Wrong, check: &dyn Fn(&[u8]) -> Result<(), Wrong>) -> ! {
    let start = Instant::now();
    let fails = |smaller: &Case| -> bool {
        let found = || check(smaller.file_bytes()).is_err_and(|wrong| wrong.check == failed.check);
        start.elapsed() < Duration::from_secs(10) && found()
    };
    let small = minimise::minimise(&Case::file_alone(bytes.to_vec()), &fails);
    let again = check(small.file_bytes()).err();
    let Wrong { check, expected, found } = again.as_ref().unwrap_or(failed);
    println!("FAILED ({check}), made small: {}", hexadecimal(small.file_bytes()));
    println!("expected\n{expected}\nfound\n{found}");
    exit(1)
}

/// The edges and N random files through the workbench's commands.
pub fn all(path: &str, files: usize, seed: u64, folder: &str) {
    println!("seed {seed}, {files} files");
    let workbench = |index: usize| Workbench { path, folder, piped: is_piped(index) };
    let edges = edges::edges();
    for (index, bytes) in edges.iter().enumerate() {
        let check = |bytes: &[u8]| {
            workbench(index).put(bytes);
            workbench(index).check_text(bytes)
        };
        check(bytes).unwrap_or_else(|wrong| report_and_exit(bytes, &wrong, &check));
    }
    let mut tally = Tally::default();
    let is_file = |index: &usize| generate::KINDS[index % generate::KINDS.len()].0.contains("file");
    let random = (0..).filter(is_file).filter_map(|index| generate::case(seed, index).1.into_file_alone()).take(files);
    for (index, case) in random.enumerate() {
        let check = |bytes: &[u8], tally: &mut Tally| workbench(index).check(bytes, index, tally);
        let again = |bytes: &[u8]| check(bytes, &mut Tally::default());
        let bytes = case.file_bytes();
        check(bytes, &mut tally).unwrap_or_else(|wrong| report_and_exit(bytes, &wrong, &again));
    }
    let states: Vec<String> = tally.states.iter().map(|(state, times)| format!("{times} {state}")).collect();
    println!("messages asked about: {}; pictures: {}", states.join(", "), tally.pictures);
    println!("{files} files and {} edges: the workbench and the reference say the same", edges.len());
}
