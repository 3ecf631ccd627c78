//! Whole run files with what the program prints for each, from `cases/answers/runs.txt`. An engine's run gives the same
//! listing, and its events one by one lead to the same table.

use super::script::{expect, Script};
use crate::cases::records::rests;
use crate::cases::text::from_hexadecimal;
use crate::engines::Engine;
use crate::reference::{meaning, LISTING, SCRATCH};
use furnacejade::{Sums, Table};

/// A file by its name, and what the program prints for it.
pub struct WholeRun {
    pub name: String,
    pub file: Vec<u8>,
    pub printed: String,
}

/// The runs that stand in the folder of the bindings too.
const OF_BINDINGS: [(&str, &[u8]); 3] = [
    ("the run with classes", include_bytes!("../../../bindings/classes.run")),
    ("the run with reports under way", include_bytes!("../../../bindings/underway.run")),
    ("the run with a set point", include_bytes!("../../../bindings/settings.run")),
];

/// All whole runs: a line with a name and the bytes begins one.
pub fn all() -> Vec<WholeRun> {
    let mut runs: Vec<WholeRun> = vec![];
    let text = include_str!("../../cases/answers/runs.txt");
    for line in text.lines().filter(|line| !line.is_empty() && !line.starts_with('#')) {
        match line.split_once(": ") {
            Some((name, bytes)) => {
                runs.push(WholeRun { name: name.into(), file: from_hexadecimal(bytes), printed: String::new() })
            }
            None => runs.last_mut().expect("a name and bytes").printed += &format!("{line}\n"),
        }
    }
    runs
}

pub fn named(name: &str) -> WholeRun {
    all().into_iter().find(|run| run.name == name).expect("a run of that name")
}

/// The run that docs/RULES.md works through event by event.
pub fn worked() -> WholeRun {
    named("the worked run")
}

impl WholeRun {
    /// The lines of sets, and the numbers of the last line: how many events were accepted, and the refusal.
    fn listing_and_end(&self) -> (String, usize, u8) {
        let (mut listing, mut end) = (String::new(), (0, 0));
        for line in self.printed.lines() {
            let words: Vec<&str> = line.split(' ').collect();
            match words[..] {
                ["controllers", _] => {}
                ["end", events, number] => end = (events.parse().expect("a number"), number.parse().expect("a number")),
                _ => listing += &format!("{line}\n"),
            }
        }
        (listing, end.0, end.1)
    }

    pub fn listing(&self) -> String {
        self.listing_and_end().0
    }

    /// The table that the run leaves, if it and each of its events are as the program prints them.
    fn check(&self, engine: &dyn Engine) -> Result<Table, String> {
        let (lines, events, number) = self.listing_and_end();
        let mut listing = vec![7; LISTING];
        let run = engine.run(&self.file, &mut listing, &mut [7; SCRATCH]);
        expect((run.events, run.refusal.0) == (events, number), &format!("{}: its answer", self.name))?;
        expect(listing[..run.written] == *lines.as_bytes(), &format!("{}: its listing", self.name))?;
        if number == 0 {
            let mut script = Script::fresh(engine, self.file[0] as usize, self.file[1] as usize);
            expect(listed(&mut script, &self.file) == Some(lines), &format!("{}: its events", self.name))?;
            expect(meaning(&script.table) == meaning(&run.table), &format!("{}: its last table", self.name))?;
            let same = |c: usize| engine.look(&script.table, c) == engine.look(&run.table, c);
            expect((1..=script.table.n).all(same), &format!("{}: the looks after it", self.name))?;
        }
        Ok(run.table)
    }
}

/// The listing of a file whose events are carried out one by one, if all are accepted.
fn listed(script: &mut Script, file: &[u8]) -> Option<String> {
    let mut listing = String::new();
    for (event, rest) in (1..).zip(rests(file)) {
        let (number, set) = script.event(rest.to_vec());
        if number != 0 {
            return None;
        }
        if !set.is_empty() {
            let Sums { added, withdrawn } = script.engine.look(&script.table, rest[2] as usize).panel.sums;
            let names: String = set.iter().map(|(sender, number)| format!(" {sender}.{number}")).collect();
            listing += &format!("{event} {} {added} {withdrawn}{names}\n", rest[2]);
        }
    }
    Some(listing)
}

pub fn check(engine: &dyn Engine) -> Result<(), String> {
    for run in all() {
        run.check(engine)?;
    }
    for (name, file) in OF_BINDINGS {
        expect(named(name).file == file, &format!("{name} is that of the bindings"))?;
    }
    let classes = named("the run with classes").check(engine)?;
    let all_read = classes.controllers[..2].iter().all(|own| own.read[..2] == [3, 3] && own.length == 3);
    expect(all_read, "the run with classes reads every log to its end")
}
