//! What `run` prints of a file, read as a user reads it, and the same from the reference: what each event did, sets,
//! refusals, and the rows of the table of panels.

use super::played::{first_records, majority, name_text, Played};
use crate::cases::text::hexadecimal;
use crate::reference::{Controller, Name, Payload, Register, Says, Standing, State, REGISTERS, SCRATCH};

/// The words with which the text of a record begins.
const EVENTS: [&str; 6] = ["report", "sync", "hand", "stop", "read", "write"];

/// The names of the weight classes 1 to 4.
const CLASSES: [&str; 4] = ["XL", "L", "M", "S"];

/// The line of a set: its panel, its messages, and both sums that the panel then shows.
pub struct Set<'a> {
    panel: &'a str,
    pub messages: &'a str,
    added: &'a str,
    withdrawn: &'a str,
}

/// The set of a line, as "panel 3 applies 1.1 (+30) and 3.1 (-2) as one set, and shows 30 added, 2 withdrawn".
pub fn set_of(line: &str) -> Option<Set<'_>> {
    let (panel, rest) = line.trim_start().strip_prefix("panel ")?.split_once(" applies ")?;
    let (messages, sums) = rest.split_once(", and shows ")?;
    let (added, rest) = sums.split_once(" added, ")?;
    let (withdrawn, _) = rest.split_once(" withdrawn")?;
    Some(Set { panel, messages, added, withdrawn })
}

/// The names of messages in a line, each with what it says: "1.1" and "+30" of "1.1 (+30)".
pub fn messages(text: &str) -> Vec<(&str, &str)> {
    let parts: Vec<&str> = text.split(['(', ')']).collect();
    parts.chunks_exact(2).map(|pair| (pair[0].split_whitespace().last().unwrap_or_default(), pair[1])).collect()
}

/// Whether a line is the line of an event: a number, and the text of a record.
fn is_event(line: &str) -> bool {
    let mut words = line.split_whitespace();
    words.next().is_some_and(|word| word.parse::<usize>().is_ok()) && words.next().is_some_and(|w| EVENTS.contains(&w))
}

/// What the program prints, read from the lines of a run in words; nothing if its end is missing.
pub fn rebuilt(text: &str) -> Option<String> {
    let (mut printed, mut event, mut refused) = (String::new(), "", "0");
    for line in text.lines() {
        let words: Vec<&str> = line.split_whitespace().collect();
        if let Some((_, number)) = refusal_in(line) {
            refused = number;
        } else if is_event(line) {
            event = words[0];
        } else if let Some(Set { panel, messages: set, added, withdrawn }) = set_of(line) {
            let names: String = messages(set).iter().map(|(name, _)| format!(" {name}")).collect();
            printed += &format!("{event} {panel} {added} {withdrawn}{names}\n");
        } else if let [events, "event" | "events", "accepted"] = words[..] {
            return Some(printed + &format!("end {events} {refused}\n"));
        } else if let Some((_, head)) = line.rsplit_once(": version ") {
            printed += &format!("controllers {}\n", head.split_whitespace().nth(1)?);
        }
    }
    None
}

/// What a line says is refused, and the number: "record 12 is refused by question 13: ...".
pub fn refusal_in(line: &str) -> Option<(&str, &str)> {
    let (what, rest) = line.split_once(" is refused by question ")?;
    Some((what, rest.split_once(':')?.0))
}

/// The text of a record that was accepted.
fn record_text(record: &[u8]) -> String {
    let amount = || i16::from_be_bytes([record[3], record[4]]);
    match record {
        [4, 1, c, ..] => format!("report {c} {:+}", amount()),
        [5, 1, c, _, _, class] => format!("report {c} {:+} class {}", amount(), CLASSES[*class as usize - 1]),
        [2, 2, c] => format!("sync {c}"),
        [3, 3, r, o] => format!("hand {r} <- {o}"),
        [4, 4, c, high, low] => format!("stop {c} keep {}", u16::from_be_bytes([*high, *low])),
        [2, 5, c] => format!("read {c}"),
        [7, 6, c, r, value @ ..] => {
            let value = value.iter().fold(0, |value, byte| value << 8 | *byte as u32);
            format!("write {c} register {r} = {value}")
        }
        _ => format!("no record: {}", hexadecimal(record)),
    }
}

/// The number and the text of each event that was accepted, and what it did, a line for each; below the handover that
/// finishes a sync, what that answers.
pub fn events(file: &Played) -> String {
    let Some(State { version, n, .. }) = file.run.state else { return String::new() };
    let (mut state, mut text) = (State::fresh(version, n), String::new());
    for (number, record) in (1..).zip(first_records(file.bytes, file.run.events)) {
        let c = record[2] as usize;
        let before = state.controllers[c - 1].clone();
        let (answer, _) = state.event(record, &mut [0; SCRATCH]);
        let sums = format!("{} added, {} withdrawn", answer.sums.added, answer.sums.withdrawn);
        let did = match record[1] {
            3 => handed_over(&before, &state, c, record[3] as usize),
            4 => stopped(&before, &state, c),
            5 => format!("controller {c} reads its own sums: {sums}"),
            _ => {
                let name = name_text(&state.messages[state.messages.len() - 1].name);
                format!("controller {c} sends {name} ({})", said_of(&state, &name))
            }
        };
        text += &format!("{number} {}: {did}\n", record_text(record));
        if answer.finished {
            text += &format!("answers {sums}\n");
        }
    }
    text
}

/// What a handover did, with the reader as it was before and the state after it.
fn handed_over(known: &Controller, state: &State, reader: usize, owner: usize) -> String {
    let (then, place) = (&state.controllers[reader - 1], known.read[owner - 1]);
    let name = state.controllers[owner - 1].log[place];
    let before = known.pending.get(&name).map(|marks| (marks[owner - 1], marks.iter().flatten().count()));
    let (what, marks) = match before {
        _ if then.log.len() > known.log.len() => {
            (format!("new to it, forwarded as entry {} of its own log", then.log.len()), 1)
        }
        None => ("applied already, passed over".into(), 0),
        Some((Some(_), marks)) => ("known to it, with its own mark".into(), marks),
        Some((None, marks)) => (format!("marked by {owner}"), marks + 1),
    };
    let log = if owner == reader { "its own log".into() } else { format!("log {owner}") };
    let marks = match marks {
        0 => String::new(),
        1 => format!("; 1 mark, {} needed", majority(state)),
        more => format!("; {more} marks, {} needed", majority(state)),
    };
    format!("controller {reader} reads {}, entry {} of {log}: {what}{marks}", name_text(&name), place + 1)
}

/// What a stop did, with the controller as it was before.
fn stopped(before: &Controller, state: &State, c: usize) -> String {
    let (kept, length) = (state.controllers[c - 1].log.len(), before.log.len());
    let (own, others): (Vec<&Name>, Vec<&Name>) = before.log[kept..].iter().partition(|name| name.sender == c);
    let lost = |what: &str, names: Vec<&Name>| {
        let names: Vec<String> = names.into_iter().map(name_text).collect();
        match &names[..] {
            [] => String::new(),
            [one] => format!("; {what} {one}"),
            [first @ .., last] => format!("; {what} {} and {last}", first.join(", ")),
        }
    };
    let entries = if length == 1 { "entry" } else { "entries" };
    let lost = lost("cut off:", own) + &lost("entries lost:", others);
    format!("controller {c} stops: {kept} of {length} {entries} kept{lost}")
}

/// The same, from the lines of a run in words. What an event did stands after two spaces or more.
pub fn events_in(text: &str) -> String {
    let mut events = String::new();
    for line in text.lines() {
        if is_event(line) {
            let (number, rest) = line.trim_start().split_once("  ").unwrap_or_default();
            let (record, did) = rest.split_once("  ").unwrap_or_default();
            events += &format!("{number} {record}: {}\n", did.trim_start());
        } else if let Some((_, sums)) = line.split_once("; its sync is finished and answers ") {
            events += &format!("answers {sums}\n");
        }
    }
    events
}

/// What a message says, as it stands in brackets after its name.
pub fn said_of(state: &State, name: &str) -> String {
    let message = state.messages.iter().find(|message| name_text(&message.name) == name);
    match message.map(|message| message.payload) {
        Some(Payload::Report { amount, class: 0 }) => format!("{amount:+}"),
        Some(Payload::Report { amount, class }) => format!("{amount:+} {}", CLASSES[class - 1]),
        Some(Payload::Sync) => "sync".into(),
        Some(Payload::Write { register, value }) => format!("register {register} = {value}"),
        None => format!("{name} was not sent"),
    }
}

/// The first line of the row of what was cut off, which has the first message of each panel; if there is one.
fn cut_off(state: &State) -> Option<Vec<String>> {
    let names = || state.messages.iter().map(|message| message.name);
    let first = |c: usize| names().find(|name| state.standing(c, name) == Standing::CutOff);
    let all: Vec<Option<Name>> = (1..=state.n).map(first).collect();
    let shown = |name: &Option<Name>| name.as_ref().map_or("-".into(), name_text);
    all.iter().any(Option::is_some).then(|| all.iter().map(shown).collect())
}

/// Rows of the table of panels: their titles, and their lines with one space between the cells.
pub fn rows(state: &State) -> Vec<(String, String)> {
    let shown: Vec<_> = (1..=state.n).filter_map(|c| state.look(c).ok()).collect();
    let row = |title: &str, cells: Vec<String>| (title.to_string(), format!("{title} {}", cells.join(" ")));
    let mut rows = vec![
        row("added", shown.iter().map(|panel| panel.sums.added.to_string()).collect()),
        row("withdrawn", shown.iter().map(|panel| panel.sums.withdrawn.to_string()).collect()),
    ];
    for (class, name) in (1..).zip(CLASSES).filter(|_| state.version == 2) {
        let of = |withdrawn: bool| {
            let sums = shown.iter().map(|panel| panel.classes[class]);
            sums.map(|sums| if withdrawn { sums.withdrawn } else { sums.added }.to_string()).collect()
        };
        rows.extend([row(&format!("{name} added"), of(false)), row(&format!("{name} withdrawn"), of(true))]);
    }
    for (r, register) in (1..).zip(0..REGISTERS) {
        if shown.iter().any(|panel| panel.registers[register] != Register::default()) {
            let cells = shown.iter().map(|panel| register_text(panel.registers[register])).collect();
            rows.push(row(&format!("register {r}"), cells));
        }
    }
    rows.push(cut_off(state).map_or(("cut off".into(), NO_ROW.into()), |cells| row("cut off", cells)));
    for (owner, log) in (0..state.n).map(|owner| (owner, &state.controllers[owner].log)) {
        let cells = state.controllers.iter().map(|c| format!("{} of {}", c.read[owner], log.len())).collect();
        rows.push(row(&format!("read of log {}", owner + 1), cells));
    }
    rows
}

fn register_text(Register { value, stamp }: Register) -> String {
    match stamp.date {
        0 => "-".into(),
        date => format!("{value} ({date}, {})", stamp.writer),
    }
}

/// What stands for a row that the table of panels does not have.
const NO_ROW: &str = "no such row";

/// A row of the table of panels, with one space between its words.
pub fn row_in(text: &str, title: &str) -> String {
    let table = text.lines().skip_while(|line| !line.contains(" accepted"));
    let mut rows = table.filter(|line| line.strip_prefix(title).is_some_and(|rest| rest.starts_with("  ")));
    rows.next().unwrap_or(NO_ROW).split_whitespace().collect::<Vec<_>>().join(" ")
}
