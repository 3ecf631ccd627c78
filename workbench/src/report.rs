//! A run in words: each event with what it did, the sets, the refusal with its reason, and the panels at the end.

use crate::disassemble::hand_lines;
use crate::play::{controller, in_state, read, Checked, Play, Refused};
use crate::source::Source;
use crate::text::{record_text, Expectation};
use crate::words::{self, count, hexadecimal};
use furnacejade::{look, Class, Name, Panel, Record, Register, Stamp, State};
use std::fmt::Write;

/// A cell of the table of panels names at most this many messages.
const NAMED: usize = 12;

/// Whether nothing was refused and every expectation held. (Where nothing is refused every expectation is reached.)
pub fn succeeded(play: &Play) -> bool {
    play.refused.is_none() && play.checked.iter().all(Checked::holds)
}

pub fn report(source: &Source, play: &Play) -> String {
    let table = &play.table;
    let mut text = String::new();
    if table.n > 0 {
        let controllers = count(table.n, "controller", "controllers");
        let head = format!("version {}, {controllers}, majority {}", table.version, play.majority());
        let _ = writeln!(text, "{}: {head}\n", source.name);
    }
    events(&mut text, source, play);
    if !text.is_empty() {
        text += "\n";
    }
    if let Some(refused) = &play.refused {
        text += &refusal(source, play, refused);
    }
    let _ = writeln!(text, "{}", outcome(source, play));
    for line in words::dispatched(play) {
        let _ = writeln!(text, "{line}");
    }
    if table.n > 0 {
        text += "\n";
        text += &panels(play);
    }
    let lines = hand_lines(play);
    if !lines.is_empty() {
        let _ = writeln!(text, "\n{}", lines.join("\n"));
    }
    text
}

/// A line or two for each event, and a line for each expectation, after the events that come before it. A line says where the
/// dispatcher's handovers begin.
fn events(text: &mut String, source: &Source, play: &Play) {
    let width = play.steps.iter().map(|step| record_text(step.record).len()).max().unwrap_or(0);
    let mut checked = play.checked.iter().peekable();
    for events in 0..=play.steps.len() {
        if let Some(step) = events.checked_sub(1).map(|before| &play.steps[before]) {
            if events == play.recorded + 1 {
                let _ = writeln!(text, "{:5}  the dispatcher hands over from here on", "");
            }
            let _ =
                writeln!(text, "{:5}  {:width$}  {}", step.number, record_text(step.record), words::effect(play, step));
            if let Some(applied) = &step.applied {
                let _ = writeln!(text, "{:5}  {:width$}  {}", "", "", words::applied(play, step, applied));
            }
        }
        while let Some(checked) = checked.next_if(|checked| checked.events == events) {
            let _ = writeln!(text, "{:5}  {}", "", expectation(source, play, checked));
        }
    }
}

/// Whether an expectation held, and what the panel showed if it did not.
fn expectation(source: &Source, play: &Play, checked: &Checked) -> String {
    let Expectation { place, panel, sums, .. } = checked.expectation;
    let shown = match checked.shown {
        Some(shown) if shown == sums => return format!("expect {panel} {sums}: so it is"),
        Some(shown) => format!("panel {panel} shows {}; expected: {}", words::sums(shown), words::sums(sums)),
        None => format!("there is no panel {panel}: {}", words::panels(play.table.n)),
    };
    format!("{}: FAILED: {shown}", source.place(place))
}

/// What failed: expectations, the refusal, and expectations that were not reached. Each has a line, which begins with its
/// place.
pub fn complaints(source: &Source, play: &Play) -> String {
    let failed = play.checked.iter().filter(|checked| !checked.holds());
    let mut lines: Vec<String> = failed.map(|checked| expectation(source, play, checked)).collect();
    lines.extend(play.refused.as_ref().map(|refused| refusal_line(source, play, refused)));
    if let Some(first) = play.unreached.first() {
        let unreached = count(
            play.unreached.len(),
            "expectation was not reached",
            "expectations were not reached; this is the first",
        );
        lines.push(format!("{}: {unreached}", source.place(first.place)));
    }
    lines.iter().map(|line| format!("{line}\n")).collect()
}

/// A refusal in one line: its place, what is refused, the question, and the reason.
fn refusal_line(source: &Source, play: &Play, refused: &Refused) -> String {
    let place = source.assembled.place(refused.offset);
    let what = match (refused.offset, place) {
        (0 | 1, _) => "the file".into(),
        (_, Some(_)) => format!("record {}", play.steps.len() + 1),
        (offset, None) => format!("record {}, at offset {offset},", play.steps.len() + 1),
    };
    let place = place.map_or(source.name.clone(), |place| source.place(place));
    let reason = words::reason(play, refused).map_or(String::new(), |reason| format!(" ({reason})"));
    format!("{place}: {what} is {}{reason}", refused.refusal)
}

/// What is refused, by which question and why, and its event, offset, bytes and place.
pub fn refusal(source: &Source, play: &Play, refused: &Refused) -> String {
    let mut lines = vec![];
    if let Some(reason) = words::reason(play, refused) {
        lines.push(("because", reason));
    }
    let in_file = refused.offset >= 2;
    let what = match in_file {
        true => format!("record {}", play.steps.len() + 1),
        false => source.name.clone(),
    };
    if in_file {
        if let Some(record) = Record::from_bytes(refused.bytes) {
            lines.push(("event", record_text(record)));
        }
        lines.push(("offset", refused.offset.to_string()));
    }
    if !refused.bytes.is_empty() {
        lines.push(("bytes", hexadecimal(refused.bytes)));
    }
    if let Some(place) = source.assembled.place(refused.offset) {
        lines.push(("text", source.place(place)));
    }
    let head = format!("{what} is {}\n", refused.refusal);
    lines.iter().fold(head, |text, (what, line)| format!("{text}    {what:8} {line}\n"))
}

/// How many events were accepted, and how many expectations held.
fn outcome(source: &Source, play: &Play) -> String {
    let mut text = format!("{} accepted", count(play.recorded, "event", "events"));
    let all = source.expectations().len();
    if all > 0 {
        let held = play.checked.iter().filter(|checked| checked.holds()).count();
        let _ = write!(text, "; of {}, {held} held", count(all, "expectation", "expectations"));
        let failed = play.checked.len() - held;
        if failed > 0 {
            let _ = write!(text, ", {failed} failed");
        }
        if !play.unreached.is_empty() {
            let _ = write!(text, ", {} not reached", play.unreached.len());
        }
    }
    text
}

/// A row of the table of panels: its title, and a cell for each panel, which has lines.
type Row = (String, Vec<Vec<String>>);

/// Every panel side by side.
fn panels(play: &Play) -> String {
    let (table, all) = (&play.table, play.table.controller_numbers());
    let shown: Vec<(u8, Panel)> = all.clone().filter_map(|c| Some((c, look(table, c).ok()?))).collect();
    let row = |what: &str, cell: &dyn Fn(u8, &Panel) -> String| -> Row {
        (what.into(), shown.iter().map(|(c, panel)| vec![cell(*c, panel)]).collect())
    };
    let mut rows = vec![row("", &|c, _| format!("panel {c}"))];
    if all.clone().any(|c| !table.runs(c)) {
        rows.push(row("stopped", &|c, _| play.stopped(c).map_or("-".into(), |step| format!("event {}", step.number))));
    }
    rows.push(row("added", &|_, panel| panel.sums.added.to_string()));
    rows.push(row("withdrawn", &|_, panel| panel.sums.withdrawn.to_string()));
    for class in Class::ALL.into_iter().filter(|_| table.version == 2) {
        rows.push(row(&format!("{class} added"), &|_, panel| panel.of(class).added.to_string()));
        rows.push(row(&format!("{class} withdrawn"), &|_, panel| panel.of(class).withdrawn.to_string()));
    }
    for (r, register) in (1..).zip(0..furnacejade::REGISTERS) {
        if shown.iter().any(|(_, panel)| panel.registers[register].stamp > Stamp::BLANK) {
            rows.push(row(&format!("register {r}"), &|_, panel| register_text(panel.registers[register])));
        }
    }
    rows.push((
        format!("pending (marks; {} needed)", play.majority()),
        all.clone().map(|c| pending(play, c)).collect(),
    ));
    let cut_off: Vec<Vec<Name>> = all.clone().map(|c| in_state(table, c, State::CutOff)).collect();
    if cut_off.iter().any(|names| !names.is_empty()) {
        rows.push(("cut off".into(), cut_off.iter().map(|names| cell(names, Name::to_string)).collect()));
    }
    for owner in all {
        let length = controller(table, owner).length;
        rows.push(row(&format!("read of log {owner}"), &|c, _| format!("{} of {length}", read(table, c, owner))));
    }
    aligned(&rows)
}

fn register_text(Register { value, stamp }: Register) -> String {
    match stamp {
        Stamp::BLANK => "-".into(),
        Stamp { date, writer } => format!("{value} ({date}, {writer})"),
    }
}

/// The messages that are pending at a controller, and how many marks each has there.
fn pending(play: &Play, c: u8) -> Vec<String> {
    cell(&in_state(&play.table, c, State::Pending), |name| format!("{name} ({})", play.marks(c, *name).len()))
}

/// A cell with a line for each message.
fn cell(names: &[Name], line: impl Fn(&Name) -> String) -> Vec<String> {
    let mut lines: Vec<String> = names.iter().take(NAMED).map(line).collect();
    if names.len() > NAMED {
        lines.push(format!("and {} more", names.len() - NAMED));
    }
    if lines.is_empty() {
        lines.push("-".into());
    }
    lines
}

/// The rows as text, with the cells of a column aligned.
fn aligned(rows: &[Row]) -> String {
    let title = rows.iter().map(|row| row.0.len()).max().unwrap_or(0);
    let columns = rows.first().map_or(0, |row| row.1.len());
    let width = |column: usize| rows.iter().flat_map(|row| &row.1[column]).map(String::len).max().unwrap_or(0);
    let widths: Vec<usize> = (0..columns).map(width).collect();
    let mut text = String::new();
    for (what, cells) in rows {
        let height = cells.iter().map(Vec::len).max().unwrap_or(0);
        for line in 0..height {
            let mut row = format!("{:title$}", if line == 0 { what } else { "" });
            for (cell, width) in cells.iter().zip(&widths) {
                let _ = write!(row, "  {:width$}", cell.get(line).map_or("", String::as_str));
            }
            text += row.trim_end();
            text += "\n";
        }
    }
    text
}
