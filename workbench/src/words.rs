//! Events, sets and refusals in words. What they say was read from an answer or from a table.

use crate::play::{actor, controller, in_state, log, read, Applied, Effect, Heard, Play, Refused, Step};
use crate::source::is_text;
use crate::text::record_text;
use furnacejade::{Class, Message, Name, Payload, Record, Refusal, State, Sums};

/// A number of things: "1 entry", "2 entries".
pub fn count(number: usize, one: &str, more: &str) -> String {
    format!("{number} {}", if number == 1 { one } else { more })
}

/// Things in a sentence: "1.1, 2.1 and 3.1".
pub fn list<T: ToString>(things: &[T]) -> String {
    let texts: Vec<String> = things.iter().map(T::to_string).collect();
    match &texts[..] {
        [before @ .., last] if !before.is_empty() => format!("{} and {last}", before.join(", ")),
        _ => texts.concat(),
    }
}

pub fn hexadecimal(bytes: &[u8]) -> String {
    bytes.iter().map(|byte| format!("{byte:02X}")).collect::<Vec<_>>().join(" ")
}

pub fn sums(Sums { added, withdrawn }: Sums) -> String {
    format!("{added} added, {withdrawn} withdrawn")
}

/// What a message says: "+30", "-2 M", "sync", "register 3 = 1500".
pub fn said(message: &Message) -> String {
    let Payload { kind, class, added, withdrawn, reg, value } = message.payload;
    let amount = i32::from(added) - i32::from(withdrawn);
    match (kind, class.class()) {
        (Payload::SYNC, _) => "sync".into(),
        (Payload::WRITE, _) => format!("register {reg} = {value}"),
        (_, None | Some(Class::None)) => format!("{amount:+}"),
        (_, Some(class)) => format!("{amount:+} {class}"),
    }
}

/// A message with what it says: "1.1 (+30)".
pub fn message(play: &Play, name: Name) -> String {
    let said = play.slot(name).map(|slot| said(&play.table.messages[slot]));
    format!("{name} ({})", said.unwrap_or_default())
}

/// A log as seen by one of its readers: "its own log", "log 2".
pub fn log_of(owner: u8, reader: u8) -> String {
    if owner == reader {
        "its own log".into()
    } else {
        format!("log {owner}")
    }
}

/// The range of the panels of a run.
pub fn panels(n: usize) -> String {
    match n {
        1 => "the only panel is 1".into(),
        _ => format!("panels are 1 to {n}"),
    }
}

/// What an event did. The set that it applied has a line of its own.
pub fn effect(play: &Play, step: &Step) -> String {
    let c = step.controller;
    match &step.effect {
        Effect::Sent(name) => format!("controller {c} sends {}", message(play, *name)),
        Effect::Read { owner, entry, name, heard, marks } => {
            let read = format!("controller {c} reads {name}, entry {entry} of {}", log_of(*owner, c));
            let heard = match heard {
                Heard::Forwarded { entry } => format!("new to it, forwarded as entry {entry} of its own log"),
                Heard::Marked => format!("marked by {owner}"),
                Heard::Known => "known to it, with its own mark".into(),
                Heard::Passed => "applied already, passed over".into(),
            };
            match marks.len() {
                0 => format!("{read}: {heard}"),
                number => format!("{read}: {heard}; {}, {} needed", count(number, "mark", "marks"), play.majority()),
            }
        }
        Effect::Stopped { kept, lost } => {
            let stops = format!("controller {c} stops: {} of {} kept", kept, entries(kept + lost.len()));
            let (own, others): (Vec<Name>, Vec<Name>) = lost.iter().partition(|name| name.sender == c);
            let cut = |names: &[Name], what: &str| match names {
                [] => String::new(),
                _ => format!("; {what} {}", list(names)),
            };
            format!("{stops}{}{}", cut(&own, "cut off:"), cut(&others, "entries lost:"))
        }
        Effect::LocalRead(read) => format!("controller {c} reads its own sums: {}", sums(*read)),
    }
}

/// The messages of a set: "1.1 (+30) and 3.1 (-2) as one set".
pub fn set(play: &Play, names: &[Name]) -> String {
    let messages: Vec<String> = names.iter().map(|name| message(play, *name)).collect();
    let as_one = if names.len() > 1 { " as one set" } else { "" };
    format!("{}{as_one}", list(&messages))
}

/// A set that a panel applied, with its messages and the sums that the panel then shows.
pub fn applied(play: &Play, step: &Step, Applied { names, sums: shown, finished }: &Applied) -> String {
    let text = format!("panel {} applies {}, and shows {}", step.controller, set(play, names), sums(*shown));
    match finished {
        Some(answer) => format!("{text}; its sync is finished and answers {}", sums(*answer)),
        None => text,
    }
}

/// What the dispatcher did after the last record, in lines; none if it was not to do anything.
pub fn dispatched(play: &Play) -> Vec<String> {
    let (table, first, last) = (&play.table, play.recorded + 1, play.steps.len());
    let number = count(play.dispatched().len(), "handover", "handovers");
    let made = match play.dispatched().len() {
        _ if !play.to_end => return vec![],
        _ if play.refused.is_some() => return vec!["the dispatcher makes no handover: a refusal ends the run".into()],
        0 => "the dispatcher finds no handover to make".into(),
        1 => format!("the dispatcher makes {number}, event {first}"),
        _ => format!("the dispatcher makes {number}, events {first} to {last}"),
    };
    let mut lines = vec![format!("{made}; every running controller has read every log to its end")];
    let running = table.controller_numbers().filter(|c| table.runs(*c)).count();
    if running < play.majority() {
        let few = format!("controllers that run: {running} of {}, which is no majority", table.n);
        lines.push(format!("{few}; what is pending may stay so"));
    }
    lines
}

pub fn entries(number: usize) -> String {
    count(number, "entry", "entries")
}

/// The forms of the records of a kind, with fields of zero.
fn forms(kind: u8) -> Vec<Record> {
    let record = |length: u8| {
        let mut bytes = vec![0; length as usize + 1];
        bytes[..2].copy_from_slice(&[length, kind]);
        Record::from_bytes(&bytes)
    };
    (1..16).filter_map(record).collect()
}

/// The version in which records have this form, if they have it in one version only.
fn version_of(form: Record) -> Option<u8> {
    match form {
        Record::Report { .. } => Some(1),
        Record::ClassedReport { .. } => Some(2),
        _ => None,
    }
}

/// What is wrong with the form of a record; none if it has the form of a record of this version. Of a record that is cut
/// short these are the bytes that are there.
pub fn malformed(bytes: &[u8], version: u8) -> Option<String> {
    let (length, rest) = bytes.split_first()?;
    if rest.len() < *length as usize {
        let there = count(rest.len(), "is", "are");
        return Some(format!("the length byte counts {}, and {there} there", count(*length as usize, "byte", "bytes")));
    }
    let Some(kind) = rest.first() else { return Some("the length is 0, so there is no kind".into()) };
    if ![1, 2].contains(&version) && Record::from_bytes(bytes).is_some() {
        return None;
    }
    let forms = forms(*kind);
    let of_version = |form: &&Record| version_of(**form).unwrap_or(version) == version;
    let Some(form) = forms.iter().find(of_version).or(forms.first()) else {
        return Some(format!("no kind has the number {kind}"));
    };
    let wanted = form.bytes()[0];
    let text = record_text(*form);
    let event = text.split(' ').next().unwrap_or_default();
    let named = match version_of(*form) {
        Some(1) => " of version 1 names no class, and",
        Some(_) => " of version 2 names a class, and",
        None => "",
    };
    (*length != wanted).then(|| format!("a {event}{named} has length {wanted}; this one has length {length}"))
}

/// The controllers that a record names.
fn named(record: Record) -> Vec<u8> {
    match record {
        Record::Handover { receiver, owner } => vec![receiver, owner],
        _ => vec![actor(record)],
    }
}

/// The reason for a refusal, read from the bytes and the table.
pub fn reason(play: &Play, refused: &Refused) -> Option<String> {
    let (table, refusal) = (&play.table, refused.refusal);
    match refusal {
        Refusal::FileLength => return Some(format!("the file has {}", count(play.file.len(), "byte", "bytes"))),
        Refusal::Version => {
            let hint = if is_text(play.file) { "; these bytes look like a text, which --text takes" } else { "" };
            return Some(format!("byte 0, the version, is {}{hint}", play.file.first()?));
        }
        Refusal::ControllerCount => {
            return Some(format!("byte 1, the number of controllers, is {}", play.file.get(1)?));
        }
        Refusal::Record | Refusal::Kind | Refusal::RecordLength => {
            return malformed(refused.bytes, table.version as u8)
        }
        _ => {}
    }
    let record = Record::from_bytes(refused.bytes)?;
    let c = actor(record);
    match (refusal, record) {
        (Refusal::Controller, _) => {
            let stranger = named(record).into_iter().find(|c| !table.controller_numbers().contains(c))?;
            Some(format!("the run has controllers 1 to {}, and none is {stranger}", table.n))
        }
        (Refusal::Stopped, _) => Some(format!("controller {c} stopped at event {}", play.stopped(c)?.number)),
        (Refusal::Full, _) => Some(format!("the run has {}", count(table.count, "message", "messages"))),
        (Refusal::OwnPending | Refusal::ReadPending, _) => own_pending(play, c),
        (Refusal::NotSynced, _) => Some(match table.latest(c) {
            Some(name) => format!("the latest message of controller {c} is {}", message(play, name)),
            None => format!("controller {c} has sent nothing"),
        }),
        (Refusal::NoEntry, Record::Handover { owner, .. }) => Some(all_read(play, c, owner)),
        (Refusal::Kept, Record::Stop { kept, .. }) => Some(not_to_keep(play, c, kept.into())),
        (Refusal::Amount, Record::Report { amount, .. } | Record::ClassedReport { amount, .. }) => {
            Some(format!("the amount is {amount}"))
        }
        (Refusal::Class, Record::ClassedReport { class, .. }) => Some(format!("the class is {}", class.0)),
        (Refusal::Register, Record::Write { register, .. }) => Some(format!("the register is {register}")),
        _ => None,
    }
}

/// How much of a log a reader has read who has read all of it.
fn all_read(play: &Play, reader: u8, owner: u8) -> String {
    match controller(&play.table, owner).length {
        0 => format!("log {owner} has no entries"),
        1 => format!("controller {reader} has read the one entry of log {owner}"),
        length => format!("controller {reader} has read all {length} entries of log {owner}"),
    }
}

/// Why a stop may not keep this number of entries of a log.
fn not_to_keep(play: &Play, owner: u8, kept: usize) -> String {
    let read = |reader: u8| read(&play.table, reader, owner);
    match play.table.controller_numbers().find(|reader| read(*reader) > kept) {
        Some(reader) => {
            format!("controller {reader} has read {} of log {owner}, and {kept} are to be kept", entries(read(reader)))
        }
        None => {
            format!("log {owner} has {}, and {kept} are to be kept", entries(controller(&play.table, owner).length))
        }
    }
}

/// The messages that a controller has sent and not applied.
fn own_pending(play: &Play, c: u8) -> Option<String> {
    let mut own = in_state(&play.table, c, State::Pending);
    own.retain(|name| name.sender == c);
    let is = if own.len() == 1 { "is" } else { "are" };
    (!own.is_empty()).then(|| format!("{} of its own {is} pending at controller {c}", list(&own)))
}

/// The entries of a log that a reader has not read: their places and names.
pub fn unread(play: &Play, owner: u8, reader: u8) -> Vec<(usize, Name)> {
    (1..).zip(log(&play.table, owner)).skip(read(&play.table, reader, owner)).collect()
}
