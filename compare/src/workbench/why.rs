//! What `why` prints of a message at a panel, read as a user reads it, and the same from the reference: the message's
//! state, its set, its marks, what keeps it out, and the handovers that `why` offers, with the set of each single one.

use super::played::{first_records, majority, name_text, run_of, Played};
use super::run::said_of;
use crate::cases::records::handover;
use crate::generate::random::Random;
use crate::reference::{Controller, Name, Says, Standing, State, SCRATCH};

/// What is asked: a message and a panel, after an event or at the end, and the state there and then.
pub struct Question {
    pub state: State,
    pub name: Name,
    pub panel: usize,
    pub after: Option<usize>,
}

/// A random message and a random panel of a run, if it has a message. In half of the files it is a message that is
/// pending there, if one is; in a third it is asked after an event.
pub fn question(file: &Played) -> Option<Question> {
    let random = &mut Random(file.index as u64);
    let after = random.one_in(3).then(|| random.below(file.run.events + 1));
    let state = match after {
        Some(after) => {
            let size = 2 + first_records(file.bytes, after).concat().len();
            run_of(file.bytes.get(..size)?).state?
        }
        None => file.run.state.clone()?,
    };
    let mut all: Vec<(Name, usize)> = vec![];
    for c in 1..=state.n {
        all.extend(state.controllers[c - 1].pending.keys().map(|name| (*name, c)));
    }
    if all.is_empty() || random.one_in(2) {
        all = state.messages.iter().flat_map(|message| (1..=state.n).map(|c| (message.name, c))).collect();
    }
    if all.is_empty() {
        return None;
    }
    let (name, panel) = random.pick(&all);
    Some(Question { state, name, panel, after })
}

/// What a message is to a panel.
pub fn state_of(state: &State, name: &Name, panel: usize) -> &'static str {
    match state.standing(panel, name) {
        Standing::Unknown => "unknown",
        Standing::Pending => "pending",
        Standing::Applied => "applied",
        Standing::CutOff => "cut off",
    }
}

/// The event in which a panel applied a message, the sums that it then showed, and the set's other messages, by what
/// the program prints.
pub fn set_with(printed: &str, message: &str, panel: usize) -> String {
    let lines = printed.lines().map(|line| line.split(' ').collect::<Vec<_>>());
    let with = |words: &Vec<&str>| words[1] == panel.to_string() && words[2..].contains(&message);
    let Some(words) = lines.filter(|words| words.len() > 4).find(with) else { return "no line".into() };
    let others: Vec<&str> = words[4..].iter().copied().filter(|other| *other != message).collect();
    format!("event {}, {} added, {} withdrawn, with {others:?}", words[0], words[2], words[3])
}

/// The same, from a line like "applied at event 11 (hand 3 <- 1), as one set with 1.1 and 2.1; the panel then showed 30
/// added, 2 withdrawn".
pub fn set_in(text: &str) -> String {
    let line = text.lines().find_map(|line| line.strip_prefix("applied at event "));
    let parts = line.and_then(|line| {
        let (set, sums) = line.split_once("; the panel then showed ")?;
        let (event, set) = set.split_once(" (")?;
        Some((event, set.split_once("), ")?.1, sums))
    });
    let Some((event, set, sums)) = parts else { return "no line of a set".into() };
    let names = set.strip_prefix("as one set with ").unwrap_or_default();
    let others: Vec<&str> = names.split([' ', ',']).filter(|word| word.contains('.')).collect();
    format!("event {event}, {sums}, with {others:?}")
}

/// The line of the marks of a pending message.
pub fn marks(state: &State, name: &Name, panel: usize) -> String {
    let number = state.controllers[panel - 1].pending[name].iter().flatten().count();
    format!("marks at panel {panel}: {number} ({} needed)", majority(state))
}

pub fn marks_in(text: &str) -> String {
    text.lines().find(|line| line.starts_with("marks at panel")).unwrap_or("no line of marks").into()
}

/// How many marks there can still be, if these are fewer than are needed: the marks of controllers whose logs have the
/// message or may get it, if the panel's controller still reads.
pub fn lost(state: &State, name: &Name, panel: usize) -> String {
    let (at, has) = (&state.controllers[panel - 1], |c: &Controller| c.log.contains(name));
    let anywhere = state.controllers.iter().any(has);
    let may = |f: usize, c: &Controller| {
        let marked = at.pending.get(name).is_some_and(|marks| marks[f].is_some());
        marked || at.running && (has(c) || c.running && anywhere)
    };
    let possible = state.controllers.iter().enumerate().filter(|(f, c)| may(*f, c)).count();
    match possible < majority(state) {
        true => format!("there can be no more than {possible}: it is not applied here any more"),
        false => String::new(),
    }
}

/// The same from the text.
pub fn lost_in(text: &str) -> String {
    text.lines().map(str::trim_start).find(|line| line.starts_with("there can be")).unwrap_or_default().into()
}

/// What `why` says where all that is pending has its marks.
const ALL_MARKED: &str = "all that is pending here has its marks";

/// The pending messages that a message does not go before, by name, with both counts and their marks; how many they
/// are; and whether they keep it out, which is so if it has its marks. Where all have their marks, nothing keeps it
/// out.
pub fn keeping_out(state: &State, name: &Name, panel: usize) -> String {
    let at = &state.controllers[panel - 1];
    let marks = |name: &Name| at.pending[name].iter().flatten().count();
    if at.pending.keys().all(|other| marks(other) >= majority(state)) {
        return ALL_MARKED.into();
    }
    let before = |x: &Name, y: &Name| state.count_before(panel, x, y).unwrap_or_default();
    let others = at.pending.keys().filter(|other| *other != name);
    let counts = others.map(|other| (other, before(name, other), before(other, name)));
    let line = |(other, first, second): (&Name, usize, usize)| {
        format!("{}: {first} of {}, {second}, {}", name_text(other), majority(state), marks(other))
    };
    let lines = counts.filter(|(_, first, _)| *first < majority(state)).map(line).collect();
    listed(if marks(name) < majority(state) { "does not go before, so far" } else { "kept out by" }, lines)
}

/// Lines by their order as texts, with their number.
fn listed(what: &str, mut lines: Vec<String>) -> String {
    lines.sort();
    format!("{what}: {}\n{}", lines.len(), lines.join("\n"))
}

/// The same, from lines like "    1.1 (+30): 1 puts 3.1 before it, 2 needed; 1 puts it before 3.1; it has 1 mark".
pub fn keeping_out_in(text: &str) -> String {
    if text.contains(ALL_MARKED) {
        return ALL_MARKED.into();
    }
    let is_head = |line: &&str| ["kept out by: ", "does not go before, so far: "].iter().any(|x| line.starts_with(x));
    let mut lines = text.lines().skip_while(|line| !is_head(line));
    let (what, number) = lines.next().and_then(|line| line.split_once(": ")).unwrap_or_default();
    let line = |line: &str| -> Option<String> {
        let (other, counts) = line.split_once("): ")?;
        let words: Vec<&str> = counts.split([' ', ',', ';']).filter(|word| !word.is_empty()).collect();
        let [first, _, _, "before", "it", needed, "needed", second, .., "has", marks, _] = words[..] else {
            return None;
        };
        Some(format!("{}: {first} of {needed}, {second}, {marks}", other.split_whitespace().next()?))
    };
    let found: Vec<String> = lines.take_while(|line| line.starts_with("    ")).filter_map(line).collect();
    // The head counts them too.
    match number.split_whitespace().next().unwrap_or_default() {
        "none" if found.is_empty() => listed(what, found),
        number if number == found.len().to_string() => listed(what, found),
        _ => format!("{number}, and below it {}", listed(what, found)),
    }
}

/// The lines of an answer that offer handovers.
pub fn offers(text: &str) -> Vec<String> {
    text.lines().filter(|line| line.contains("`hand ")).map(str::to_string).collect()
}

/// The handovers of a line that offers some: their reader, the owners of the logs, and what stands after them.
fn hands(offer: &str) -> Option<(usize, Vec<usize>, &str)> {
    let (hand, after) = offer.split_once("`hand ")?.1.split_once('`')?;
    let (reader, owners) = hand.split_once(" <- ")?;
    Some((reader.parse().ok()?, owners.split(' ').map(|owner| owner.parse().ok()).collect::<Option<_>>()?, after))
}

/// A line that offers handovers, if each of them is accepted and together they do what it says: a controller hears of
/// the message, the mark of a log's owner becomes known, or the message is applied.
pub fn followed(state: &State, name: &Name, offer: &str) -> String {
    let Some((reader, owners, after)) = hands(offer) else { return "no handovers".into() };
    let number = |text: &str| text.parse().unwrap_or(0);
    let mut then = state.clone();
    for owner in &owners {
        let (answer, _) = then.event(&handover(reader, *owner), &mut [0; SCRATCH]);
        if answer.refusal != 0 {
            return format!("refused by question {}", answer.refusal);
        }
    }
    let (at, owner) = (&then.controllers[reader - 1], owners[owners.len() - 1]);
    let what = after.trim_start_matches(": ");
    let named = what.trim_start_matches("puts ").split(' ').next().and_then(|word| word.split_once('.'));
    let done = match named.map(|(sender, place)| Name { sender: number(sender), number: number(place) }) {
        _ if after.contains("would put it there") => at.log.contains(name),
        _ if offer.contains("sets are applied at handovers") => at.applied.contains(name),
        Some(other) if what.starts_with("puts ") => at.log.contains(&other),
        Some(other) => at.applied.contains(&other) || at.pending.get(&other).is_some_and(|x| x[owner - 1].is_some()),
        None => false,
    };
    if done {
        offer.into()
    } else {
        "nothing of that".into()
    }
}

/// What a line that offers a single handover says of the set that this would apply, as "panel 3 would apply 1.1 (+30)
/// and 3.1 (-2) as one set". A line that offers several says nothing of a set.
pub fn set_shown(state: &State, offer: &str) -> String {
    let Some((reader, owners, _)) = hands(offer) else { return "no handovers".into() };
    let [owner] = owners[..] else { return String::new() };
    let (answer, _) = state.clone().event(&handover(reader, owner), &mut [0; SCRATCH]);
    let names = answer.set.iter().map(name_text);
    let messages: Vec<String> = names.map(|name| format!("{name} ({})", said_of(state, &name))).collect();
    let set = match &messages[..] {
        [] => "nothing".into(),
        [one] => one.clone(),
        [first @ .., last] => format!("{} and {last} as one set", first.join(", ")),
    };
    format!("panel {reader} would apply {set}")
}

/// The same, from the end of the line.
pub fn set_shown_in(offer: &str) -> String {
    offer.rsplit("; ").next().filter(|end| end.contains(" would apply ")).unwrap_or_default().into()
}
