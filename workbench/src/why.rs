//! Why a panel has applied a message, or has not.

use crate::play::{held, log, read, Play};
use crate::text::record_text;
use crate::words::{self, count, entries, list, log_of, message, set, sums};
use furnacejade::{ask, count_before, Name, Pair, State, SCRATCH};
use std::fmt::{Display, Formatter, Write};
use std::ops::RangeInclusive;

/// A message that was sent in a play, and a panel that the play has.
pub struct Question<'a> {
    pub play: &'a Play<'a>,
    pub name: Name,
    pub panel: u8,
}

/// Handovers to one reader from one log, which an answer offers. Their text is that of a line: "hand 3 <- 1 1".
struct Hand {
    reader: u8,
    owner: u8,
    times: usize,
}

impl Display for Hand {
    fn fmt(&self, f: &mut Formatter<'_>) -> std::fmt::Result {
        write!(f, "`hand {} <-{}`", self.reader, format!(" {}", self.owner).repeat(self.times))
    }
}

impl Question<'_> {
    pub fn answer(&self) -> String {
        let Question { play, name, panel } = self;
        let head = format!("{} at panel {panel}, after event {}", message(play, *name), play.steps.len());
        let sent = self.sent();
        let (state, rest) = match play.table.state(*panel, *name) {
            State::Applied => ("applied", self.applied()),
            State::CutOff => ("cut off", String::new()),
            State::Pending => ("pending", self.marks() + &self.kept_out() + &self.more()),
            State::Unknown => ("unknown", self.marks() + &self.more()),
        };
        format!("{head}: {state}\n\n{sent}{rest}")
    }

    fn all(&self) -> RangeInclusive<u8> {
        self.play.table.controller_numbers()
    }

    fn has(&self, owner: u8, name: Name) -> bool {
        log(&self.play.table, owner).contains(&name)
    }

    /// How many marks the panel's controller has for a message.
    fn marks_of(&self, name: Name) -> usize {
        self.play.marks(self.panel, name).len()
    }

    /// When the message was sent, whether it was cut off, and whether the panel still applies anything.
    fn sent(&self) -> String {
        let Question { play, name, panel } = self;
        let mut text = String::new();
        if let Some(step) = play.sent(*name) {
            let _ = writeln!(text, "sent at event {} ({})", step.number, record_text(step.record));
        }
        if let Some(step) = play.stopped(name.sender).filter(|_| !self.has(name.sender, *name)) {
            let event = format!("event {} ({})", step.number, record_text(step.record));
            let _ = writeln!(text, "cut off at {event}: nobody had read it in the log of {}", name.sender);
        }
        if let Some(step) = play.stopped(*panel) {
            let _ = writeln!(text, "controller {panel} stopped at event {}: its panel applies no more", step.number);
        }
        text
    }

    /// When the message was applied, with which others, and what the panel then showed.
    fn applied(&self) -> String {
        let Some((step, applied)) = self.play.applied(self.name, self.panel) else { return String::new() };
        let others: Vec<Name> = applied.names.iter().copied().filter(|other| *other != self.name).collect();
        let set = match &others[..] {
            [] => "alone".into(),
            others => format!("as one set with {}", list(others)),
        };
        let event = format!("event {} ({})", step.number, record_text(step.record));
        format!("applied at {event}, {set}; the panel then showed {}\n", sums(applied.sums))
    }

    /// Which controllers have marked the message, and how many are needed.
    fn marks(&self) -> String {
        let Question { play, name, panel } = self;
        let marks = play.marks(*panel, *name);
        let mut text = format!("\nmarks at panel {panel}: {} ({} needed)\n", marks.len(), play.majority());
        let mut possible = 0;
        for f in self.all() {
            let mark = marks.iter().find(|(owner, _)| *owner == f);
            let entry = log(&play.table, f).iter().position(|other| other == name);
            let state = match (mark, entry, play.stopped(f)) {
                (Some((_, mark)), _, _) => format!("marked, entry {mark} of its log"),
                (None, Some(place), _) => format!("in its log as entry {}, which {panel} has not read", place + 1),
                (None, None, Some(step)) => format!("not in its log, and stopped at event {}", step.number),
                (None, None, None) => format!("not in its log{}", self.to_hear(f)),
            };
            possible += usize::from(mark.is_some() || self.may_mark(f));
            let _ = writeln!(text, "    controller {f}: {state}");
        }
        if possible < play.majority() {
            let _ = writeln!(text, "    there can be no more than {possible}: it is not applied here any more");
        }
        text
    }

    /// Whether the panel may yet learn of a controller's mark: the panel's controller runs, and the log of the other has the
    /// message or may get it.
    fn may_mark(&self, f: u8) -> bool {
        let table = &self.play.table;
        let anywhere = || self.all().any(|owner| self.has(owner, self.name));
        table.runs(self.panel) && (self.has(f, self.name) || table.runs(f) && anywhere())
    }

    /// Which handovers let a controller hear of the message.
    fn to_hear(&self, f: u8) -> String {
        let put = |hand: Hand| format!("; {hand} would put it there{}", self.shown(&hand));
        self.shortest(f, self.name).map_or(String::new(), put)
    }

    /// What a single handover would apply, by an ask. Of several nothing is said, as an ask is of the next handover.
    fn shown(&self, hand: &Hand) -> String {
        if hand.times != 1 {
            return String::new();
        }
        match ask(&self.play.table, Pair::new(hand.reader, hand.owner), &mut [0; SCRATCH]) {
            Ok(shown) if shown.set().is_empty() => format!("; panel {} would apply nothing", hand.reader),
            Ok(shown) => format!("; panel {} would apply {}", hand.reader, set(self.play, shown.set())),
            Err(refusal) => format!("; {refusal}"),
        }
    }

    /// The fewest handovers with which a controller reads a message.
    fn shortest(&self, reader: u8, name: Name) -> Option<Hand> {
        let unread = |owner: u8| words::unread(self.play, owner, reader).iter().position(|(_, other)| *other == name);
        let ways = self.all().filter_map(|owner| Some((owner, unread(owner)? + 1)));
        ways.min_by_key(|(_, times)| *times).map(|(owner, times)| Hand { reader, owner, times })
    }

    /// The other pending messages that a message does not go before. With each stand two counts: how many controllers put
    /// the message first, and how many the other.
    fn not_before(&self, name: Name) -> Vec<(Name, usize, usize)> {
        let Question { play, panel, .. } = self;
        let before = |first: Name, second: Name| count_before(&play.table, *panel, first, second).unwrap_or(0);
        let others = held(&play.table, *panel).into_iter().filter(|other| *other != name);
        let counts = others.map(|other| (other, before(name, other), before(other, name)));
        counts.filter(|(_, first, _)| *first < play.majority()).collect()
    }

    /// Which pending messages keep the message out, and by what count.
    fn kept_out(&self) -> String {
        let Question { play, name, panel } = self;
        let needed = play.majority();
        if held(&play.table, *panel).iter().all(|other| self.marks_of(*other) >= needed) {
            let next = self.all().find(|owner| play.table.unread(*panel, *owner) > 0);
            let next = next.filter(|_| play.table.runs(*panel));
            let next = next.map(|owner| Hand { reader: *panel, owner, times: 1 });
            let next = next.map_or(String::new(), |hand| format!(": {hand} applies it{}", self.shown(&hand)));
            return format!("\nall that is pending here has its marks, and sets are applied at handovers{next}\n");
        }
        let others = self.not_before(*name);
        let what = if self.marks_of(*name) < needed { "does not go before, so far" } else { "kept out by" };
        let number = match others.len() {
            0 => "none".into(),
            number => count(number, "pending message", "pending messages"),
        };
        let mut text = format!("\n{what}: {number}\n");
        for (other, first, second) in others {
            let [put, back] = [first, second].map(|number| if number == 1 { "puts" } else { "put" });
            let counts = format!("{first} {put} {name} before it, {needed} needed; {second} {back} it before {name}");
            let marks = count(self.marks_of(other), "mark", "marks");
            let mut what = message(play, other);
            if play.table.state(*panel, other) == State::CutOff {
                what.insert_str(what.len() - 1, ", cut off");
            }
            let _ = writeln!(text, "    {what}: {counts}; it has {marks}");
        }
        text
    }

    /// The message, the messages that it does not go before, those that these do not go before, and so on.
    fn concerned(&self) -> Vec<Name> {
        let mut names = vec![self.name];
        let mut next = 0;
        let pending = self.play.table.state(self.panel, self.name) == State::Pending;
        while let Some(name) = names.get(next).copied().filter(|_| pending) {
            let others = self.not_before(name).into_iter().map(|(other, _, _)| other);
            let new: Vec<Name> = others.filter(|other| !names.contains(other)).collect();
            names.extend(new);
            next += 1;
        }
        names
    }

    /// What the panel's controller has not read of the message and of those that concern it, and which of these are in too
    /// few logs.
    fn more(&self) -> String {
        let Question { play, panel, .. } = self;
        if !play.table.runs(*panel) {
            return String::new();
        }
        let concerned = self.concerned();
        let mut lines = vec![];
        for owner in self.all() {
            let unread = (1..).zip(words::unread(play, owner, *panel));
            for (times, (entry, other)) in unread.filter(|(_, (_, other))| concerned.contains(other)) {
                if play.marks(*panel, other).iter().all(|(f, _)| *f != owner) {
                    let read = entries(read(&play.table, *panel, owner));
                    let place = format!("entry {entry} of {} ({read} read)", log_of(owner, *panel));
                    let hand = Hand { reader: *panel, owner, times };
                    lines.push(format!("{hand}: {}, {place}{}", message(play, other), self.shown(&hand)));
                }
            }
        }
        for name in concerned {
            lines.extend(self.too_few_logs(name));
        }
        let head = if lines.is_empty() { " nothing" } else { "" };
        lines.iter().fold(format!("\nwhat would bring more:{head}\n"), |text, line| format!("{text}    {line}\n"))
    }

    /// Handovers that put a message in more logs, if fewer have it than marks are needed.
    fn too_few_logs(&self, name: Name) -> Vec<String> {
        let having = self.all().filter(|owner| self.has(*owner, name)).count();
        let needed = self.play.majority();
        let others = self.all().filter(|f| having < needed && !self.has(*f, name) && self.play.table.runs(*f));
        let logs = count(having, "log has", "logs have");
        let what = |f: u8| format!("puts {} in log {f}; {logs} it, {needed} needed", message(self.play, name));
        let hands = others.filter_map(|f| Some((f, self.shortest(f, name)?)));
        hands.map(|(f, hand)| format!("{hand}: {}{}", what(f), self.shown(&hand))).collect()
    }
}
