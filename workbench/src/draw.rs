//! The picture of a run, as an SVG: a line for each controller, and events from left to right.
//!
//! Every event has a column. As many columns as fit make a band, and the bands stand below each other, as staves do.

use crate::column::{Arrow, Column, Mark, Shape, FORWARDED, LEAST_REACH, LOOP, SENT};
use crate::disassemble::hand_lines;
use crate::legend::{legend, marks_text, Sign};
use crate::play::{self, actor, in_state, Applied, Checked, Effect, Heard, Play, Refused, Step};
use crate::svg::{
    class, height_of, shorten, width_of, wrap, Canvas, Line, BOLD, FAINT, LEFT, LEFT_SMALL, PLAIN, SHOWN, SMALL, TITLE,
};
use crate::words::{self, count, hexadecimal};
use furnacejade::{look, Class, Name, Panel, Payload, Record, Register, State, Sums, CONTROLLERS};
use std::collections::BTreeSet;

/// The greatest width of a band, but for what its panels show in the end.
const BAND_WIDTH: i32 = 1_200;
/// The least width of a picture, for its title and its legend.
const LEAST_WIDTH: i32 = 760;
const MARGIN: i32 = 16;
/// The gap between heading, legend and notes.
const GAP: i32 = 8;
/// Where lanes begin. The names of the controllers stand left of that.
const LANES: i32 = 114;
/// The gap between what stands on a lane and what stands on the next.
const LANE_GAP: i32 = 22;
/// The height of the row with the numbers of the events, and the gap between two bands.
const HEAD: i32 = 20;
const BAND_GAP: i32 = 30;
/// At most this many messages of a panel are named, and this many bytes of a refused record.
const NAMED: usize = 6;
const BYTES: usize = 24;
/// The greatest number of characters of a title, and of a line of facts.
const TITLE_LENGTH: usize = 100;
const FACTS: usize = 20;

/// The picture of a run file that was played.
pub fn svg(title: &str, play: &Play) -> String {
    let mut picture = Picture::new(play);
    if play.table.n > 0 {
        picture.run();
    }
    picture.finish(title)
}

/// What a controller's panel shows at a moment, and whether the controller has stopped.
#[derive(Clone, Copy)]
struct Moment {
    sums: Sums,
    stopped: bool,
}

struct Picture<'a> {
    play: &'a Play<'a>,
    signs: BTreeSet<Sign>,
    /// The controllers now, and at the start of the band.
    now: [Moment; CONTROLLERS],
    start: [Moment; CONTROLLERS],
    /// The columns of the band, and the width that they take.
    columns: Vec<Column>,
    used: i32,
    bands: Canvas,
    /// The size of all bands.
    width: i32,
    height: i32,
    notes: Vec<Line>,
}

impl<'a> Picture<'a> {
    fn new(play: &'a Play<'a>) -> Picture<'a> {
        let start = [Moment { sums: Sums::BLANK, stopped: false }; CONTROLLERS];
        Picture {
            play,
            signs: BTreeSet::new(),
            now: start,
            start,
            columns: vec![],
            used: 0,
            bands: Canvas::default(),
            width: LEAST_WIDTH,
            height: 0,
            notes: vec![],
        }
    }

    /// Draws all bands.
    fn run(&mut self) {
        let play = self.play;
        let mut checked = play.checked.as_slice();
        self.checks(&mut checked, 0);
        for step in &play.steps {
            if step.number == play.recorded + 1 {
                self.dispatcher();
            }
            self.event(step);
            self.checks(&mut checked, step.number);
        }
        if let Some(refused) = &play.refused {
            self.refused(refused);
        }
        let marks = end(play);
        let column = Column::new("panel shows", "what the panels show in the end".to_string(), marks);
        self.used += column.width();
        self.columns.push(column);
        self.band(true);
    }

    /// The column after which the dispatcher hands over.
    fn dispatcher(&mut self) {
        let mut column = Column::new("dispatcher", "the dispatcher hands over from here on".to_string(), vec![]);
        column.across = Some(class::STOPPED_LANE);
        self.add(column);
    }

    fn add(&mut self, column: Column) {
        let width = column.width();
        if LANES + self.used + width > BAND_WIDTH && !self.columns.is_empty() {
            self.band(false);
        }
        self.used += width;
        self.columns.push(column);
    }

    fn event(&mut self, step: &Step) {
        let c = step.controller;
        let (mut mark, arrow) = match &step.effect {
            Effect::Sent(name) => (self.sent(step, *name), None),
            Effect::Read { owner, name, heard, marks, .. } => self.read(c, *owner, (*name, heard, marks)),
            Effect::Stopped { kept, lost } => (self.stop(c, *kept, lost), None),
            Effect::LocalRead(sums) => (self.local_read(c, *sums), None),
        };
        if let Some(applied) = &step.applied {
            self.signs.insert(Sign::Set);
            mark.shape = Shape::boxed(class::SET, self.set(c, applied));
        }
        let applied =
            step.applied.as_ref().map_or(String::new(), |set| format!("; {}", words::applied(self.play, step, set)));
        let title = format!("event {}: {}{applied}", step.number, words::effect(self.play, step));
        let mut column = Column::new(step.number, title, vec![mark]);
        column.arrow = arrow;
        self.add(column);
        let now = &mut self.now[usize::from(c) - 1];
        now.sums = step.applied.as_ref().map_or(now.sums, |applied| applied.sums);
        now.stopped |= matches!(step.effect, Effect::Stopped { .. });
    }

    fn n(&self) -> u8 {
        *self.play.table.controller_numbers().end()
    }

    fn kind(&self, name: Name) -> u8 {
        self.play.slot(name).map_or(0, |slot| self.play.table.messages[slot].payload.kind)
    }

    fn sent(&mut self, step: &Step, name: Name) -> Mark {
        let (sign, text) = match step.record {
            Record::Report { amount, .. } => (Sign::Report, signed(amount)),
            Record::ClassedReport { amount, class, .. } => {
                let class = class.class().unwrap_or(Class::None);
                (Sign::Report, format!("{} {class}", signed(amount)))
            }
            Record::Write { register, value, .. } => (Sign::Write, format!("r{register} = {value}")),
            _ => (Sign::Sync, "sync".to_string()),
        };
        self.signs.insert(sign);
        let (kind, place) = (self.kind(name), name.number.0.into());
        let mut mark = Mark::new(step.controller, Shape::Entry { kind, place, radius: SENT });
        mark.above = vec![Line::new(BOLD, name)];
        mark.below = vec![Line::new(PLAIN, text)];
        mark
    }

    fn read(
        &mut self,
        reader: u8,
        owner: u8,
        (name, heard, marks): (Name, &Heard, &[play::Mark]),
    ) -> (Mark, Option<Arrow>) {
        let (sign, shape) = match heard {
            Heard::Forwarded { entry } => {
                let entry = Shape::Entry { kind: self.kind(name), place: *entry, radius: FORWARDED };
                (Sign::Forwarded, entry)
            }
            Heard::Marked | Heard::Known => (Sign::Marked, Shape::Bare),
            Heard::Passed => (Sign::Passed, Shape::Bare),
        };
        self.signs.insert(sign);
        let (class, style) = if sign == Sign::Passed { (class::PASSED, FAINT) } else { (class::ARROW, PLAIN) };
        let (mut mark, name_line) = (Mark::new(reader, shape), Line::new(style, name));
        if sign != Sign::Passed {
            self.signs.insert(Sign::Marks);
            let side = if owner > reader { &mut mark.above } else { &mut mark.below };
            side.push(Line::new(SMALL, marks_text(marks, self.n())));
        }
        if owner == reader {
            mark.lift = LOOP + name_line.style.height;
        }
        (mark, Some(Arrow { owner, class, name: name_line }))
    }

    fn stop(&mut self, c: u8, kept: usize, lost: &[Name]) -> Mark {
        self.signs.insert(Sign::Stop);
        let mut mark = Mark::new(c, Shape::Octagon);
        mark.above = vec![Line::new(BOLD, "stop")];
        mark.below = vec![Line::new(PLAIN, format!("keeps {kept} of {}", kept + lost.len()))];
        let (own, others): (Vec<Name>, Vec<Name>) = lost.iter().partition(|name| name.sender == c);
        for (what, names) in [("cut off:", own), ("entries lost:", others)] {
            if !names.is_empty() {
                let words = [what.to_string()].into_iter().chain(names.iter().map(Name::to_string));
                mark.below.extend(wrap(words, FACTS + lost.len() / 2).into_iter().map(|line| Line::new(SMALL, line)));
            }
        }
        mark
    }

    fn local_read(&mut self, c: u8, sums: Sums) -> Mark {
        self.signs.insert(Sign::LocalRead);
        let mut mark = Mark::new(c, Shape::Ring);
        mark.above = vec![Line::new(SMALL, "read")];
        mark.below = vec![Line::new(PLAIN, both(sums))];
        mark
    }

    /// The names of a set, as a block, and what the panel then shows.
    fn set(&self, c: u8, applied: &Applied) -> Vec<Line> {
        let across = (2..).find(|k| k * k >= applied.names.len()).unwrap_or(2);
        let rows = applied.names.chunks(across).map(|names| Line::new(PLAIN, list(names)));
        let mut lines: Vec<Line> = rows.collect();
        lines.push(Line::new(BOLD, both(applied.sums)));
        lines.extend(self.finished(c, applied).map(|sync| Line::new(SMALL, format!("answers {sync}"))));
        lines
    }

    /// The controller's own sync that a set finished.
    fn finished(&self, c: u8, applied: &Applied) -> Option<Name> {
        let own = |name: &&Name| name.sender == c && self.kind(**name) == Payload::SYNC;
        applied.finished.and_then(|_| applied.names.iter().rfind(own)).copied()
    }

    /// The expectations that follow a number of events. Those of different panels share a column.
    fn checks(&mut self, checked: &mut &[Checked], events: usize) {
        let mut column: Option<Column> = None;
        while let Some((first, others)) = checked.split_first().filter(|(first, _)| first.events <= events) {
            *checked = others;
            let (expectation, wanted) = (first.expectation, both(first.expectation.sums));
            let (lane, place) = (expectation.panel, expectation.place);
            let Some(shown) = first.shown else {
                let panels = words::panels(self.play.table.n);
                let text = format!("{place}: {wanted} is expected of panel {lane}, which is not there: {panels}");
                self.notes.push(Line::new(LEFT, text));
                continue;
            };
            let title = format!("{place}: panel {lane} is to show {wanted}, and shows {}", both(shown));
            let mut mark = Mark::new(lane, Shape::Verdict(first.holds()));
            self.signs.insert(if first.holds() { Sign::Held } else { Sign::Failed });
            if !first.holds() {
                mark.above = vec![Line::new(SMALL, "expected")];
                mark.below = vec![Line::new(PLAIN, wanted)];
            }
            match &mut column {
                Some(column) if column.marks.iter().all(|mark| mark.lane != lane) => {
                    column.title += &format!("; {title}");
                    column.marks.push(mark);
                }
                _ => {
                    let full = column.replace(Column::new("", title, vec![mark]));
                    full.into_iter().for_each(|full| self.add(full));
                }
            }
        }
        column.into_iter().for_each(|column| self.add(column));
    }

    /// The column of a record that was refused. It stands at the lane of the controller that the record names, if there is
    /// one.
    fn refused(&mut self, refused: &Refused) {
        self.signs.insert(Sign::Refused);
        let (all, number) = (self.play.table.controller_numbers(), self.play.steps.len() + 1);
        let concerned = Record::from_bytes(refused.bytes).map(actor).filter(|c| all.contains(c));
        let lines = vec![Line::new(PLAIN, "refused"), Line::new(BOLD, refused.refusal.number())];
        let mark = Mark::new(concerned.unwrap_or(all.end().div_ceil(2)), Shape::boxed(class::REFUSED, lines));
        let title = format!("record {number} is {}", refused.refusal);
        let mut column = Column::new(number, title, vec![mark]);
        column.across = concerned.is_none().then_some(class::FAILED);
        self.add(column);
    }

    /// Draws the columns that were added as a band. All but the last fill the whole width.
    fn band(&mut self, last: bool) {
        let columns = std::mem::take(&mut self.columns);
        let slack = if last { 0 } else { BAND_WIDTH - LANES - self.used };
        let (mut left, mut middles) = (LANES, vec![]);
        for (done, column) in (0..).zip(&columns) {
            middles.push(left + column.width() / 2 + slack * (2 * done + 1) / (2 * columns.len() as i32));
            left += column.width();
        }
        let right = left + slack;
        let top = self.height + HEAD;
        let (lanes, bottom) = self.lanes(&columns, top);
        let events = columns.len() - usize::from(last);
        let guides = columns[..events].iter().zip(&middles).filter(|(column, _)| !column.head.is_empty());
        let guides: String = guides.map(|(_, x)| format!("M{x} {top}V{bottom}")).collect();
        self.bands.path(class::GUIDE, &guides);
        for (c, y) in (1..).zip(&lanes) {
            let stop = columns.iter().position(|column| column.stops(c)).map(|column| middles[column]);
            let end = if last { *middles.last().unwrap_or(&right) } else { right };
            self.lane(c, *y, stop, end);
        }
        for (column, x) in columns.iter().zip(&middles) {
            self.bands.text(*x, top - 6, &Line::new(SMALL, &column.head));
            column.draw(&mut self.bands, *x, &lanes);
        }
        self.width = self.width.max(right + MARGIN);
        self.height = bottom + BAND_GAP;
        self.start = self.now;
        self.used = 0;
    }

    /// The heights of the lanes of a band, with room for what stands on them, and the height at which the band ends.
    fn lanes(&self, columns: &[Column], top: i32) -> (Vec<i32>, i32) {
        let mut reaches = vec![(LEAST_REACH, LEAST_REACH); self.play.table.n];
        for mark in columns.iter().flat_map(|column| &column.marks) {
            let (above, below) = mark.reach();
            let reach = &mut reaches[mark.lane_index()];
            *reach = (reach.0.max(above), reach.1.max(below));
        }
        let mut bottom = top - LANE_GAP;
        let lanes = reaches.iter().map(|(above, below)| {
            let y = bottom + LANE_GAP + above;
            bottom = y + below;
            y
        });
        (lanes.collect(), bottom)
    }

    /// Draws a lane with its label. After a stop the lane is pale.
    fn lane(&mut self, c: u8, y: i32, stop: Option<i32>, end: i32) {
        let Moment { sums, stopped } = self.start[usize::from(c) - 1];
        let label = Line::new(LEFT, format!("controller {c}"));
        match self.height {
            0 => self.bands.text(MARGIN, y + 4, &label),
            _ => {
                self.bands.text(MARGIN, y - 1, &label);
                self.bands.text(MARGIN, y + 12, &Line::new(LEFT_SMALL, both(sums)));
            }
        }
        let runs = if stopped { LANES } else { stop.unwrap_or(end) };
        if runs > LANES {
            self.bands.path(class::LANE, &format!("M{LANES} {y}H{runs}"));
        }
        if runs < end {
            self.bands.path(class::STOPPED_LANE, &format!("M{runs} {y}H{end}"));
        }
    }

    /// The whole picture: title, legend, bands and notes.
    fn finish(mut self, title: &str) -> String {
        if let Some(refused) = &self.play.refused {
            self.notes.splice(0..0, refusal(self.play, refused));
        }
        let unreached = self.play.unreached.len();
        if unreached > 0 {
            let text = format!("{} not reached", count(unreached, "expectation was", "expectations were"));
            self.notes.push(Line::new(LEFT, text));
        }
        let dispatched = words::dispatched(self.play).into_iter().chain(hand_lines(self.play));
        self.notes.extend(dispatched.map(|line| Line::new(LEFT, line)));
        let (mut canvas, heading) = (Canvas::default(), self.heading(title));
        self.width = self.width.max(width_of(&self.notes).max(width_of(&heading)) + 2 * MARGIN);
        canvas.lines(MARGIN, MARGIN, &heading);
        let edges = (MARGIN, self.width - MARGIN);
        let mut height = legend(&self.signs, self.n(), &mut canvas, edges, MARGIN + height_of(&heading) + GAP);
        canvas.place(&self.bands, height);
        height += (self.height - BAND_GAP + GAP).max(0);
        canvas.lines(MARGIN, height, &self.notes);
        height += height_of(&self.notes) + MARGIN;
        canvas.picture(title, self.width, height)
    }

    /// The title, and what holds for the whole run.
    fn heading(&self, title: &str) -> Vec<Line> {
        let mut lines = vec![Line::new(TITLE, shorten(title, TITLE_LENGTH))];
        let (n, m, version) = (self.play.table.n, self.play.majority(), self.play.table.version);
        if n > 0 {
            let controllers = count(n, "controller", "controllers");
            let events = count(self.play.steps.len(), "event", "events");
            let facts = format!("version {version}, {controllers}, majority {m}, {events}");
            let rule = format!(
                "A panel applies a set once its controller has each message in it from {m} of {n} logs, \
                 and {m} of {n} put it before all that stays pending."
            );
            lines.extend([Line::new(LEFT, facts), Line::new(LEFT_SMALL, rule)]);
        }
        lines
    }
}

/// What the panels show in the end, what is pending there, and what was cut off there.
fn end(play: &Play) -> Vec<Mark> {
    let panels = play.table.controller_numbers().filter_map(|c| Some((c, look(&play.table, c).ok()?)));
    let mut marks: Vec<Mark> = panels.map(|(c, panel)| end_of(play, c, &panel)).collect();
    let widest = marks.iter().map(|mark| mark.shape.width()).max().unwrap_or(0);
    for mark in &mut marks {
        if let Shape::Box { width, .. } = &mut mark.shape {
            *width = widest;
        }
    }
    marks
}

fn end_of(play: &Play, c: u8, panel: &Panel) -> Mark {
    let mut mark = Mark::new(c, Shape::boxed(class::PANEL, vec![Line::new(SHOWN, both(panel.sums))]));
    let classes = Class::ALL.into_iter().filter(|class| panel.of(*class) != Sums::BLANK);
    let classes = classes.map(|class| format!("{class} {}", both(panel.of(class))));
    let registers = (1..).zip(&panel.registers).filter(|(_, register)| **register != Register::BLANK);
    let registers = registers.map(|(r, register)| format!("r{r} = {}", register.value));
    mark.below = classes.chain(registers).map(|fact| Line::new(SMALL, fact)).collect();
    let pending = in_state(&play.table, c, State::Pending);
    let held = play::held(&play.table, c).into_iter().filter(|name| !pending.contains(name)).collect();
    for (what, names) in [("pending", pending), ("cut off", held)] {
        mark.below.extend(facts(what, &names).into_iter().map(|line| Line::new(SMALL, line)));
    }
    mark
}

/// The names of messages after a word for their state, in lines; none if there are no messages.
fn facts(what: &str, names: &[Name]) -> Vec<String> {
    let mut words = vec![what.to_string()];
    words.extend(names.iter().take(NAMED).map(Name::to_string));
    if names.len() > NAMED {
        words.push(format!("and {} more", names.len() - NAMED));
    }
    if names.is_empty() {
        vec![]
    } else {
        wrap(words, FACTS)
    }
}

/// What was refused and why, its offset and its bytes.
fn refusal(play: &Play, refused: &Refused) -> Vec<Line> {
    let what = match play.table.n {
        0 => "The file".to_string(),
        _ => format!("Record {}", play.steps.len() + 1),
    };
    let rest = if refused.bytes.len() > BYTES { " …" } else { "" };
    let bytes = hexadecimal(&refused.bytes[..refused.bytes.len().min(BYTES)]);
    let mut lines = vec![format!("{what} is {}", refused.refusal)];
    lines.extend(words::reason(play, refused).map(|reason| format!("because {reason}")));
    lines.push(format!("offset {}, bytes {bytes}{rest}", refused.offset));
    lines.into_iter().map(|line| Line::new(LEFT, line)).collect()
}

fn list(names: &[Name]) -> String {
    let names: Vec<String> = names.iter().map(Name::to_string).collect();
    names.join(" ")
}

fn signed(amount: i16) -> String {
    let sign = if amount < 0 { '−' } else { '+' };
    format!("{sign}{}", amount.unsigned_abs())
}

fn both(sums: Sums) -> String {
    format!("+{} −{}", sums.added, sums.withdrawn)
}
