//! What stands in a picture at a moment: shapes on lanes, with text above and below, and the arrow of a handover.

use crate::svg::{class, height_of, width_of, Canvas, Line, DARK, LIGHT, SMALL};
use furnacejade::Payload;

const COLUMN_GAP: i32 = 14;
const LEAST_COLUMN: i32 = 38;
/// The least room above and below the line of a lane.
pub const LEAST_REACH: i32 = 15;
/// The radius of a message where it is sent, and where it joins the log of another.
pub const SENT: i32 = 10;
pub const FORWARDED: i32 = 8;
/// How far the arrow of a handover from the own log rises above the lane, and how far left of the shape it begins.
pub const LOOP: i32 = 14;
const LOOP_SIDE: i32 = 9;
/// The gap of an arrow above and below the middle of the name that stands in it.
const NAME: i32 = 9;
const PADDING: i32 = 6;

/// What stands on a lane.
#[derive(Debug)]
pub enum Shape {
    /// Nothing but the lane.
    Bare,
    /// A message that joins a log, with its kind and its place in the log.
    Entry {
        kind: u8,
        place: usize,
        radius: i32,
    },
    Ring,
    Octagon,
    /// Whether an expectation held.
    Verdict(bool),
    Box {
        class: &'static str,
        lines: Vec<Line>,
        width: i32,
    },
}

impl Shape {
    pub fn boxed(class: &'static str, lines: Vec<Line>) -> Shape {
        let width = width_of(&lines) + 2 * PADDING;
        Shape::Box { class, lines, width }
    }

    pub fn width(&self) -> i32 {
        match self {
            Shape::Box { width, .. } => *width,
            _ => 2 * self.reach(),
        }
    }

    /// How far the shape goes above and below its lane.
    pub fn reach(&self) -> i32 {
        match self {
            Shape::Bare => 1,
            Shape::Entry { kind: Payload::SYNC, radius, .. } => radius + 2,
            Shape::Entry { radius, .. } => *radius,
            Shape::Ring => 8,
            Shape::Octagon | Shape::Verdict(_) => 9,
            Shape::Box { lines, .. } => height_of(lines) / 2 + 3,
        }
    }

    pub fn draw(&self, canvas: &mut Canvas, (x, y): (i32, i32)) {
        let reach = self.reach();
        match self {
            Shape::Bare => {}
            Shape::Entry { kind, place, .. } => {
                match *kind {
                    Payload::SYNC => {
                        let (r, top) = (reach, y - reach);
                        canvas.path(class::SYNC, &format!("M{x} {top}l{r} {r}l-{r} {r}l-{r}-{r}z"));
                    }
                    Payload::WRITE => canvas.rectangle(class::WRITE, (x, y), (2 * reach, 2 * reach)),
                    _ => canvas.circle(class::REPORT, (x, y), reach),
                }
                let style = if *kind == Payload::REPORT { LIGHT } else { DARK };
                canvas.text(x, y + 4, &Line::new(style, place));
            }
            Shape::Ring => canvas.circle(class::LOCAL_READ, (x, y), 6),
            Shape::Octagon => {
                canvas.path(class::STOP, &format!("M{} {}h8l5 5v8l-5 5h-8l-5-5v-8z", x - 4, y - 9));
                canvas.path(class::STOP_CROSS, &format!("M{} {}l6 6m0-6l-6 6", x - 3, y - 3));
            }
            Shape::Verdict(true) => {
                canvas.circle(class::HELD, (x, y), 8);
                canvas.path(class::HELD, &format!("M{} {y}l3 3l5-6", x - 4));
            }
            Shape::Verdict(false) => {
                canvas.circle(class::FAILED, (x, y), 8);
                canvas.path(class::FAILED, &format!("M{} {}l6 6m0-6l-6 6", x - 3, y - 3));
            }
            Shape::Box { class, lines, width } => {
                canvas.rectangle(class, (x, y), (*width, 2 * reach));
                canvas.lines(x, y - height_of(lines) / 2, lines);
            }
        }
    }
}

/// What a column has at one lane: a shape, and lines of text above and below it.
#[derive(Debug)]
pub struct Mark {
    /// The number of the lane's controller.
    pub lane: u8,
    pub shape: Shape,
    pub above: Vec<Line>,
    pub below: Vec<Line>,
    /// The gap between the shape and the lines above it.
    pub lift: i32,
}

impl Mark {
    pub fn new(lane: u8, shape: Shape) -> Mark {
        Mark { lane, shape, above: vec![], below: vec![], lift: 0 }
    }

    /// The place of the lane among all lanes, from 0.
    pub fn lane_index(&self) -> usize {
        usize::from(self.lane) - 1
    }

    pub fn width(&self) -> i32 {
        let side = if self.lift > 0 { LOOP_SIDE } else { 0 };
        (self.shape.width() + 2 * side).max(width_of(&self.above)).max(width_of(&self.below))
    }

    /// How far the mark goes above its lane, and how far below.
    pub fn reach(&self) -> (i32, i32) {
        let reach = self.shape.reach();
        (reach + self.lift + height_of(&self.above) + 3, reach + height_of(&self.below) + 3)
    }

    pub fn draw(&self, canvas: &mut Canvas, (x, y): (i32, i32)) {
        let reach = self.shape.reach();
        self.shape.draw(canvas, (x, y));
        canvas.lines(x, y - reach - self.lift - height_of(&self.above), &self.above);
        canvas.lines(x, y + reach + 3, &self.below);
    }
}

/// The arrow of a handover, from the lane of the log's owner to the lane of its column's mark.
#[derive(Debug)]
pub struct Arrow {
    pub owner: u8,
    pub class: &'static str,
    pub name: Line,
}

impl Arrow {
    pub fn draw(&self, canvas: &mut Canvas, mark: &Mark, x: i32, lanes: &[i32]) {
        let (reader, reach) = (mark.lane_index(), mark.shape.reach());
        let (from, to) = (lanes[usize::from(self.owner) - 1], lanes[reader]);
        if self.owner == mark.lane {
            let (left, top) = (x - mark.shape.width() / 2 - LOOP_SIDE, to - reach - LOOP);
            let right = if reach > 1 { x } else { x + LOOP_SIDE };
            let data = format!("M{left} {to}V{}q0-6 6-6H{}q6 0 6 6V{}", top + 6, right - 6, to - reach);
            canvas.path(self.class, &data);
            return canvas.text((left + right) / 2, top - 4, &self.name);
        }
        let down = (to - from).signum();
        let (end, neighbour) = (to - down * reach, if down > 0 { reader - 1 } else { reader + 1 });
        let middle = (lanes[neighbour] + end) / 2 - down * 3;
        let (before, after) = (middle - down * NAME, middle + down * NAME);
        canvas.path(self.class, &format!("M{x} {from}V{before}M{x} {after}V{end}"));
        canvas.text(x, middle + 4, &self.name);
    }
}

/// An event, or something else that has a place in time.
#[derive(Debug)]
pub struct Column {
    pub head: String,
    pub title: String,
    pub marks: Vec<Mark>,
    pub arrow: Option<Arrow>,
    /// The line across all lanes, if the column concerns them all.
    pub across: Option<&'static str>,
}

impl Column {
    pub fn new(head: impl ToString, title: String, marks: Vec<Mark>) -> Column {
        Column { head: head.to_string(), title, marks, arrow: None, across: None }
    }

    pub fn width(&self) -> i32 {
        let marks = self.marks.iter().map(Mark::width).max().unwrap_or(0);
        let name = self.arrow.as_ref().map_or(0, |arrow| arrow.name.width());
        let least = if self.head.is_empty() { 0 } else { LEAST_COLUMN - COLUMN_GAP };
        let head = self.across.map_or(0, |_| Line::new(SMALL, &self.head).width());
        marks.max(name).max(least).max(head) + COLUMN_GAP
    }

    pub fn stops(&self, lane: u8) -> bool {
        self.marks.iter().any(|mark| mark.lane == lane && matches!(mark.shape, Shape::Octagon))
    }

    pub fn draw(&self, canvas: &mut Canvas, x: i32, lanes: &[i32]) {
        canvas.open(&self.title);
        if let (Some(class), Some(first), Some(last)) = (self.across, lanes.first(), lanes.last()) {
            canvas.path(class, &format!("M{x} {}V{}", first - LEAST_REACH, last + LEAST_REACH));
        }
        if let (Some(arrow), Some(mark)) = (&self.arrow, self.marks.first()) {
            arrow.draw(canvas, mark, x, lanes);
        }
        for mark in &self.marks {
            mark.draw(canvas, (x, lanes[mark.lane_index()]));
        }
        canvas.close();
    }
}
