//! The signs of a picture, and what each means.

use crate::column::{Shape, FORWARDED};
use crate::play;
use crate::svg::{class, Canvas, Line, BOLD, LEFT_SMALL, LEGEND, PLAIN};
use furnacejade::Payload;
use std::collections::BTreeSet;

/// The height of a row of the legend, the gap between two signs, and the length of an arrow.
const ROW: i32 = 24;
const GAP: i32 = 18;
const SAMPLE_ARROW: i32 = 26;
/// The marks show places in runs of at most this many controllers.
const FEW: u8 = 4;

/// The signs that a legend explains, in its order.
#[derive(Clone, Copy, Debug, PartialEq, Eq, PartialOrd, Ord)]
pub enum Sign {
    Report,
    Sync,
    Write,
    LocalRead,
    Forwarded,
    Marked,
    Passed,
    Marks,
    Set,
    Stop,
    Held,
    Failed,
    Refused,
}

impl Sign {
    fn meaning(self, n: u8) -> &'static str {
        match self {
            Sign::Report => "report, and its place in the log",
            Sign::Sync => "sync",
            Sign::Write => "write",
            Sign::LocalRead => "local read",
            Sign::Forwarded => "handover: joins the reader's log",
            Sign::Marked => "handover: pending there already",
            Sign::Passed => "handover: applied there already",
            Sign::Marks if n <= FEW => "its place in log 1, log 2, and so on, as far as the reader has it",
            Sign::Marks => "the logs that the reader has it from",
            Sign::Set => "set applied, and what the panel then shows",
            Sign::Stop => "stop",
            Sign::Held => "as expected",
            Sign::Failed => "not as expected",
            Sign::Refused => "refused, with the number of the question",
        }
    }

    fn shape(self) -> Shape {
        let entry = |kind| Shape::Entry { kind, place: 1, radius: FORWARDED };
        match self {
            Sign::Report | Sign::Forwarded => entry(Payload::REPORT),
            Sign::Sync => entry(Payload::SYNC),
            Sign::Write => entry(Payload::WRITE),
            Sign::LocalRead => Shape::Ring,
            Sign::Set => Shape::boxed(class::SET, vec![Line::new(PLAIN, "1.1")]),
            Sign::Stop => Shape::Octagon,
            Sign::Held => Shape::Verdict(true),
            Sign::Failed => Shape::Verdict(false),
            Sign::Refused => Shape::boxed(class::REFUSED, vec![Line::new(BOLD, "9")]),
            Sign::Marked | Sign::Passed | Sign::Marks => Shape::Bare,
        }
    }

    /// An example of marks: the logs after the first have the message.
    fn marks(n: u8) -> Line {
        let logs = (1..=n.min(FEW)).filter(|log| *log > 1 || n == 1);
        let marks: Vec<play::Mark> = logs.map(|log| (log, n + 1 - log)).collect();
        Line::new(LEFT_SMALL, marks_text(&marks, n))
    }

    fn width(self, n: u8) -> i32 {
        match self {
            Sign::Forwarded => SAMPLE_ARROW + 2 * FORWARDED,
            Sign::Marked | Sign::Passed => SAMPLE_ARROW,
            Sign::Marks => Sign::marks(n).width(),
            _ => self.shape().width(),
        }
    }

    /// Draws an example of the sign, from x on.
    fn draw(self, n: u8, canvas: &mut Canvas, (x, y): (i32, i32)) {
        let arrow = format!("M{} {y}h{}", x + 3, SAMPLE_ARROW - 3);
        match self {
            Sign::Forwarded => {
                canvas.path(class::ARROW, &arrow);
                self.shape().draw(canvas, (x + SAMPLE_ARROW + FORWARDED, y));
            }
            Sign::Marked => canvas.path(class::ARROW, &arrow),
            Sign::Passed => canvas.path(class::PASSED, &arrow),
            Sign::Marks => canvas.text(x, y + 4, &Sign::marks(n)),
            _ => self.shape().draw(canvas, (x + self.width(n) / 2, y)),
        }
    }
}

/// Draws what signs mean in a run of n controllers, in rows between two edges and below a top edge. Answers where the rows
/// end.
pub fn legend(signs: &BTreeSet<Sign>, n: u8, canvas: &mut Canvas, (left, right): (i32, i32), top: i32) -> i32 {
    let (mut x, mut y) = (left, top + 10);
    for sign in signs {
        let (sample, line) = (sign.width(n), Line::new(LEGEND, sign.meaning(n)));
        let width = sample + 6 + line.width();
        if x > left && x + width > right {
            (x, y) = (left, y + ROW);
        }
        sign.draw(n, canvas, (x, y));
        canvas.text(x + sample + 6, y + 4, &line);
        x += width + GAP;
    }
    match signs.is_empty() {
        true => top,
        false => y + ROW,
    }
}

/// Marks as text. In a run of few controllers it is the place in each log, with a dash for none; in others the logs that
/// have a mark.
pub fn marks_text(marks: &[play::Mark], n: u8) -> String {
    if n > FEW {
        return marks.iter().map(|(log, _)| log.to_string()).collect::<Vec<String>>().join(",");
    }
    let place =
        |log: u8| marks.iter().find(|(other, _)| *other == log).map_or("-".to_string(), |(_, place)| place.to_string());
    (1..=n).map(place).collect::<Vec<String>>().join(" ")
}
