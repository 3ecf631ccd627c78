//! The elements of a picture, written as SVG, and text as XML allows it.
//!
//! Text is in a monospace font, so that its width can be computed.

use std::fmt::Display;

// The palette of Okabe and Ito, which colour-blind readers can tell apart, and its light and grey companions.
const BLUE: &str = "#0072B2";
const VERMILLION: &str = "#D55E00";
const GREEN: &str = "#009E73";
const ORANGE: &str = "#E69F00";
const SKY: &str = "#56B4E9";
const PURPLE: &str = "#CC79A7";
const BLACK: &str = "#000";
const WHITE: &str = "#FFF";
const CREAM: &str = "#FFF6DF";
const BLUSH: &str = "#FDEBDF";
const INK: &str = "#333";
const GREY: &str = "#666";
const DIM: &str = "#888";
const PALE: &str = "#BBB";
const MIST: &str = "#EEE";

/// The names of shapes and lines in the style sheet. Each is one letter, as a picture may have thousands of them.
pub mod class {
    pub const LANE: &str = "l";
    pub const STOPPED_LANE: &str = "d";
    pub const GUIDE: &str = "v";
    pub const ARROW: &str = "a";
    pub const PASSED: &str = "o";
    pub const REPORT: &str = "r";
    pub const SYNC: &str = "y";
    pub const WRITE: &str = "w";
    pub const LOCAL_READ: &str = "c";
    pub const STOP: &str = "q";
    pub const STOP_CROSS: &str = "g";
    pub const SET: &str = "t";
    pub const PANEL: &str = "i";
    pub const REFUSED: &str = "x";
    pub const HELD: &str = "u";
    pub const FAILED: &str = "z";
}

/// How a line of text is set: the class of its element, the size of its font, and the height that it takes.
#[derive(Clone, Copy, Debug)]
pub struct Style {
    class: &'static str,
    size: i32,
    pub height: i32,
}

pub const TITLE: Style = Style { class: "f h", size: 16, height: 22 };
pub const LEFT: Style = Style { class: "f", size: 12, height: 17 };
pub const LEFT_SMALL: Style = Style { class: "f s", size: 10, height: 14 };
pub const LEGEND: Style = Style { class: "f k", size: 10, height: 14 };
pub const PLAIN: Style = Style { class: "", size: 12, height: 14 };
pub const BOLD: Style = Style { class: "b", size: 12, height: 14 };
pub const FAINT: Style = Style { class: "p", size: 12, height: 14 };
pub const SMALL: Style = Style { class: "s", size: 10, height: 12 };
pub const LIGHT: Style = Style { class: "e", size: 10, height: 12 };
pub const DARK: Style = Style { class: "k", size: 10, height: 12 };
pub const SHOWN: Style = Style { class: "n", size: 13, height: 16 };

/// A line of text.
#[derive(Clone, Debug)]
pub struct Line {
    pub style: Style,
    pub text: String,
}

impl Line {
    pub fn new(style: Style, text: impl Display) -> Line {
        Line { style, text: text.to_string() }
    }

    /// The width of the line, with some slack: no common monospace font has wider characters.
    pub fn width(&self) -> i32 {
        self.text.chars().count() as i32 * self.style.size * 61 / 100 + 1
    }
}

/// The width of the widest line.
pub fn width_of(lines: &[Line]) -> i32 {
    lines.iter().map(Line::width).max().unwrap_or(0)
}

/// The height of all lines.
pub fn height_of(lines: &[Line]) -> i32 {
    lines.iter().map(|line| line.style.height).sum()
}

/// Words in lines of at most `most` characters. Only a word that is longer makes a longer line.
pub fn wrap(words: impl IntoIterator<Item = String>, most: usize) -> Vec<String> {
    let mut lines: Vec<String> = vec![];
    for word in words {
        match lines.last_mut() {
            Some(line) if line.chars().count() + 1 + word.chars().count() <= most => {
                line.push(' ');
                line.push_str(&word);
            }
            _ => lines.push(word),
        }
    }
    lines
}

/// A text of at most `most` characters. A text that is cut ends in a sign for that.
pub fn shorten(text: &str, most: usize) -> String {
    match text.char_indices().nth(most) {
        None => text.to_string(),
        Some(_) => text.chars().take(most - 1).chain(['…']).collect(),
    }
}

/// Text as it stands in an element or an attribute. A character that XML 1.0 does not allow is replaced.
pub fn escape(text: &str) -> String {
    let mut escaped = String::with_capacity(text.len());
    for c in text.chars() {
        match c {
            '&' => escaped.push_str("&amp;"),
            '<' => escaped.push_str("&lt;"),
            '>' => escaped.push_str("&gt;"),
            '"' => escaped.push_str("&quot;"),
            '\t' | '\n' | '\r' => escaped.push(' '),
            _ if c.is_control() || "\u{FFFE}\u{FFFF}".contains(c) => escaped.push('\u{FFFD}'),
            _ => escaped.push(c),
        }
    }
    escaped
}

/// Elements, one after the other.
#[derive(Debug, Default)]
pub struct Canvas {
    elements: String,
}

impl Canvas {
    /// Begins a group. A browser shows the title where the mouse is held over the group.
    pub fn open(&mut self, title: &str) {
        self.elements += &format!("<g><title>{}</title>", escape(title));
    }

    pub fn close(&mut self) {
        self.elements += "</g>\n";
    }

    /// A line of text on a baseline; x is its middle, or its left end if its style says so.
    pub fn text(&mut self, x: i32, y: i32, line: &Line) {
        let (class, text) = (class_of(line.style.class), escape(&line.text));
        self.elements += &format!("<text x=\"{x}\" y=\"{y}\"{class}>{text}</text>");
    }

    /// Lines of text below each other, from a top edge on.
    pub fn lines(&mut self, x: i32, top: i32, lines: &[Line]) {
        let mut bottom = top;
        for line in lines {
            bottom += line.style.height;
            self.text(x, bottom - 3, line);
        }
    }

    pub fn path(&mut self, class: &str, data: &str) {
        self.elements += &format!("<path{} d=\"{data}\"/>", class_of(class));
    }

    pub fn circle(&mut self, class: &str, (x, y): (i32, i32), radius: i32) {
        self.elements += &format!("<circle{} cx=\"{x}\" cy=\"{y}\" r=\"{radius}\"/>", class_of(class));
    }

    /// A rectangle around a middle.
    pub fn rectangle(&mut self, class: &str, (x, y): (i32, i32), (width, height): (i32, i32)) {
        let (left, top) = (x - width / 2, y - height / 2);
        let place = format!("x=\"{left}\" y=\"{top}\" width=\"{width}\" height=\"{height}\"");
        self.elements += &format!("<rect{} {place} rx=\"4\"/>", class_of(class));
    }

    /// Another canvas, moved down.
    pub fn place(&mut self, other: &Canvas, down: i32) {
        self.elements += &format!("<g transform=\"translate(0,{down})\">\n{}</g>\n", other.elements);
    }

    /// The whole picture, on white.
    pub fn picture(&self, title: &str, width: i32, height: i32) -> String {
        let size = format!("width=\"{width}\" height=\"{height}\" viewBox=\"0 0 {width} {height}\"");
        let (title, style, elements) = (escape(title), style(), &self.elements);
        format!(
            "<svg xmlns=\"http://www.w3.org/2000/svg\" {size} role=\"img\">\n<title>{title}</title>\n\
             <style>\n{style}</style>\n{MARKERS}\
             <rect width=\"{width}\" height=\"{height}\" fill=\"{WHITE}\"/>\n{elements}</svg>\n"
        )
    }
}

fn class_of(class: &str) -> String {
    match class {
        "" => String::new(),
        _ => format!(" class=\"{class}\""),
    }
}

/// The heads of arrows in two colours, and the dot at which one begins.
const MARKERS: &str = "<defs>\
    <marker id=\"h\" refX=\"8\" refY=\"4\" markerWidth=\"8\" markerHeight=\"8\" markerUnits=\"userSpaceOnUse\" \
    orient=\"auto\"><path class=\"i\" d=\"M0 0L8 4L0 8z\"/></marker>\
    <marker id=\"i\" refX=\"8\" refY=\"4\" markerWidth=\"8\" markerHeight=\"8\" markerUnits=\"userSpaceOnUse\" \
    orient=\"auto\"><path class=\"p\" d=\"M0 0L8 4L0 8z\"/></marker>\
    <marker id=\"j\" refX=\"3\" refY=\"3\" markerWidth=\"6\" markerHeight=\"6\" markerUnits=\"userSpaceOnUse\">\
    <circle class=\"i\" cx=\"3\" cy=\"3\" r=\"2.5\"/></marker>\
    </defs>\n";

/// What each class looks like.
fn style() -> String {
    use class::*;
    format!(
        "text{{font:12px \"DejaVu Sans Mono\",Menlo,Consolas,\"Liberation Mono\",monospace;text-anchor:middle}}
path{{fill:none}}
.f{{text-anchor:start}}.h{{font-size:16px;font-weight:bold}}.b{{font-weight:bold}}.p{{fill:{GREY}}}
.s{{font-size:10px;fill:{GREY}}}.e{{font-size:10px;fill:{WHITE}}}.k{{font-size:10px}}
.n{{font-size:13px;font-weight:bold;fill:{WHITE}}}
.{LANE}{{stroke:{DIM};stroke-width:2}}
.{STOPPED_LANE}{{stroke:{PALE};stroke-width:2;stroke-dasharray:2 5}}
.{GUIDE}{{stroke:{MIST}}}
.{ARROW}{{stroke:{INK};stroke-width:1.5;marker-start:url(#j);marker-end:url(#h)}}
.{PASSED}{{stroke:{GREY};stroke-dasharray:4 3;marker-end:url(#i)}}
.{REPORT}{{fill:{BLUE}}}.{SYNC}{{fill:{GREEN}}}.{WRITE}{{fill:{PURPLE}}}
.{LOCAL_READ}{{fill:{WHITE};stroke:{SKY};stroke-width:4}}
.{STOP}{{fill:{BLACK}}}.{STOP_CROSS}{{stroke:{WHITE};stroke-width:2}}
.{SET}{{fill:{CREAM};stroke:{ORANGE};stroke-width:1.5}}.{PANEL}{{fill:{INK}}}
.{REFUSED}{{fill:{BLUSH};stroke:{VERMILLION};stroke-width:2.5}}
.{HELD}{{fill:{WHITE};stroke:{GREEN};stroke-width:2}}
.{FAILED}{{fill:{WHITE};stroke:{VERMILLION};stroke-width:2.5}}
"
    )
}
