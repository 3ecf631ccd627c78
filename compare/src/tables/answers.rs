//! All answers of the functions over a table as text, in the form that `bindings/c/tables.c` prints: from the reference
//! and from the package.

use crate::reference::{Name, Says, Standing};
use furnacejade::{State, Table, CONTROLLERS};

/// The controllers that are asked about, a column for each.
pub const COLUMNS: [usize; 10] = [0, 1, 2, 3, 4, 5, 6, 7, 8, 255];

/// Numbers of messages that few tables have; each is asked about with each of the columns as its sender.
const ODD_NUMBERS: [usize; 5] = [0, 1, 64, 65, 255];

/// The package, asked about a table.
pub struct Package<'a>(pub &'a Table);

/// A number that the package's functions take. All columns are below 256.
fn byte(number: usize) -> u8 {
    u8::try_from(number).expect("a number below 256")
}

pub fn packed(x: &Name) -> furnacejade::Name {
    furnacejade::Name::new(byte(x.sender), byte(x.number))
}

pub fn unpacked(x: furnacejade::Name) -> Name {
    Name { sender: x.sender.into(), number: x.number.0.into() }
}

impl Says for Package<'_> {
    fn latest(&self, sender: usize) -> Option<Name> {
        self.0.latest(byte(sender)).map(unpacked)
    }
    fn standing(&self, c: usize, x: &Name) -> Standing {
        match self.0.state(byte(c), packed(x)) {
            State::Unknown => Standing::Unknown,
            State::Pending => Standing::Pending,
            State::Applied => Standing::Applied,
            State::CutOff => Standing::CutOff,
        }
    }
    fn unread(&self, receiver: usize, owner: usize) -> usize {
        self.0.unread(byte(receiver), byte(owner))
    }
    fn kept(&self, c: usize) -> Option<(usize, usize)> {
        self.0.kept(byte(c)).map(|kept| (usize::from(*kept.start()), usize::from(*kept.end())))
    }
    fn runs(&self, c: usize) -> bool {
        self.0.runs(byte(c))
    }
}

/// The names that are asked about: of all slots, whether the table counts them or not, and odd ones.
pub fn names(t: &Table) -> Vec<Name> {
    let slots = t.messages.iter().map(|m| Name { sender: m.sender.into(), number: m.number.0.into() });
    let odd = COLUMNS.into_iter().flat_map(|sender| ODD_NUMBERS.map(|number| Name { sender, number }));
    slots.chain(odd).collect()
}

fn letter(standing: Standing) -> char {
    match standing {
        Standing::Unknown => 'u',
        Standing::Pending => 'p',
        Standing::Applied => 'a',
        Standing::CutOff => 'c',
    }
}

/// A line: its title, and a cell for each column.
fn line(title: &str, cell: impl Fn(usize) -> String) -> String {
    let cells: Vec<String> = COLUMNS.iter().map(|c| cell(*c)).collect();
    format!("{title} {}\n", cells.join(" "))
}

/// All answers about a table, whose names these are. Where there is no such controller the least length that a stop may
/// keep and the greatest are 0, as in C. A length is said as a stop's record has it, in two bytes.
pub fn text(says: &dyn Says, names: &[Name]) -> String {
    let latest = |c| says.latest(c).map_or("0.0".into(), |x| format!("{}.{}", x.sender, x.number));
    let said = |length: usize| length.min(65_535);
    let kept = |c| says.kept(c).map_or("0-0".into(), |(least, greatest)| format!("{}-{}", said(least), said(greatest)));
    let mut text = line("latest", latest) + &line("runs", |c| u8::from(says.runs(c)).to_string()) + &line("kept", kept);
    for r in COLUMNS {
        text += &line(&format!("unread {r}:"), |o| says.unread(r, o).to_string());
    }
    for x in names {
        text += &line(&format!("state {}.{}:", x.sender, x.number), |c| letter(says.standing(c, x)).into());
    }
    text
}

/// What the package says that the reference does not, if anything.
pub fn difference(t: &Table, right: &str) -> Option<String> {
    let found = text(&Package(t), &names(t));
    let known = 1..=t.n.min(CONTROLLERS);
    let is_none = |c: u8| t.kept(c).is_none() && t.latest(c).is_none() && !t.runs(c);
    first_difference(right, &found)
        .or_else(|| {
            let wrong = (0..=255).find(|c| known.contains(&usize::from(*c)) != t.kept(*c).is_some())?;
            Some(format!("whether there is a controller {wrong} that may stop"))
        })
        .or_else(|| {
            let wrong = (0..=255).find(|c| !known.contains(&usize::from(*c)) && !is_none(*c))?;
            Some(format!("something is said of a controller {wrong}, and there is none"))
        })
}

/// The first line in which two texts differ.
pub fn first_difference(right: &str, found: &str) -> Option<String> {
    if right == found {
        return None;
    }
    let mut pairs = right.lines().zip(found.lines());
    let (right, found) = pairs.find(|(right, found)| right != found).unwrap_or(("that many lines", "more or fewer"));
    Some(format!("expected {right}\n   found {found}"))
}
