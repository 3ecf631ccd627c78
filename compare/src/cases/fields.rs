//! The fields of a table by name, for cases as text. Only the fields that are not as in a fresh table of version 1 are
//! written.

use crate::reference::{to_table, State};
use furnacejade::{Controller, Message, Payload, Pending, Table};

/// One number of a table.
enum Place<'a> {
    Byte(&'a mut u8),
    Short(&'a mut u16),
    Word(&'a mut u32),
    Long(&'a mut usize),
}

impl Place<'_> {
    fn get(&self) -> usize {
        match self {
            Place::Byte(x) => **x as usize,
            Place::Short(x) => **x as usize,
            Place::Word(x) => **x as usize,
            Place::Long(x) => **x,
        }
    }

    fn set(&mut self, value: usize) {
        match self {
            Place::Byte(x) => **x = value.try_into().expect("a number below 256"),
            Place::Short(x) => **x = value.try_into().expect("a number below 65,536"),
            Place::Word(x) => **x = value.try_into().expect("a number below 4,294,967,296"),
            Place::Long(x) => **x = value,
        }
    }
}

/// A field: its controller, or 0 if it is no controller's, and its name.
type Field = (usize, &'static str);

/// Every number of a table with its field; the numbers of one field stand in order. A struct is taken apart whole, so
/// that a new field of it cannot be forgotten here.
fn visit(t: &mut Table, mut see: impl FnMut(Field, Place)) {
    let Table { version, n, count, messages, controllers } = t;
    see((0, "version"), Place::Long(version));
    see((0, "n"), Place::Long(n));
    see((0, "count"), Place::Long(count));
    for Message { sender, number, date, payload } in messages {
        let Payload { kind, class, added, withdrawn, reg, value } = payload;
        see((0, "messages.sender"), Place::Byte(sender));
        see((0, "messages.number"), Place::Byte(&mut number.0));
        see((0, "messages.date"), Place::Short(date));
        see((0, "messages.kind"), Place::Byte(kind));
        see((0, "messages.class"), Place::Byte(&mut class.0));
        see((0, "messages.added"), Place::Short(added));
        see((0, "messages.withdrawn"), Place::Short(withdrawn));
        see((0, "messages.reg"), Place::Short(reg));
        see((0, "messages.value"), Place::Word(value));
    }
    for (c, controller) in (1..).zip(controllers) {
        let Controller { length, log, read, pending, applied, highest, running } = controller;
        see((c, "length"), Place::Long(length));
        log.iter_mut().for_each(|x| see((c, "log"), Place::Byte(x)));
        read.iter_mut().for_each(|x| see((c, "read"), Place::Long(x)));
        for Pending { held, marks } in pending {
            see((c, "pending.held"), Place::Byte(held));
            marks.iter_mut().for_each(|x| see((c, "pending.marks"), Place::Byte(&mut x.0)));
        }
        applied.iter_mut().for_each(|x| see((c, "applied"), Place::Byte(x)));
        highest.iter_mut().for_each(|x| see((c, "highest"), Place::Byte(&mut x.0)));
        see((c, "running"), Place::Byte(running));
    }
}

/// A field and its numbers.
type Column = (Field, Vec<usize>);

fn columns(t: &Table) -> Vec<Column> {
    let mut columns: Vec<Column> = vec![];
    visit(&mut t.clone(), |field, place| match columns.iter_mut().find(|column| column.0 == field) {
        Some(column) => column.1.push(place.get()),
        None => columns.push((field, vec![place.get()])),
    });
    columns
}

/// The table from which a text gives the differences. A field that the text does not name keeps the value that it has
/// here, which is harmless; so does a field that did not exist when the text was written.
pub fn plain_table() -> Table {
    Table { n: 0, ..to_table(&State::fresh(1, 7)) }
}

fn field_name((c, name): Field) -> String {
    match c {
        0 => name.into(),
        c => format!("controller{c}.{name}"),
    }
}

/// Numbers as text; `7*5` stands for five times 7.
fn numbers_text(numbers: &[usize]) -> String {
    let run = |run: &[usize]| match run.len() {
        1..=3 => run.iter().map(|x| format!(" {x}")).collect(),
        long => format!(" {}*{long}", run[0]),
    };
    numbers.chunk_by(|a, b| a == b).map(run).collect()
}

/// A line for each field that differs from the plain table's, up to its last number that differs.
pub fn table_text(t: &Table) -> String {
    let plain = columns(&plain_table());
    let mut text = String::new();
    for ((field, numbers), (_, plain)) in columns(t).iter().zip(&plain) {
        let same = numbers.iter().rev().zip(plain.iter().rev()).take_while(|(a, b)| a == b).count();
        if same < numbers.len() {
            text += &format!("  {}{}\n", field_name(*field), numbers_text(&numbers[..numbers.len() - same]));
        }
    }
    text
}

fn named(name: &str) -> (usize, &str) {
    let of_controller = name.strip_prefix("controller").and_then(|rest| rest.split_once('.'));
    of_controller.map_or((0, name), |(c, name)| (c.parse().expect("a controller"), name))
}

/// Sets the field that a line names.
pub fn set_field(t: &mut Table, line: &str) {
    let mut words = line.split_whitespace();
    let name = named(words.next().expect("the name of a field"));
    let mut numbers = words.flat_map(|word| {
        let (number, times) = word.split_once('*').unwrap_or((word, "1"));
        vec![number.parse().expect("a number"); times.parse().expect("a number")]
    });
    let mut known = false;
    visit(t, |field, mut place| {
        if field == name {
            known = true;
            if let Some(number) = numbers.next() {
                place.set(number);
            }
        }
    });
    assert!(known && numbers.next().is_none(), "no such field, or not that many numbers: {line}");
}
