//! Plays a run file, read from standard input, event by event: the set applied, what a finished sync or a local read
//! gives, and then a look at every panel. At the end it prints the sums of each class, if the file is of version 2, and
//! the registers that were written, as each panel shows them. `bindings/worked.run`, `bindings/classes.run`,
//! `bindings/underway.run`, `bindings/settings.run` and `bindings/reading.run` are the runs of docs/RULES.md, sections
//! 19, 25, 26, 28 and 29.
//!
//! With a controller and two messages as arguments, as in `worked 3 3.1 1.1`, each line ends in what service staff ask
//! where a panel waits: how many controllers put the first message before the second there, how many the second before
//! the first, and how many are needed. `bindings/before.txt` is what that prints for `bindings/worked.run`.

use furnacejade::{records, Class, Machine, Name, Record, Register, Stamp};
use std::error::Error;
use std::io::Read;
use std::process::ExitCode;

/// What service staff ask: the controller of a panel that waits, and two messages.
struct Question {
    controller: u8,
    one: Name,
    other: Name,
}

impl Question {
    fn of_arguments() -> Result<Option<Question>, Box<dyn Error>> {
        let arguments: Vec<String> = std::env::args().skip(1).collect();
        let [controller, one, other] = &arguments[..] else { return Ok(None) };
        Ok(Some(Question { controller: controller.parse()?, one: one.parse()?, other: other.parse()? }))
    }

    fn print_answer(&self, machine: &Machine) -> Result<(), Box<dyn Error>> {
        let Question { controller, one, other } = *self;
        let first = machine.count_before(controller, one, other)?;
        let second = machine.count_before(controller, other, one)?;
        let needed = machine.controllers().len() / 2 + 1;
        print!(" | at {controller}: {first} put {one} before {other}, ");
        print!("{second} put {other} before {one}, {needed} needed");
        Ok(())
    }
}

fn print_event(machine: &mut Machine, record: Record) -> Result<(), Box<dyn Error>> {
    let answer = machine.play(record)?;
    for name in answer.applied() {
        print!(" {name}");
    }
    if let Record::LocalRead { controller } = record {
        print!(" {controller} reads {}", answer.sums);
    }
    if let Some(sums) = answer.sync_answer() {
        print!(" finished {sums}");
    }
    for c in machine.controllers() {
        print!(" | {}", machine.look(c)?.sums);
    }
    Ok(())
}

fn print_classes(machine: &Machine) -> Result<(), Box<dyn Error>> {
    for c in machine.controllers() {
        let panel = machine.look(c)?;
        print!("panel {c}: {}", panel.sums);
        for class in Class::ALL {
            print!(", {class} {}", panel.of(class));
        }
        println!();
    }
    Ok(())
}

fn print_registers(machine: &Machine) -> Result<(), Box<dyn Error>> {
    for c in machine.controllers() {
        let registers = (1..).zip(machine.look(c)?.registers);
        for (r, Register { value, stamp }) in registers.filter(|(_, register)| register.stamp > Stamp::BLANK) {
            println!("panel {c}: register {r} is {value}, stamp {}, {}", stamp.date, stamp.writer);
        }
    }
    Ok(())
}

fn play_file() -> Result<(), Box<dyn Error>> {
    let question = Question::of_arguments()?;
    let mut file = vec![];
    std::io::stdin().read_to_end(&mut file)?;
    let [version, n, ..] = file[..] else { return Err("a run file has two bytes or more".into()) };
    let mut machine = Machine::new(version, n)?;
    for (number, part) in (1..).zip(records(&file)) {
        let record =
            part.record.ok_or_else(|| format!("no record has the form of byte {} and those after it", part.offset))?;
        print!("{number}:");
        print_event(&mut machine, record)?;
        if let Some(question) = &question {
            question.print_answer(&machine)?;
        }
        println!();
    }
    if version == 2 {
        print_classes(&machine)?;
    }
    print_registers(&machine)
}

fn main() -> ExitCode {
    let Err(error) = play_file() else { return ExitCode::SUCCESS };
    eprintln!("worked: {error}");
    ExitCode::FAILURE
}
