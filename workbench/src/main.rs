//! Write a run, run it, see it, and see why: `workbench --help`.

mod column;
mod disassemble;
mod draw;
mod help;
mod legend;
mod play;
mod report;
mod source;
mod spelling;
mod svg;
mod text;
mod why;
mod words;

use furnacejade::{interface, Name, INTERFACE};
use play::Play;
use source::{Form, Source};
use spelling::did_you_mean;
use std::io::{ErrorKind, Write};
use std::process::ExitCode;

/// Why a command could not do what it was asked, for standard error.
type Failed = String;

/// What a command was asked for.
struct Asked {
    words: Vec<String>,
    output: Option<String>,
    after: Option<usize>,
    to_end: bool,
    form: Form,
}

/// A command: its name, its help, how many words it needs, its options, and what it does.
struct Command {
    name: &'static str,
    help: &'static str,
    words: usize,
    options: &'static [&'static str],
    carry_out: fn(&Asked) -> Result<bool, Failed>,
}

const COMMANDS: [Command; 5] = [
    Command { name: "assemble", help: help::ASSEMBLE, words: 1, options: &["-o"], carry_out: assemble },
    Command {
        name: "disassemble",
        help: help::DISASSEMBLE,
        words: 1,
        options: &["-o", "--bytes"],
        carry_out: disassemble,
    },
    Command { name: "run", help: help::RUN, words: 1, options: &["--to-end", "--text", "--bytes"], carry_out: run },
    Command { name: "why", help: help::WHY, words: 3, options: &["--after", "--text", "--bytes"], carry_out: why },
    Command {
        name: "draw",
        help: help::DRAW,
        words: 1,
        options: &["-o", "--to-end", "--text", "--bytes"],
        carry_out: draw,
    },
];

impl Command {
    fn failed(&self, what: &str) -> Failed {
        let joint = if what.ends_with('?') { "" } else { ";" };
        format!("workbench {}: {what}{joint} `workbench {} --help` says more\n", self.name, self.name)
    }

    /// The words and options of a command line; none if it asks for help.
    fn parse(&self, line: &[String]) -> Result<Option<Asked>, Failed> {
        let mut asked = Asked { words: vec![], output: None, after: None, to_end: false, form: Form::Either };
        let mut line = line.iter();
        while let Some(word) = line.next() {
            let mut value =
                |what: &str| line.next().ok_or_else(|| self.failed(&format!("{word} needs {what} after it")));
            match word.as_str() {
                "--help" | "-h" => return Ok(None),
                option if option.len() > 1 && option.starts_with('-') && !self.options.contains(&option) => {
                    let hint = did_you_mean(option, self.options.iter().copied().chain(["--help"]));
                    let hint = hint.map_or(String::new(), |hint| format!("; {hint}"));
                    return Err(self.failed(&format!("there is no option {option}{hint}")));
                }
                "-o" => asked.output = Some(value("the name of a file")?.clone()),
                "--after" => asked.after = Some(self.event(value("the number of an event")?)?),
                "--to-end" => asked.to_end = true,
                "--text" => asked.form = Form::Text,
                "--bytes" => asked.form = Form::Bytes,
                _ => asked.words.push(word.clone()),
            }
        }
        match asked.words.len() {
            number if number == self.words => Ok(Some(asked)),
            number => {
                let form = self.help.lines().next().unwrap_or_default();
                Err(self.failed(&format!("the command reads `{form}`; words given: {number}")))
            }
        }
    }

    fn event(&self, word: &str) -> Result<usize, Failed> {
        word.parse().map_err(|_| self.failed(&format!("`{word}` is not the number of an event")))
    }
}

/// Writes to the file that was named, or to standard output.
fn put(output: Option<&str>, bytes: &[u8]) -> Result<(), Failed> {
    let (result, name) = match output {
        Some(path) if path != "-" => (std::fs::write(path, bytes), path),
        _ => {
            let mut output = std::io::stdout().lock();
            (output.write_all(bytes).and_then(|()| output.flush()), "standard output")
        }
    };
    match result {
        // A reader who has seen enough closes the pipe, which is no failure.
        Err(error) if error.kind() != ErrorKind::BrokenPipe => Err(format!("{name}: {error}\n")),
        _ => Ok(()),
    }
}

/// The file that a command plays, whether it is a text or a run file.
fn played(asked: &Asked) -> Result<Source, Failed> {
    Source::load(&asked.words[0], asked.form, "use --bytes")
}

fn assemble(asked: &Asked) -> Result<bool, Failed> {
    let advice = "`workbench disassemble` gives its text, and `workbench run` plays it";
    let source = Source::load(&asked.words[0], Form::Text, advice)?;
    put(asked.output.as_deref(), source.bytes())?;
    complain(&source.notes());
    Ok(true)
}

fn disassemble(asked: &Asked) -> Result<bool, Failed> {
    let file = source::read(&asked.words[0])?;
    if asked.form != Form::Bytes && source::is_text(&file) {
        let name = source::shown(&asked.words[0]);
        let advice = "`workbench assemble` makes a run file of it, and --bytes takes it for one";
        return Err(format!("{name}: this looks like a text, and not like a run file; {advice}\n"));
    }
    put(asked.output.as_deref(), disassemble::disassemble(&file).as_bytes()).map(|()| true)
}

/// Plays a file, to the end if that is asked for, writes what a command makes of that, and says on standard error what failed.
fn show(asked: &Asked, make: impl Fn(&Source, &Play) -> String) -> Result<bool, Failed> {
    let source = played(asked)?;
    let mut play = play::play(source.bytes(), source.expectations(), usize::MAX);
    if asked.to_end {
        play.go_to_end();
    }
    put(asked.output.as_deref(), make(&source, &play).as_bytes())?;
    complain(&report::complaints(&source, &play));
    Ok(report::succeeded(&play))
}

fn run(asked: &Asked) -> Result<bool, Failed> {
    show(asked, report::report)
}

fn draw(asked: &Asked) -> Result<bool, Failed> {
    show(asked, |source, play| {
        let path = std::path::Path::new(&source.name);
        let title = path.file_name().map_or(source.name.as_str().into(), |name| name.to_string_lossy());
        draw::svg(&title, play)
    })
}

fn why(asked: &Asked) -> Result<bool, Failed> {
    let (message, panel) = (&asked.words[1], &asked.words[2]);
    let source = played(asked)?;
    let play = play::play(source.bytes(), &[], asked.after.unwrap_or(usize::MAX));
    let complaints = report::complaints(&source, &play);
    let answer = match asked.after.filter(|after| *after > play.steps.len() && play.table.n > 0) {
        Some(after) => Err(format!("event {after} is not reached: {} accepted\n", events(play.steps.len()))),
        None if play.table.n == 0 => Ok(String::new()),
        None => question(&play, message, panel),
    };
    let answer = answer.map_err(|wrong| format!("{complaints}{wrong}"))?;
    let refused = play.refused.as_ref().map_or(String::new(), |refused| report::refusal(&source, &play, refused));
    let between = if answer.is_empty() || refused.is_empty() { "" } else { "\n" };
    put(None, format!("{answer}{between}{refused}").as_bytes())?;
    complain(&complaints);
    Ok(report::succeeded(&play))
}

fn events(number: usize) -> String {
    words::count(number, "event", "events")
}

/// Why a panel has applied a message, or has not. The words name both.
fn question(play: &Play, message: &str, panel: &str) -> Result<String, Failed> {
    let name: Name = message.parse().map_err(|wrong| format!("`{message}` names no message: {wrong}\n"))?;
    if play.slot(name).is_none() {
        let sent = play::sent(&play.table);
        let sent = if sent.is_empty() { "nothing".into() } else { words::list(&sent) };
        return Err(format!("{name} was not sent in {}; sent: {sent}\n", events(play.steps.len())));
    }
    match panel.parse() {
        Ok(panel) if play.table.controller_numbers().contains(&panel) => {
            Ok(why::Question { play, name, panel }.answer())
        }
        _ => Err(format!("there is no panel {panel}: {}\n", words::panels(play.table.n))),
    }
}

/// Writes to standard error. If nobody reads that any more, nobody can be told.
fn complain(text: &str) {
    let _ = std::io::stderr().write_all(text.as_bytes());
}

/// The words of the command line.
fn words_given() -> Result<Vec<String>, Failed> {
    let word = |word: std::ffi::OsString| word.into_string().map_err(|word| format!("{word:?} is not UTF-8\n"));
    std::env::args_os().skip(1).map(word).collect()
}

/// The name, the version of this package, and the interface that the library was built with.
fn version() -> String {
    format!("{} {}, interface {}\n", env!("CARGO_PKG_NAME"), env!("CARGO_PKG_VERSION"), interface())
}

/// Whether the library has the interface that the package was written for. If not, no call of it may be made.
fn check_library() -> Result<(), Failed> {
    match interface() {
        INTERFACE => Ok(()),
        other => Err(format!(
            "workbench: the library was built with interface {other}, and this program needs {INTERFACE}; \
             run `tools/build engine`, and build the workbench again\n"
        )),
    }
}

fn carry_out(line: &[String]) -> Result<bool, Failed> {
    let print = |text: &str| put(None, text.as_bytes()).map(|()| true);
    let first = line.first().map_or("--help", String::as_str);
    match COMMANDS.iter().find(|command| command.name == first) {
        Some(command) => match command.parse(&line[1..])? {
            Some(asked) => check_library().and_then(|()| (command.carry_out)(&asked)),
            None => print(command.help),
        },
        None if ["--help", "-h", "help"].contains(&first) => print(help::WORKBENCH),
        None if ["--version", "-V"].contains(&first) => print(&version()),
        None => {
            let hint = did_you_mean(first, COMMANDS.iter().map(|command| command.name).chain(["--help", "--version"]));
            let hint = hint.map_or(String::new(), |hint| format!("{hint} "));
            Err(format!("workbench: there is no command {first}; {hint}`workbench --help` lists them\n"))
        }
    }
}

fn main() -> ExitCode {
    match words_given().and_then(|line| carry_out(&line)) {
        Ok(true) => ExitCode::SUCCESS,
        Ok(false) => ExitCode::from(1),
        Err(failed) => {
            complain(&failed);
            ExitCode::from(2)
        }
    }
}
