//! The modes of the program, except those of the workbench and the benchmark. `main.rs` lists them all. This file has
//! `compare`, `reference`, `one` and `print`.

pub mod count;
pub mod faults;
pub mod program;

use crate::cases::{kept, Call, Case, Head};
use crate::checks::{failure, report_and_exit, sets};
use crate::engines::library::Library;
use crate::engines::{pair, Engine, Reference};
use crate::generate::random::Random;
use crate::reference::{self, calls, Marks, Name, State, SCRATCH};
use crate::{edges, generate};
use furnacejade::Pair;
use std::io::{Read, Write};
use std::process::exit;

const ONCE: Library = Library { twice: false };

fn check_printed(print: impl Fn(&[u8]) -> Vec<u8>) {
    for run in edges::whole_runs::all() {
        let found = print(&run.file);
        if found != run.printed.as_bytes() {
            println!("FAILED {}: printed {}", run.name, String::from_utf8_lossy(&found));
            exit(1);
        }
    }
}

/// A case that fails is made small and ends the program.
fn check(name: &str, case: &Case, engine: &dyn Engine) {
    if let Some(text) = failure(case, engine) {
        report_and_exit(name, case, engine, &text);
    }
}

/// The edges and the kept cases through an engine, and random ones through the engine that their index gives. Answers
/// how many were kept.
fn check_all(cases: usize, seed: u64, engine: impl Fn(usize) -> &'static dyn Engine) -> usize {
    println!("seed {seed}, {cases} cases");
    check_printed(reference::program);
    for (name, engine) in [("reference", &Reference as &dyn Engine), ("under test", engine(0))] {
        if let Err(text) = edges::check(engine) {
            println!("FAILED ({name}) {text}");
            exit(1);
        }
    }
    let kept = kept::all();
    kept.iter().for_each(|(name, case)| check(name, case, engine(0)));
    for index in 0..cases {
        let (kind, case) = generate::case(seed, index);
        check(&format!("seed {seed} case {index} ({kind})"), &case, engine(index));
    }
    kept.len()
}

/// One random case in this many is run twice. It has no factor in common with the number of kinds of cases.
const TWICE_IN: usize = 9;

/// The library against the reference.
pub fn compare(cases: usize, seed: u64) {
    let library = |index: usize| -> &'static dyn Engine {
        match index % TWICE_IN {
            0 => &Library { twice: true },
            _ => &ONCE,
        }
    };
    let kept = check_all(cases, seed, library);
    println!("{kept} kept cases and {cases} random ones: library and reference agree");
}

/// Buffers in no table, for each case.
const BUFFERS: usize = 20;

/// The reference against its edges, demand 3 and the definition of the set that is applied.
pub fn reference(cases: usize, seed: u64) {
    let kept = check_all(cases, seed, |_| &Reference);
    let sets: usize = (0..cases).map(|index| check_sets(&generate::case(seed, index).1)).sum();
    let (mut random, buffers) = (Random(seed), BUFFERS * cases);
    (0..buffers).for_each(|_| check_buffer(&mut random));
    println!("{kept} kept cases, {cases} random ones, {sets} sets, {buffers} buffers in no table");
    println!("the reference agrees with all subsets and with the matrix");
}

/// One case of a seed, printed and compared.
pub fn one(seed: u64, index: usize) {
    let (kind, case) = generate::case(seed, index);
    println!("{kind}\n{}", case.text());
    println!("{:?}", failure(&case, &Library { twice: true }));
}

/// The applied set by all three ways, after every event of a case and every handover of its file. Answers how many sets
/// were not empty.
fn check_sets(case: &Case) -> usize {
    let Some((mut state, mut rest)) = beginning(case) else { return 0 };
    let mut checked = 0;
    while !rest.is_empty() {
        let (before, (answer, left)) = (state.clone(), state.event(rest, &mut [0; SCRATCH]));
        if answer.refusal == 0 && rest[1] == sets::HANDOVER {
            check_applied(&before, pair((rest[2].into(), rest[3].into())), &answer, case);
            checked += sets_of(&state, case);
        }
        rest = if answer.refusal == 0 { left } else { &[] };
    }
    for call in &case.calls {
        match call {
            Call::Event { bytes, scratch } => _ = state.event(bytes, &mut vec![0; *scratch]),
            Call::Dispatch { named, scratch } => {
                state.dispatch(calls::numbered(*named), &mut vec![0; *scratch]);
            }
            Call::Commit { pair, acts, scratch } => {
                _ = state.commit(calls::numbered(*pair), *acts, &mut vec![0; *scratch]);
            }
            Call::Look(_) | Call::CountBefore(_) | Call::Ask { .. } => continue,
        }
        checked += sets_of(&state, case);
    }
    checked
}

/// The set that a handover of a file applied.
fn check_applied(before: &State, pair: Pair, answer: &reference::Answer, case: &Case) {
    let set: Vec<(usize, usize)> = answer.set.iter().map(|x| (x.sender, x.number)).collect();
    if let Err(text) = sets::law(&reference::to_table(before), pair, &set) {
        println!("FAILED {text}\n{}", case.text());
        exit(1);
    }
}

/// How many controllers would apply a set at this moment. The set of each must be that of all three ways.
fn sets_of(state: &State, case: &Case) -> usize {
    let set = |c: &reference::Controller| match sets::agreed(state.n, &c.pending) {
        Ok(set) => set,
        Err(text) => {
            println!("FAILED {text}: {:?}\n{}", c.pending, case.text());
            exit(1);
        }
    };
    state.controllers.iter().filter(|c| !set(c).is_empty()).count()
}

/// A buffer in no table, with anything in the slots that are not held: the set of the reference is that of the two other
/// ways.
fn check_buffer(random: &mut Random) {
    let (n, buffer) = generate::buffers::buffer(random);
    let named = |(slot, marks): (usize, Marks)| (Name { sender: slot, number: 1 }, marks);
    let pending = sets::pending(&buffer).into_iter().map(named).collect();
    let slots: Vec<usize> = reference::largest(n, &pending).iter().map(|x| x.sender).collect();
    let others = sets::by_both_ways(n, &buffer);
    if others.as_ref() != Ok(&slots) {
        println!("FAILED: the reference gives slots {slots:?}, the other ways {others:?}: n = {n}, {pending:?}");
        exit(1);
    }
}

/// The state that a case begins with, and the records of its file, if it has one. A case may begin with no well-formed
/// table.
fn beginning(case: &Case) -> Option<(State, &[u8])> {
    let (table, rest) = match &case.head {
        Head::Table(t) => ((**t).clone(), &[][..]),
        Head::Fresh { version, n } => (calls::fresh(*version, *n).table, &[][..]),
        Head::File { bytes, .. } => match bytes[..] {
            [version, n, ref records @ ..] => (calls::fresh(version.into(), n.into()).table, records),
            _ => return None,
        },
    };
    reference::well_formed(&table).then(|| (reference::to_state(&table), rest))
}

/// What the program prints for the file on standard input.
pub fn print() {
    let mut input = vec![];
    std::io::stdin().read_to_end(&mut input).expect("standard input");
    std::io::stdout().write_all(&reference::program(&input)).expect("standard output");
}
