//! Compares the engine library with the reference. Modes:
//!
//!     compare N SEED        the folder `cases`, the edges, then N random cases
//!     long N                N rounds of `compare 1600` with seeds from the clock
//!     one SEED INDEX        one case of a seed, printed and compared
//!     count N SEED          how often each answer comes in N random cases
//!     faults                each fault must be found, by the folder `cases` or by random cases
//!     faults random [DIR [NAME]]   the same by random cases alone, for all faults or for one; the cases found are
//!                           made small and written to DIR
//!     faults demand3        which faults the checker of demand 3 sees alone
//!     reference N SEED      the reference alone: the folder, the edges, and its applied sets by all subsets and by the
//!                           matrix
//!     program PATH N SEED   an executable's output for N run files, and the library's
//!     tables PATH N SEED    the functions over a table, on the tables of N random cases: in Rust, and in C through the
//!                           program `bindings/c/tables.c` at PATH
//!     workbench PATH N SEED FOLDER   the workbench's commands on N run files and on edges, through files in FOLDER
//!     print                 what the program prints for the file on standard input
//!     bench                 times, and the stack that each call needs

mod benchmark;
mod cases;
mod checks;
mod edges;
mod engines;
mod generate;
mod modes;
mod reference;
mod tables;
mod workbench;

const MODES: &str = "modes: compare N SEED | long N | one SEED INDEX | count N SEED
    | faults [random [DIR [NAME]] | demand3] | reference N SEED | program PATH N SEED
    | tables PATH N SEED | workbench PATH N SEED FOLDER | print | bench";

fn clock() -> u64 {
    std::time::SystemTime::now().duration_since(std::time::UNIX_EPOCH).unwrap().as_nanos() as u64
}

fn main() {
    let words: Vec<String> = std::env::args().skip(1).collect();
    let number = |place: usize, otherwise: u64| words.get(place).map_or(otherwise, |w| w.parse().expect("a number"));
    let (cases, seed) = (|| number(1, 1600) as usize, || number(2, 1));
    match words.first().map_or("", String::as_str) {
        "compare" => modes::compare(cases(), seed()),
        "long" => (0..number(1, 10)).for_each(|_| modes::compare(1600, clock())),
        "one" => modes::one(number(1, 1), number(2, 0) as usize),
        "faults" => modes::faults::find_all(words.get(1).map_or("", String::as_str), words.get(2), words.get(3)),
        "count" => modes::count::print(cases(), seed()),
        "reference" => modes::reference(cases(), seed()),
        "program" => modes::program::compare(&words[1], number(2, 200) as usize, number(3, 1)),
        "tables" => tables::all(&words[1], number(2, 300) as usize, number(3, 1)),
        "workbench" => workbench::all(&words[1], number(2, 200) as usize, number(3, 1), &words[4]),
        "print" => modes::print(),
        "bench" => benchmark::all(),
        _ => println!("{MODES}"),
    }
}

#[test]
fn edges_kept_cases_and_some_random_ones() {
    modes::compare(160, 1);
}
