//! The mode `faults`: each fault that is planted in the copy of the reference must be found, by the kept cases or by
//! random ones.

use super::check;
use crate::cases::{kept, Case, Head};
use crate::checks::{demand3_failure, failure, smallest};
use crate::engines::faults::{Faulty, ALL, ASLEEP};
use crate::generate;
use furnacejade::MESSAGES;
use std::process::exit;
use std::time::Duration;

/// Each fault must be found: by the kept cases first and then by random ones; or by random ones alone; or by demand 3
/// alone, which cannot see them all. With a folder, each case found is made small and written there.
pub fn find_all(by: &str, folder: Option<&String>, only: Option<&String>) {
    std::panic::set_hook(Box::new(|_| {}));
    let random = (0..3200).map(|index| {
        let (kind, case) = generate::case(2021, index);
        (format!("case {index} ({kind})"), case)
    });
    let mut kept = if by.is_empty() { kept::all() } else { vec![] };
    // Short cases on small tables are quick, and find most faults.
    let messages = |case: &Case| match &case.head {
        Head::Table(t) => t.count.min(MESSAGES),
        _ => 0,
    };
    kept.sort_by_key(|(_, case)| case.file_bytes().len() + case.calls.len() + 16 * messages(case));
    let most = if by == "demand3" { 400 } else { 3200 };
    let cases: Vec<(String, Case)> = kept.into_iter().chain(random).take(most).collect();
    // What is found must be the fault's doing: while all sleep, the copy is the reference.
    cases.iter().take(160).for_each(|(name, case)| check(name, case, &Faulty(ASLEEP)));
    let mut missed = 0;
    for (fault, (name, meaning)) in ALL.iter().enumerate() {
        if only.is_some_and(|only| only != name) {
            continue;
        }
        match find_fault(fault, by, &cases) {
            Some((finder, case, text)) => {
                println!("{name} ({meaning})\n    found by {finder}: {text}");
                if let Some(folder) = folder {
                    keep_small(folder, fault, case, &text);
                }
            }
            None => {
                missed += 1;
                println!("{name} ({meaning})\n    NOT FOUND");
            }
        }
    }
    println!("{} faults, {missed} not found", ALL.len());
    exit((missed > 0 && by != "demand3") as i32)
}

/// The first case that finds a fault: its name, the case, and what differs.
fn find_fault<'a>(fault: usize, by: &str, cases: &'a [(String, Case)]) -> Option<(&'a str, &'a Case, String)> {
    // Question 4 is seen on lent tables, and these cases are quick.
    let lent_only = ALL[fault].0.starts_with("Well");
    let useful = |case: &&(String, Case)| !lent_only || matches!(case.1.head, Head::Table(_));
    let fails = |case: &Case| match by {
        "demand3" => demand3_failure(case, &Faulty(fault)),
        _ => failure(case, &Faulty(fault)),
    };
    cases.iter().filter(useful).find_map(|(name, case)| Some((name.as_str(), case, fails(case)?)))
}

fn keep_small(folder: &str, fault: usize, case: &Case, text: &str) {
    let (name, meaning) = ALL[fault];
    let small = smallest(case, &Faulty(fault), text, Duration::from_millis(400)).text();
    std::fs::write(format!("{folder}/{name}.txt"), format!("# {meaning}\n{small}")).expect("the folder");
}
