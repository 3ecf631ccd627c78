//! How much stack each call of the library needs: the most over events of every kind on fresh, dense and broken tables,
//! and over long files.

use super::inputs::{
    applying_write, dense_files, file_of_reads, last_table, last_two, of_sixty_four, pending_table, run_table,
    waiting_table, with_writes,
};
use super::LENT;
use crate::cases::records::{classed_report, file_of, handover, local_read, report, stop, sync, write};
use crate::edges::long_runs::{by_log, in_a_circle, under_way_run};
use crate::engines::pair;
use crate::engines::stack::needed;
use crate::reference::{to_table, State, LISTING, MAX_MESSAGES, SCRATCH};
use furnacejade::{
    calls, Answer, AskAnswer, CountAnswer, DispatchAnswer, FreshAnswer, LookAnswer, Name, RunAnswer, Table,
};

fn event_stack(table: &Table, bytes: &[u8]) -> usize {
    let (mut t, mut scratch, mut answer) = (table.clone(), vec![0xA5; LENT], Answer::BLANK);
    needed(|| {
        calls::event(&mut t, bytes, &mut scratch, &mut answer);
    })
}

/// The dispatcher on a table, with any pair named and with too little scratch.
fn dispatch_stack(table: &Table) -> usize {
    let mut answer = DispatchAnswer::BLANK;
    let named = [(0, 0), (1, 1), (1, 2), (1, 3), (3, 3), (7, 7), (4, 4)].map(pair);
    let calls = named.into_iter().flat_map(|pair| [SCRATCH - 1, LENT].map(|length| (pair, length)));
    let stacks = calls.map(|(pair, length)| {
        let (mut t, mut scratch) = (table.clone(), vec![0xA5; length]);
        needed(|| calls::dispatch(&mut t, pair, &mut scratch, &mut answer))
    });
    stacks.max().unwrap_or(0)
}

/// The pairs that are asked about and taken: some that wait, some that do not, and numbers that are no controller's.
const PAIRS: [(usize, usize); 8] = [(0, 0), (1, 1), (1, 2), (1, 3), (2, 1), (3, 3), (7, 7), (4, 4)];

/// Asks of a table, with too little scratch too.
fn ask_stack(table: &Table) -> usize {
    let mut answer = AskAnswer::BLANK;
    let asked = PAIRS.map(pair).into_iter().flat_map(|pair| [SCRATCH - 1, LENT].map(|length| (pair, length)));
    let stacks = asked.map(|(pair, length)| {
        let mut scratch = vec![0xA5; length];
        needed(|| calls::ask(table, pair, &mut scratch, &mut answer))
    });
    stacks.max().unwrap_or(0)
}

/// Commits on a table, with the count that an ask answers and with another, and with too little scratch.
fn commit_stack(table: &Table) -> usize {
    let (mut shown, mut answer) = (AskAnswer::BLANK, Answer::BLANK);
    let mut stacks = vec![];
    for (pair, length) in PAIRS.map(pair).into_iter().flat_map(|pair| [SCRATCH - 1, LENT].map(|length| (pair, length)))
    {
        calls::ask(table, pair, &mut [0xA5; LENT], &mut shown);
        for acts in [shown.acts, shown.acts + 1] {
            let (mut t, mut scratch) = (table.clone(), vec![0xA5; length]);
            stacks.push(needed(|| calls::commit(&mut t, pair, acts, &mut scratch, &mut answer)));
        }
    }
    stacks.into_iter().max().unwrap_or(0)
}

fn look_stack(table: &Table) -> usize {
    let mut answer = LookAnswer::BLANK;
    (0..=8).map(|c| needed(|| calls::look(table, c, &mut answer))).max().unwrap_or(0)
}

fn count_stack(table: &Table) -> usize {
    let ([first, second], mut answer) = (last_two(table), CountAnswer::BLANK);
    let pairs = [(first, second), (first, first), (first, Name::BLANK), (Name::BLANK, second)];
    let asked = (0..=8).flat_map(|c| pairs.map(|(first, second)| (c, first, second)));
    let stacks = asked.map(|(c, one, other)| needed(|| calls::count_before(table, c, &one, &other, &mut answer)));
    stacks.max().unwrap_or(0)
}

fn run_stack(file: &[u8]) -> usize {
    let (mut listing, mut scratch, mut answer) = (vec![0; LISTING], vec![0; LENT], Box::new(RunAnswer::BLANK));
    needed(|| calls::run(file, &mut listing, &mut scratch, &mut answer))
}

fn fresh_stack() -> usize {
    let mut answer = Box::new(FreshAnswer::BLANK);
    let requests = (0..=3).flat_map(|version| (0..=8).map(move |n| (version, n)));
    requests.map(|(version, n)| needed(|| calls::fresh(version, n, &mut answer))).max().unwrap_or(0)
}

/// The most that a call needed, over events of every kind, accepted and refused, on fresh, dense and broken tables.
pub fn print() {
    let (dense, running) = dense_files(1);
    let (dense_2, running_2) = dense_files(2);
    let mut tables = vec![Table::BLANK];
    tables.extend([&dense, &running, &dense_2, &running_2].map(|file| last_table(file)));
    for n in [1, 3, 7] {
        tables.extend([to_table(&State::fresh(1, n)), to_table(&State::fresh(2, n)), run_table(n).0]);
    }
    tables.extend([2, 63].into_iter().flat_map(|held| [false, true].map(|chain| pending_table(7, held, chain))));
    let under_way = [under_way_run(1, 7, 1, by_log), under_way_run(1, 7, 7, in_a_circle)];
    tables.extend([of_sixty_four(&under_way[0], 1).0, of_sixty_four(&under_way[1], MAX_MESSAGES).0]);
    tables.extend([1, MAX_MESSAGES - 1, MAX_MESSAGES].map(|messages| to_table(&with_writes(messages).0)));
    tables.push(applying_write().0);
    tables.push(waiting_table(&last_table(&running)).0);
    let mut records = vec![vec![], report(1, 5), report(1, 0), classed_report(1, 5, 4), classed_report(1, 5, 5)];
    records.extend([sync(1), handover(1, 2), handover(2, 1), stop(1, 64), stop(9, 0), local_read(1), local_read(9)]);
    records.extend([handover(1, 4), write(1, 1, 1500), write(1, 9, 1500), write(9, 1, 1500)]);
    let events = tables.iter().flat_map(|t| records.iter().map(|record| event_stack(t, record))).max();
    let dispatches = tables.iter().map(dispatch_stack).max();
    let (asks, commits) = (tables.iter().map(ask_stack).max(), tables.iter().map(commit_stack).max());
    let looks = tables.iter().map(look_stack).max();
    let counts = tables.iter().map(count_stack).max();
    let mut files = vec![dense, running, dense_2, running_2, run_table(3).1, vec![1], vec![3, 3], vec![1, 9]];
    let written = file_of(1, 7, &with_writes(MAX_MESSAGES).1);
    files.extend(under_way.into_iter().chain([file_of_reads(7), file_of_reads(1), written]));
    let runs = files.iter().map(|file| run_stack(file)).max();
    println!("\nbytes of stack that a call of the library needs, the most of what was tried");
    let fresh = Some(fresh_stack());
    let calls = [("event", events), ("dispatch", dispatches), ("ask", asks), ("commit", commits)];
    let others = [("look", looks), ("count", counts), ("fresh", fresh), ("run", runs)];
    for (name, most) in calls.into_iter().chain(others) {
        println!("{name:<56} {:>12}", most.unwrap_or(0));
    }
}
