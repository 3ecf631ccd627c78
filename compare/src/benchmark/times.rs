//! Times of the calls: library and reference on the same inputs in turn, the table of each call restored outside the
//! clock. A row is the least of several means.

use super::inputs::*;
use super::LENT;
use crate::cases::records::{classed_report, file_of, handover, local_read, report, stop, write};
use crate::cases::Asked;
use crate::edges::long_runs::{by_log, in_a_circle, under_way_run};
use crate::engines::library::Library;
use crate::engines::{Engine, Reference};
use crate::generate::random::Random;
use crate::generate::runs::{drain, follow, Policy};
use crate::reference::{to_state, to_table, State, LISTING, MAX_MESSAGES, SCRATCH};
use furnacejade::{Answer, AskAnswer, DispatchAnswer, Pair, Table};
use std::hint::black_box;
use std::time::{Duration, Instant};

/// A figure is the mean of this many calls. It is taken this often, library and reference in turn, and the least is
/// printed.
const CALLS: usize = 100;
const ROUNDS: usize = 20;

fn mean(mut once: impl FnMut() -> Duration) -> f64 {
    (0..CALLS).map(|_| once()).sum::<Duration>().as_nanos() as f64 / CALLS as f64
}

fn timed<T>(call: impl FnOnce() -> T) -> Duration {
    let start = Instant::now();
    black_box(call());
    start.elapsed()
}

fn event(engine: &dyn Engine, table: &Table, bytes: &[u8]) -> f64 {
    let (mut scratch, mut answer) = (vec![0xA5; LENT], Answer::BLANK);
    mean(|| {
        scratch.fill(0xA5);
        let mut t = table.clone();
        timed(|| engine.event(&mut t, bytes, &mut scratch, &mut answer))
    })
}

/// A call of the dispatcher.
fn dispatch(engine: &dyn Engine, table: &Table, named: Pair) -> f64 {
    let (mut scratch, mut answer) = (vec![0xA5; LENT], DispatchAnswer::BLANK);
    mean(|| {
        scratch.fill(0xA5);
        let mut t = table.clone();
        timed(|| engine.dispatch(&mut t, named, &mut scratch, &mut answer))
    })
}

fn ask(engine: &dyn Engine, table: &Table, pair: Pair) -> f64 {
    let (mut t, mut scratch, mut answer) = (table.clone(), vec![0xA5; LENT], AskAnswer::BLANK);
    mean(|| {
        scratch.fill(0xA5);
        timed(|| engine.ask(&mut t, pair, &mut scratch, &mut answer))
    })
}

fn commit(engine: &dyn Engine, table: &Table, pair: Pair, acts: usize) -> f64 {
    let (mut scratch, mut answer) = (vec![0xA5; LENT], Answer::BLANK);
    mean(|| {
        scratch.fill(0xA5);
        let mut t = table.clone();
        timed(|| engine.commit(&mut t, pair, acts, &mut scratch, &mut answer))
    })
}

/// The nanoseconds for each handover of the dispatcher alone, from a table to "none".
fn driven(engine: &dyn Engine, table: &Table) -> f64 {
    let (mut scratch, mut answer) = (vec![0xA5; LENT], DispatchAnswer::BLANK);
    let (mut t, mut last, mut handovers) = (table.clone(), Pair { receiver: table.n, owner: table.n }, 0);
    let time = timed(|| loop {
        engine.dispatch(&mut t, last, &mut scratch, &mut answer);
        if answer.pair == Pair::BLANK {
            break;
        }
        (last, handovers) = (answer.pair, handovers + 1);
    });
    time.as_nanos() as f64 / handovers as f64
}

/// The nanoseconds for each of these events, one by one, from a table on.
fn events(engine: &dyn Engine, table: &Table, records: &[Vec<u8>]) -> f64 {
    let (mut t, mut scratch, mut answer) = (table.clone(), vec![0xA5; LENT], Answer::BLANK);
    let time = timed(|| {
        for record in records {
            engine.event(&mut t, record, &mut scratch, &mut answer);
        }
    });
    time.as_nanos() as f64 / records.len() as f64
}

/// A count of "goes before" of two messages at a controller.
fn count(engine: &dyn Engine, table: &Table, controller: usize) -> f64 {
    let ([first, second], mut t) = (last_two(table), table.clone());
    let asked = [Asked { controller, first, second }];
    mean(|| timed(|| engine.counts_before(&mut t, &asked)))
}

/// The nanoseconds for each event of one run of each file.
fn runs(engine: &dyn Engine, files: &[Vec<u8>]) -> f64 {
    let (mut listing, mut scratch) = (vec![0xA5; LISTING], vec![0xA5; LENT]);
    let mut run = |file: &Vec<u8>| engine.run(file, &mut listing, &mut scratch);
    let events: usize = files.iter().map(|file| run(file).events).sum();
    let time: Duration = files.iter().map(|file| timed(|| run(file))).sum();
    time.as_nanos() as f64 / events as f64
}

/// The nanoseconds for each event of a file whose records are carried out one by one.
fn single_events(engine: &dyn Engine, file: &[u8]) -> f64 {
    let (mut scratch, mut answer) = (vec![0xA5; LENT], Answer::BLANK);
    let (mut t, mut rest, mut events) = (engine.fresh(file[0] as usize, file[1] as usize).table, &file[2..], 0);
    let time = timed(|| {
        while !rest.is_empty() {
            let left = engine.event(&mut t, rest, &mut scratch, &mut answer);
            rest = &rest[rest.len() - left..];
            events += 1;
        }
    });
    time.as_nanos() as f64 / events as f64
}

fn row(name: &str, time: impl Fn(&dyn Engine) -> f64) {
    let (mut library, mut reference) = (f64::MAX, f64::MAX);
    for _ in 0..ROUNDS {
        reference = reference.min(time(&Reference));
        library = library.min(time(&Library { twice: false }));
    }
    println!("{name:<56} {library:>12.0} {reference:>12.0} {:>8.1}", reference / library);
}

fn rows_of(n: usize) {
    let fresh = to_table(&State::fresh(1, n));
    let (after_run, file) = run_table(n);
    let length = to_state(&after_run).controllers[0].log.len();
    let mut waiting = State::fresh(1, n);
    follow(&mut waiting, &report(1, 5), SCRATCH);
    let waiting = to_table(&waiting);
    row(&format!("n = {n}: fresh table"), |e| mean(|| timed(|| e.fresh(1, n))));
    row(&format!("n = {n}: report, nothing pending"), |e| event(e, &fresh, &report(1, 5)));
    row(&format!("n = {n}: stop after 200 events"), |e| event(e, &after_run, &stop(1, length)));
    row(&format!("n = {n}: refused by question 8"), |e| event(e, &after_run, &stop(0, 0)));
    row(&format!("n = {n}: look after 200 events"), |e| mean(|| timed(|| e.look(&after_run, 1))));
    row(&format!("n = {n}: count of goes before after 200 events"), |e| count(e, &after_run, 1));
    let mut read_out = to_state(&after_run);
    drain(&mut Random(4), &mut read_out);
    let read_out = to_table(&read_out);
    row(&format!("n = {n}: local read, nothing sent"), |e| event(e, &fresh, &local_read(1)));
    row(&format!("n = {n}: local read after 200 events, all read"), |e| event(e, &read_out, &local_read(1)));
    row(&format!("n = {n}: local read refused by question 18"), |e| event(e, &waiting, &local_read(1)));
    for chain in [false, true] {
        for held in [2, 16, 32, 63] {
            let t = pending_table(n, held, chain);
            let what = if chain { "none applied (chain)" } else { "all applied" };
            row(&format!("n = {n}: handover, {held} pending, {what}"), |e| event(e, &t, &handover(1, 2)));
        }
    }
    row(&format!("n = {n}: file of 200 events, for each event"), |e| runs(e, std::slice::from_ref(&file)));
}

/// The worst cases of reports under way.
fn rows_under_way() {
    let (of_one, of_seven) = (under_way_run(1, 7, 1, by_log), under_way_run(1, 7, 7, in_a_circle));
    for (file, senders, applied, what) in [
        (&of_one, "one sender", 0, "none applied"),
        (&of_one, "one sender", 1, "one applied"),
        (&of_seven, "seven", 0, "none applied"),
        (&of_seven, "seven", MAX_MESSAGES, "all applied"),
    ] {
        let (table, record) = of_sixty_four(file, applied);
        row(&format!("n = 7: handover, 64 of {senders} pending, {what}"), |e| event(e, &table, &record));
    }
    let (table, record) = of_sixty_four(&of_seven, MAX_MESSAGES);
    row("n = 7: count of goes before, 64 pending", |e| count(e, &table, record[2] as usize));
    row("n = 7: 64 of one sender under way, 3,200 events, each", |e| runs(e, std::slice::from_ref(&of_one)));
    row("n = 7: 64 of seven under way, 3,200 events, each", |e| runs(e, std::slice::from_ref(&of_seven)));
    let files = random_files(1, Policy::under_way);
    row("a hundred random files with reports under way, each", |e| runs(e, &files));
}

fn rows_with_classes() {
    let fresh = to_table(&State::fresh(2, 7));
    let (dense, running) = dense_files(2);
    let (full, files) = (last_table(&running), random_files(2, Policy::one_by_one));
    row("version 2, n = 7: report, nothing pending", |e| event(e, &fresh, &classed_report(1, 5, 4)));
    row("version 2, n = 7: report refused by question 17", |e| event(e, &fresh, &classed_report(1, 5, 5)));
    row("version 2, n = 7: look at a full table", |e| mean(|| timed(|| e.look(&full, 1))));
    row("version 2, n = 7: densest run of 3,207 events, for each", |e| runs(e, std::slice::from_ref(&dense)));
    row("version 2: a hundred random files, for each event", |e| runs(e, &files));
}

fn rows_with_registers() {
    let fresh = to_table(&State::fresh(1, 7));
    let [synced, last, full] = [1, MAX_MESSAGES - 1, MAX_MESSAGES].map(|messages| to_table(&with_writes(messages).0));
    let (applying, handover) = applying_write();
    let file = file_of(1, 7, &with_writes(MAX_MESSAGES).1);
    row("n = 7: write after the first sync", |e| event(e, &synced, &write(1, 1, 1500)));
    row("n = 7: write as the 64th message", |e| event(e, &last, &write(1, 1, 1500)));
    row("n = 7: write refused by question 19", |e| event(e, &last, &write(1, 9, 1500)));
    row("n = 7: write refused by question 20, nothing sent", |e| event(e, &fresh, &write(1, 1, 1500)));
    row("n = 7: handover that applies a write, 64 messages", |e| event(e, &applying, &handover));
    row("n = 7: look at eight registers, 32 writes", |e| mean(|| timed(|| e.look(&full, 1))));
    row("n = 7: 32 syncs and 32 writes, 3,200 events, each", |e| runs(e, std::slice::from_ref(&file)));
}

/// The dispatcher beside the event call: "none"; a handover that is the next, and one for which the round goes through
/// all pairs; and the densest run that it drives to "none", with the same handovers as events.
fn rows_of_dispatcher() {
    let full = last_table(&dense_files(1).1);
    row("n = 7: dispatcher says none, full table", |e| dispatch(e, &full, Pair { receiver: 7, owner: 7 }));
    let (one, pair) = waiting_table(&full);
    let before = Pair { receiver: pair.receiver, owner: pair.owner - 1 };
    row("n = 7: dispatcher, next pair, full table", |e| dispatch(e, &one, before));
    row("n = 7: dispatcher, last of 49 pairs, full table", |e| dispatch(e, &one, pair));
    let record = handover(pair.receiver, pair.owner);
    row("n = 7: the same handover as an event", |e| event(e, &one, &record));
    let (sent, handovers) = sixty_four_sent();
    row("n = 7: 64 reports, dispatcher to none, each of 3,136", |e| driven(e, &sent));
    row("n = 7: the same handovers as single events, each", |e| events(e, &sent, &handovers));
}

/// Asks and commits beside the event call: of 2 and of 63 pending messages, all of which the handover applies, or none;
/// and on a full table, with the receiver's count and with another.
fn rows_of_previews() {
    let pair = Pair { receiver: 1, owner: 2 };
    for (held, chain) in [(2, false), (63, false), (63, true)] {
        let (t, what) = (pending_table(7, held, chain), if chain { "none applied (chain)" } else { "all applied" });
        let acts = act_count(&t, pair);
        row(&format!("n = 7: ask, {held} pending, {what}"), |e| ask(e, &t, pair));
        row(&format!("n = 7: commit, {held} pending, {what}"), |e| commit(e, &t, pair, acts));
        row("n = 7: the same handover as an event", |e| event(e, &t, &handover(1, 2)));
    }
    let (full, pair) = waiting_table(&last_table(&dense_files(1).1));
    let acts = act_count(&full, pair);
    row("n = 7: ask, full table of 64 messages", |e| ask(e, &full, pair));
    row("n = 7: commit, full table of 64 messages", |e| commit(e, &full, pair, acts));
    row("n = 7: commit refused by question 21, full table", |e| commit(e, &full, pair, acts + 1));
}

pub fn print() {
    println!(
        "nanoseconds for each call, the least of {ROUNDS} means of {CALLS}; scratch is dirty before each single call,
and a file run gets scratch and listing as the run before left them"
    );
    println!("{:<56} {:>12} {:>12} {:>8}", "", "library", "reference", "ratio");
    rows_of(3);
    rows_of(7);
    let (dense, running) = dense_files(1);
    let full = last_table(&running);
    row("n = 7: look at a full table of 64 messages", |e| mean(|| timed(|| e.look(&full, 1))));
    row("n = 7: count of goes before, full table of 64 messages", |e| count(e, &full, 1));
    row("n = 7: local read of a full table of 64 messages", |e| event(e, &full, &local_read(1)));
    let (syncing, last) = finishing_sync();
    row("n = 7: handover that finishes a sync, 64 messages", |e| event(e, &syncing, &last));
    row("n = 7: full table, a report refused by question 12", |e| event(e, &full, &report(1, 5)));
    row("n = 7: full table, a handover refused by question 13", |e| event(e, &full, &handover(1, 2)));
    row("n = 7: densest run of 3,207 events, for each", |e| runs(e, std::slice::from_ref(&dense)));
    row("n = 7: densest run as single events, for each", |e| single_events(e, &dense));
    let (files, reads) = (random_files(1, Policy::one_by_one), file_of_reads(7));
    row("a hundred random files of up to 300 events, for each", |e| runs(e, &files));
    row("n = 7: file of 21,844 local reads, for each", |e| runs(e, std::slice::from_ref(&reads)));
    rows_with_classes();
    rows_under_way();
    rows_with_registers();
    rows_of_dispatcher();
    rows_of_previews();
}
