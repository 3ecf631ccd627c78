//! The longest runs: every handover of 64 messages, and 64 messages under way at once. The benchmark takes its files
//! from here too.

use super::files::same_run;
use super::script::{expect, sums, Script};
use crate::cases::records::{file_of, handover, local_read, report_in, stop};
use crate::checks::demand3::Ledger;
use crate::engines::{Engine, Reference};
use crate::generate::runs::follow;
use crate::reference::{State, LISTING, MAX_MESSAGES, SCRATCH};

/// Seven controllers, 64 messages and every handover, and then a stop of each: 3,207 events, in either version.
pub fn dense_run(version: usize) -> Vec<u8> {
    let mut script = Script::fresh(&Reference, version, 7);
    let mut records = Vec::new();
    let mut accepted = |record: Vec<u8>| {
        let yes = script.refusal(record.clone()) == 0;
        if yes {
            records.push(record);
        }
        yes
    };
    let mut any = true;
    while any {
        any = false;
        for c in 1..=7 {
            any |= accepted(report_in(version, c, 1));
        }
        for receiver in 1..=7 {
            for owner in 1..=7 {
                while accepted(handover(receiver, owner)) {
                    any = true;
                }
            }
        }
    }
    for c in 1..=7 {
        accepted(stop(c, 64));
    }
    file_of(version, 7, &records)
}

/// In which order the pairs of receiver and log owner take turns.
pub type Turns = fn(usize) -> Vec<(usize, usize)>;

/// Each log is read to its end by all.
pub fn by_log(n: usize) -> Vec<(usize, usize)> {
    (1..=n).flat_map(|owner| (1..=n).map(move |receiver| (receiver, owner))).collect()
}

/// Each controller reads its own log, then all read the next one's, and so on: the logs' orders go round in a circle.
pub fn in_a_circle(n: usize) -> Vec<(usize, usize)> {
    (0..n).flat_map(|further| (0..n).map(move |r| (r + 1, (r + further) % n + 1))).collect()
}

/// 64 reports of a number of senders in turn, all sent before anything is handed over; then every handover, each pair's
/// in a row.
pub fn under_way_run(version: usize, n: usize, senders: usize, turns: Turns) -> Vec<u8> {
    let mut state = State::fresh(version, n);
    let mut records: Vec<Vec<u8>> = (0..MAX_MESSAGES).map(|k| report_in(version, 1 + k % senders, 1)).collect();
    records.iter().for_each(|record| assert_eq!(follow(&mut state, record, SCRATCH), 0));
    let mut any = true;
    while any {
        any = false;
        for (receiver, owner) in turns(n) {
            while follow(&mut state, &handover(receiver, owner), SCRATCH) == 0 {
                records.push(handover(receiver, owner));
                any = true;
            }
        }
    }
    file_of(version, n, &records)
}

/// The most that can be under way: 64 messages pending everywhere, of one sender, of seven, and in a circle, where none
/// can be applied before the others and a set has all 64. Each run is the reference's and keeps demand 3.
fn sixty_four_under_way(engine: &dyn Engine) -> Result<(), String> {
    let of_one = (1..=7).map(|n| (n, 1, by_log as Turns, n == 1));
    for (n, senders, turns, as_one) in of_one.chain([(7, 7, by_log as Turns, false), (7, 7, in_a_circle, true)]) {
        let file = under_way_run(1, n, senders, turns);
        let end = same_run(engine, &file, LISTING, SCRATCH, "64 messages under way")?;
        expect(end == (64 + 64 * n * n, 0), "64 messages under way: its events")?;
        let mut listing = vec![7; LISTING];
        let run = engine.run(&file, &mut listing, &mut [7; SCRATCH]);
        let ledger = Ledger::file(&file, run.events, &listing[..run.written]);
        expect(ledger.broken().is_none() && ledger.ended().len() == n, "64 messages under way: demand 3")?;
        let sizes =
            listing[..run.written].split(|byte| *byte == b'\n').map(|line| line.split(|b| *b == b'.').count() - 1);
        expect(!as_one || sizes.max() == Some(MAX_MESSAGES), "64 messages under way: applied as one")?;
        let mut last = Script { engine, table: run.table };
        let reads = (1..=n).all(|c| last.answer(&local_read(c), SCRATCH).sums == sums((64, 0)));
        expect(reads, "64 messages under way: local reads at the end")?;
    }
    Ok(())
}

pub fn check(engine: &dyn Engine) -> Result<(), String> {
    sixty_four_under_way(engine)
}
