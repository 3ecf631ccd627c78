//! Scratch: each call that is lent it is lent too little, enough and more, and every byte of it and around it is looked
//! at.

use furnacejade::{ask, commit, dispatch, event, fresh, head, run};
use furnacejade::{
    Asked, Class, ClassNumber, ForwardNumber, Machine, Pair, Record, Refusal, Table, CONTROLLERS, LISTING, MESSAGES,
    SCRATCH,
};
use std::fmt::Debug;

/// The lengths of scratch that are lent.
const ROOMS: [usize; 6] = [0, 1, SCRATCH - 1, SCRATCH, SCRATCH + 1, 4096];

/// The bytes on either side of the longest scratch.
const GUARD: usize = 61;

/// What a call does where scratch is long enough.
#[derive(Clone, Copy, Debug)]
struct Wanted {
    /// The refusal, if there is one.
    refusal: Option<Refusal>,
    /// Whether it leaves the first 64 bytes zero, or all bytes as they were.
    clears: bool,
}

const ACCEPTED: Wanted = Wanted { refusal: None, clears: true };

const fn refused(refusal: Refusal) -> Wanted {
    Wanted { refusal: Some(refusal), clears: false }
}

/// Lends the call scratch of each length, dirty and in the middle of dirty memory. With less than 64 bytes, question 15
/// refuses a call that would clear them. With 64 or more the same comes of the call, whatever they hold, and it clears
/// the first 64 or none. All other bytes stay, those of scratch and those around it.
///
/// The call is handed a copy of the table, and leaves there what it makes of it.
fn assert_lent<A: PartialEq + Debug>(
    what: &str,
    before: &Table,
    wanted: Wanted,
    call: impl Fn(&mut Table, &mut [u8]) -> Result<A, Refusal>,
) {
    let mut enough = before.clone();
    let answer = call(&mut enough, &mut [0; SCRATCH]);
    assert_eq!(answer.as_ref().err(), wanted.refusal.as_ref(), "{what}");
    for room in ROOMS {
        let little = wanted.clears && room < SCRATCH;
        let mut memory: Vec<u8> = (1..=255).cycle().take(GUARD + ROOMS[5] + GUARD).collect();
        let mut left = memory.clone();
        if wanted.clears && !little {
            left[GUARD..GUARD + SCRATCH].fill(0);
        }
        let mut table = before.clone();
        let found = call(&mut table, &mut memory[GUARD..GUARD + room]);
        if little {
            assert_eq!(found, Err(Refusal::Scratch), "{what}, lent {room}");
            assert_eq!(table.as_bytes(), before.as_bytes(), "{what}, lent {room}");
        } else {
            assert_eq!(found, answer, "{what}, lent {room}");
            assert_eq!(table.as_bytes(), enough.as_bytes(), "{what}, lent {room}");
        }
        let changed = memory.iter().zip(&left).position(|(found, wanted)| found != wanted);
        assert_eq!(changed, None, "{what}, lent {room}: a byte of memory, where scratch begins at {GUARD}");
    }
}

fn assert_event(table: &Table, record: Record, wanted: Wanted) {
    assert_lent(&format!("{record:?}"), table, wanted, |table, scratch| {
        event(table, &record.bytes(), scratch).map(|(answer, _)| answer)
    });
}

const fn report(sender: u8) -> Record {
    Record::Report { sender, amount: 5 }
}

const fn handover(receiver: u8, owner: u8) -> Record {
    Record::Handover { receiver, owner }
}

/// Of three controllers, 3 has applied its sync, 1 has a report pending that 2 has read, and 2 applies 3.1 when it
/// reads its own log.
fn some() -> Table {
    let mut machine = Machine::new(1, 3).unwrap();
    for record in [Record::Sync { sender: 3 }, handover(2, 3), handover(3, 2), report(1), handover(2, 1)] {
        machine.play(record).unwrap();
    }
    machine.into_table()
}

/// Seven controllers have 64 reports under way, and read the logs in a circle, so that the logs have them in seven
/// orders. Gives the first handover that applies something, which applies all 64, and two tables: the one before the
/// handover before it, which is of the same pair, and the one before it.
fn circle() -> (Pair, [Table; 2]) {
    let n = u8::try_from(CONTROLLERS).unwrap();
    let mut machine = Machine::new(1, n).unwrap();
    for sender in (1..=n).cycle().take(MESSAGES) {
        machine.play(report(sender)).unwrap();
    }
    let mut tables = [Table::BLANK, machine.table().clone()];
    for further in (0..n).cycle() {
        for reader in 0..n {
            let pair = Pair::new(reader + 1, (reader + further) % n + 1);
            while let Ok(answer) = machine.play(pair.into()) {
                if !answer.applied().is_empty() {
                    return (pair, tables);
                }
                tables = [tables[1].clone(), machine.table().clone()];
            }
        }
    }
    unreachable!("the reports are applied in the end");
}

/// A handover to a controller that has 64 messages pending, the table before it, and how many messages it applies.
struct Of64 {
    table: Table,
    pair: Pair,
    applied: usize,
}

/// Three handovers with 64 messages pending.
fn of_64() -> Vec<Of64> {
    // In the first table 63 messages have the marks of a majority then, and all 63 are taken out of the set.
    let (pair, [none, all]) = circle();
    // All but slots 5 and 63 go before both of these. Slot 63 lacks marks, and so takes slot 5 out, which has the marks
    // of a majority.
    let mut most = all.clone();
    let pending = &mut most.controllers[pair.receiver - 1].pending;
    for (mark, message) in (1..).zip(pending.iter_mut()) {
        message.marks = [ForwardNumber(mark); CONTROLLERS];
    }
    let (last, absent) = (ForwardNumber(64), ForwardNumber::ABSENT);
    pending[5].marks = [last, last, last, last, absent, absent, absent];
    pending[63].marks[3..].fill(absent);
    pending[63].marks[..3].fill(ForwardNumber(1));
    let of = |table, applied| Of64 { table, pair, applied };
    vec![of(none, 0), of(most, 62), of(all, 64)]
}

#[test]
fn an_event_clears_64_bytes_or_none() {
    let table = some();
    let write = |sender, register| Record::Write { sender, register, value: 1500 };
    for (record, wanted) in [
        (report(1), ACCEPTED),
        (Record::Report { sender: 1, amount: 361 }, refused(Refusal::Amount)),
        (Record::ClassedReport { sender: 1, amount: 5, class: Class::S.into() }, refused(Refusal::RecordLength)),
        (Record::Sync { sender: 2 }, ACCEPTED),
        (Record::Sync { sender: 1 }, refused(Refusal::OwnPending)),
        (handover(2, 2), ACCEPTED),
        (handover(2, 1), refused(Refusal::NoEntry)),
        (Record::Stop { controller: 1, kept: 1 }, ACCEPTED),
        (Record::Stop { controller: 1, kept: 0 }, refused(Refusal::Kept)),
        (Record::LocalRead { controller: 2 }, ACCEPTED),
        (Record::LocalRead { controller: 1 }, refused(Refusal::ReadPending)),
        (write(3, 8), ACCEPTED),
        (write(3, 9), refused(Refusal::Register)),
        (write(2, 8), refused(Refusal::NotSynced)),
    ] {
        assert_event(&table, record, wanted);
    }
    let classed = |class| Record::ClassedReport { sender: 1, amount: 5, class: ClassNumber(class) };
    assert_event(&fresh(2, 3).unwrap(), classed(4), ACCEPTED);
    assert_event(&fresh(2, 3).unwrap(), classed(5), refused(Refusal::Class));
    assert_event(&Table::BLANK, report(1), refused(Refusal::Table));
    for (bytes, refusal) in [(&[][..], Refusal::Record), (&[1, 9], Refusal::Kind), (&[1, 2], Refusal::RecordLength)] {
        assert_lent("no record", &table, refused(refusal), |table, scratch| {
            event(table, bytes, scratch).map(|(answer, _)| answer)
        });
    }
}

#[test]
fn the_dispatcher_clears_64_bytes_where_it_hands_over() {
    let named = |what, table: &Table, after, wanted| {
        assert_lent(what, table, wanted, |table, scratch| dispatch(table, after, scratch));
    };
    named("a handover", &some(), Pair::new(2, 1), ACCEPTED);
    named("after no controller", &some(), Pair::new(3, 4), refused(Refusal::Controller));
    named("none", &fresh(1, 3).unwrap(), Pair::new(3, 3), Wanted { refusal: None, clears: false });
    for Of64 { table, pair, applied } in of_64() {
        let after = Pair { owner: pair.owner - 1, ..pair };
        let handed = dispatch(&mut table.clone(), after, &mut [0; SCRATCH]).unwrap().unwrap();
        assert_eq!((handed.pair, handed.answer.size), (pair, applied));
        named("64 pending", &table, after, ACCEPTED);
    }
}

#[test]
fn an_ask_and_a_commit_clear_64_bytes_or_none() {
    let asked = |table: &Table, pair, wanted| {
        assert_lent("an ask", table, wanted, |table, scratch| ask(table, pair, scratch));
    };
    let committed = |table: &Table, of, wanted| {
        assert_lent("a commit", table, wanted, |table, scratch| commit(table, of, scratch));
    };
    asked(&some(), Pair::new(2, 2), ACCEPTED);
    asked(&some(), Pair::new(2, 1), refused(Refusal::NoEntry));
    committed(&some(), Asked::new(2, 2, 2), ACCEPTED);
    committed(&some(), Asked::new(2, 2, 3), refused(Refusal::ActCount));
    for Of64 { table, pair, applied } in of_64() {
        let shown = ask(&table, pair, &mut [0; SCRATCH]).unwrap();
        assert_eq!(shown.set().len(), applied);
        asked(&table, pair, ACCEPTED);
        committed(&table, shown.asked, ACCEPTED);
    }
}

#[test]
fn a_handover_with_64_messages_pending_needs_no_more() {
    for Of64 { table, pair, applied } in of_64() {
        let held = table.controllers[pair.receiver - 1].pending.iter().filter(|message| message.held != 0).count();
        let record = Record::from(pair);
        let (answer, _) = event(&mut table.clone(), &record.bytes(), &mut [0; SCRATCH]).unwrap();
        assert_eq!((held, answer.size), (MESSAGES, applied));
        assert_event(&table, record, ACCEPTED);
    }
}

#[test]
fn a_run_leaves_scratch_as_its_events_do() {
    let of =
        |records: &[Record]| [&head(1, 3)[..], &records.iter().flat_map(Record::bytes).collect::<Vec<_>>()].concat();
    let sent = [report(1), handover(2, 1), handover(1, 2)];
    let more = [Record::Stop { controller: 2, kept: 1 }, Record::Sync { sender: 3 }, handover(1, 3)];
    let after = |refusal| Wanted { refusal: Some(refusal), clears: true };
    for (what, file, room, wanted) in [
        ("several kinds", of(&[sent, more].concat()), LISTING, ACCEPTED),
        ("local reads", of(&[Record::LocalRead { controller: 1 }; 2]), 0, ACCEPTED),
        ("a record is refused after others", of(&[report(1), report(4)]), LISTING, after(Refusal::Controller)),
        ("the bytes end in a record", of(&sent)[..12].to_vec(), LISTING, after(Refusal::Record)),
        ("no listing", of(&sent), 0, after(Refusal::Listing)),
        ("the first record is refused", of(&[report(4), report(1)]), LISTING, refused(Refusal::Controller)),
        ("no records", of(&[]), LISTING, Wanted { refusal: None, clears: false }),
        ("one byte", vec![1], LISTING, refused(Refusal::FileLength)),
        ("version 3", vec![3, 3], LISTING, refused(Refusal::Version)),
        ("eight controllers", vec![1, 8], LISTING, refused(Refusal::ControllerCount)),
    ] {
        assert_lent(what, &fresh(1, 3).unwrap(), wanted, |table, scratch| {
            let mut listing = vec![7; room];
            let answer = run(&file, &mut listing, scratch);
            *table = answer.table.clone();
            answer.refusal.check().map(|()| (answer, listing))
        });
    }
}
