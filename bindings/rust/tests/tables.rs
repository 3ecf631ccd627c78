//! What a table says, of runs and of tables and answers that were made by hand, and the machine that owns one.

use furnacejade::{count_before, event, fresh, look};
use furnacejade::{
    Answer, ClassNumber, Machine, Name, Record, Refusal, RefusalNumber, State, Sums, Table, CONTROLLERS, MESSAGES,
    SCRATCH,
};

/// A machine of version 1 after these records.
fn played(n: u8, records: &[Record]) -> Machine {
    let mut machine = Machine::new(1, n).unwrap();
    for record in records {
        machine.play(*record).unwrap();
    }
    machine
}

const fn report(sender: u8) -> Record {
    Record::Report { sender, amount: 5 }
}

const fn handover(receiver: u8, owner: u8) -> Record {
    Record::Handover { receiver, owner }
}

#[test]
fn the_latest_message_is_the_one_just_sent() {
    let mut machine = Machine::new(1, 2).unwrap();
    assert_eq!(machine.table().latest(1), None);
    // Log 2 has forwarded 1.1 before its owner sends: the first message of 2 is 2.2.
    for (record, sent) in [
        (report(1), Name::new(1, 1)),
        (handover(2, 1), Name::new(1, 1)),
        (report(2), Name::new(2, 2)),
        (report(2), Name::new(2, 3)),
        (report(1), Name::new(1, 2)),
    ] {
        machine.play(record).unwrap();
        assert_eq!(machine.table().latest(sent.sender), Some(sent), "{record:?}");
    }
    for sender in [0, 3, 7, 8, 255] {
        assert_eq!(machine.table().latest(sender), None);
    }
}

#[test]
fn a_message_is_unknown_then_pending_then_applied() {
    let mut machine = played(3, &[report(1)]);
    let sent = machine.table().latest(1).unwrap();
    for (record, states) in [
        (handover(1, 1), [State::Pending, State::Unknown, State::Unknown]),
        (handover(2, 1), [State::Pending, State::Pending, State::Unknown]),
        (handover(1, 2), [State::Applied, State::Pending, State::Unknown]),
        (handover(2, 2), [State::Applied, State::Applied, State::Unknown]),
    ] {
        machine.play(record).unwrap();
        assert_eq!([1, 2, 3].map(|c| machine.table().state(c, sent)), states, "{record:?}");
    }
    // A stop that keeps the entry cuts nothing off.
    machine.play(Record::Stop { controller: 1, kept: 1 }).unwrap();
    assert_eq!([0, 1, 2, 3, 4].map(|c| machine.table().state(c, sent)), {
        [State::Unknown, State::Applied, State::Applied, State::Unknown, State::Unknown]
    });
    for name in [Name::new(1, 2), Name::new(2, 1), Name::new(0, 0), Name::new(255, 255)] {
        assert_eq!(machine.table().state(1, name), State::Unknown);
    }
}

#[test]
fn what_a_stop_cuts_off_is_cut_off_everywhere() {
    let mut machine = played(2, &[report(1), report(1), handover(2, 1)]);
    machine.play(Record::Stop { controller: 1, kept: 1 }).unwrap();
    assert_eq!([1, 2].map(|c| machine.table().state(c, Name::new(1, 1))), [State::Pending; 2]);
    assert_eq!([1, 2].map(|c| machine.table().state(c, Name::new(1, 2))), [State::CutOff; 2]);
    // Where the sender is the only controller, it can have applied what a stop then cuts off.
    let mut alone = played(1, &[report(1), report(1), handover(1, 1)]);
    alone.play(Record::Stop { controller: 1, kept: 1 }).unwrap();
    assert_eq!([1, 2].map(|number| alone.table().state(1, Name::new(1, number))), [State::Applied; 2]);
}

#[test]
fn unread_entries_and_lengths_to_keep_follow_the_read_positions() {
    let machine = played(2, &[report(1), report(1), report(1), handover(2, 1), handover(2, 1), handover(1, 1)]);
    let table = machine.table();
    assert_eq!((table.unread(1, 1), table.unread(2, 1), table.unread(1, 2)), (2, 1, 2));
    assert_eq!((table.kept(1), table.kept(2)), (Some(2..=3), Some(0..=2)));
    for (kept, refusal) in [(1, Some(Refusal::Kept)), (2, None), (3, None), (4, Some(Refusal::Kept))] {
        assert_eq!(machine.clone().play(Record::Stop { controller: 1, kept }).err(), refusal);
    }
    for other in [0, 3, 8, 255] {
        assert_eq!((table.unread(other, 1), table.unread(1, other)), (0, 0));
        assert_eq!((table.kept(other), table.runs(other)), (None, false));
    }
}

#[test]
fn a_controller_runs_until_it_stops() {
    let mut machine = played(2, &[]);
    assert_eq!([1, 2].map(|c| machine.table().runs(c)), [true, true]);
    machine.play(Record::Stop { controller: 2, kept: 0 }).unwrap();
    assert_eq!([1, 2].map(|c| machine.table().runs(c)), [true, false]);
    assert_eq!(machine.table().kept(2), Some(0..=0));
}

/// Asks a table everything, of controllers and names inside and outside of it.
fn ask_all(table: &Table) {
    assert!(table.controller_numbers().len() <= CONTROLLERS);
    let mut names: Vec<Name> =
        table.messages.iter().map(|message| Name { sender: message.sender, number: message.number }).collect();
    names.extend([Name::BLANK, Name::new(1, 1), Name::new(8, 64), Name::new(255, 255)]);
    for c in 0..=255 {
        let (latest, kept, runs) = (table.latest(c), table.kept(c), table.runs(c));
        if !table.controller_numbers().contains(&c) {
            assert_eq!((latest, &kept, runs), (None, &None, false));
        }
        assert_eq!(kept.is_some(), table.controller_numbers().contains(&c));
        for other in [0, 1, 7, 8, 255] {
            let longest = table.kept(other).map_or(0, |kept| usize::from(*kept.end()));
            assert!(table.unread(c, other) <= longest || longest == usize::from(u16::MAX));
        }
        for name in &names {
            let _ = table.state(c, *name);
        }
    }
}

#[test]
fn no_table_made_by_hand_panics() {
    let mut table = played(7, &[report(1), handover(2, 1), report(2)]).into_table();
    ask_all(&table);
    table.n = 99;
    ask_all(&table);
    assert_eq!(table.controller_numbers(), 1..=7);
    table.count = 500;
    ask_all(&table);
    for controller in &mut table.controllers {
        controller.log = [200; MESSAGES];
        controller.length = usize::MAX;
        controller.read = [9999; CONTROLLERS];
        controller.running = 77;
    }
    table.messages[3].payload.class = ClassNumber(77);
    table.messages[4].sender = 200;
    ask_all(&table);
    for controller in &mut table.controllers {
        controller.length = 0;
        controller.running = 0;
    }
    ask_all(&table);
    assert!(table.kept(1).unwrap().is_empty());
    assert_eq!(look(&table, 1), Err(Refusal::Table));
    assert_eq!(Machine::from_table(table).err(), Some(Refusal::Table));
    for byte in [0, 1, 2, 7, 64, 127, 128, 255] {
        ask_all(&Table::from_bytes(&[byte; size_of::<Table>()]));
    }
    assert_eq!(Table::BLANK.controller_numbers().count(), 0);
}

#[test]
fn no_answer_made_by_hand_panics() {
    for size in [0, 64, 65, 9999, usize::MAX] {
        let answer = Answer { size, refusal: RefusalNumber(99), finished: 200, ..Answer::BLANK };
        assert_eq!(answer.applied().len(), size.min(MESSAGES));
        assert_eq!(answer.sync_answer(), Some(Sums::BLANK));
        assert_eq!(answer.refusal.check().unwrap_err().number(), 99);
    }
}

#[test]
fn a_machine_does_what_the_calls_over_lent_memory_do() {
    let records =
        [report(1), handover(2, 1), handover(1, 2), Record::Sync { sender: 2 }, Record::LocalRead { controller: 1 }];
    let (mut table, mut scratch, mut machine) = (fresh(1, 3).unwrap(), [7; SCRATCH], Machine::new(1, 3).unwrap());
    assert_eq!((machine.table(), machine.controllers()), (&table, 1..=3));
    for record in records {
        let bytes = record.bytes();
        let (answer, rest) = event(&mut table, &bytes, &mut scratch).unwrap();
        assert_eq!((machine.play(record), rest), (Ok(answer), &[][..]));
        assert_eq!(machine.table(), &table);
    }
    for c in 0..=4 {
        assert_eq!(machine.look(c), look(&table, c));
        let (one, other) = (Name::new(1, 1), Name::new(2, 2));
        assert_eq!(machine.count_before(c, one, other), count_before(&table, c, one, other));
    }
    let before = machine.clone();
    assert_eq!(machine.play(report(4)), Err(Refusal::Controller));
    assert_eq!(machine.play(handover(3, 3)), Err(Refusal::NoEntry));
    assert_eq!(machine, before);
    assert_eq!(Machine::from_table(machine.into_table()), Ok(before));
}

#[test]
fn a_machine_is_refused_as_its_table_is() {
    for (version, n, refusal) in [
        (0, 3, Refusal::Version),
        (3, 8, Refusal::Version),
        (1, 0, Refusal::ControllerCount),
        (2, 8, Refusal::ControllerCount),
    ] {
        assert_eq!(Machine::new(version, n).err(), Some(refusal));
    }
    assert_eq!(Machine::from_table(Table::BLANK).err(), Some(Refusal::Table));
}
