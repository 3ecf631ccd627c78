//! The dispatcher: whose turn it is, the handover that it makes, "none", and what it refuses.

use furnacejade::{calls, dispatch, event, fresh, look};
use furnacejade::{
    Answer, Class, DispatchAnswer, Machine, Name, Pair, Record, Refusal, RefusalNumber, Sums, Table, CONTROLLERS,
    MESSAGES, SCRATCH,
};
use std::mem::size_of;

/// The most handovers of a run: each of 7 controllers reads each of 7 logs, which has 64 entries.
const MOST: usize = CONTROLLERS * CONTROLLERS * MESSAGES;

const fn report(sender: u8) -> Record {
    Record::Report { sender, amount: 5 }
}

const fn handover(receiver: u8, owner: u8) -> Record {
    Record::Handover { receiver, owner }
}

/// A table of version 1 after these records.
fn played(n: u8, records: &[Record]) -> Table {
    let (mut table, mut scratch) = (fresh(1, n).unwrap(), [0; SCRATCH]);
    for record in records {
        event(&mut table, &record.bytes(), &mut scratch).unwrap();
    }
    table
}

/// Controllers 1 to n have sent a report each, and nobody has read anything.
fn reported(n: u8) -> Table {
    played(n, &(1..=n).map(report).collect::<Vec<_>>())
}

/// All pairs of n controllers, by receiver and then owner.
fn round(n: u8) -> Vec<Pair> {
    (1..=n).flat_map(|receiver| (1..=n).map(move |owner| Pair::new(receiver, owner))).collect()
}

/// An answer with every field set.
fn dirty() -> DispatchAnswer {
    let answer = Answer {
        refusal: RefusalNumber(9),
        finished: 9,
        sums: Sums { added: 9, withdrawn: 9 },
        size: 9,
        names: [Name::new(9, 9); MESSAGES],
    };
    DispatchAnswer { pair: Pair { receiver: 9, owner: 9 }, answer }
}

/// The answer of the call as it is, which overwrites a dirty one.
fn answered(table: &mut Table, after: Pair, scratch: &mut [u8]) -> DispatchAnswer {
    let mut answer = dirty();
    calls::dispatch(table, after, scratch, &mut answer);
    answer
}

/// The call makes no handover, with this number, and changes nothing that is lent.
fn assert_unserved(table: &Table, after: Pair, room: usize, refusal: Option<Refusal>) {
    let (mut lent, mut scratch) = (table.clone(), vec![7; room]);
    let number = refusal.map_or(RefusalNumber::ACCEPTED, RefusalNumber::from);
    let blank = Answer { refusal: number, ..Answer::BLANK };
    let wanted = DispatchAnswer { pair: Pair::BLANK, answer: blank };
    assert_eq!(answered(&mut lent, after, &mut scratch), wanted, "{after:?} {room}");
    assert_eq!(dispatch(&mut lent, after, &mut scratch), refusal.map_or(Ok(None), Err), "{after:?} {room}");
    assert_eq!(lent.as_bytes(), table.as_bytes(), "{after:?} {room}");
    assert!(scratch.iter().all(|byte| *byte == 7), "{after:?} {room}");
}

/// The call makes this handover. Table, answer and scratch are those of its record.
fn assert_served(table: &Table, after: Pair, pair: Pair) {
    for room in [SCRATCH, SCRATCH + 1] {
        let (mut dispatched, mut played) = (table.clone(), table.clone());
        let (mut area, mut other) = (vec![7; room], vec![7; room]);
        let bytes = Record::from(pair).bytes();
        let (answer, rest) = event(&mut played, &bytes, &mut other).unwrap();
        assert!(rest.is_empty());
        let wanted = DispatchAnswer { pair, answer };
        assert_eq!(answered(&mut dispatched, after, &mut area), wanted, "{after:?}");
        assert_eq!((dispatched.as_bytes(), &area), (played.as_bytes(), &other), "{after:?}");
        assert_eq!(dispatch(&mut table.clone(), after, &mut area), Ok(Some(wanted)), "{after:?}");
    }
}

#[test]
fn every_pair_comes_after_the_one_before_it() {
    for n in [1, 2, 3, 7] {
        let (table, pairs) = (reported(n), round(n));
        assert_eq!(table.end_of_round(), *pairs.last().unwrap());
        for (k, pair) in pairs.iter().enumerate() {
            assert_served(&table, *pair, pairs[(k + 1) % pairs.len()]);
        }
    }
}

#[test]
fn the_only_entry_that_waits_is_found_from_every_pair_its_own_too() {
    // All have read the report in every log, but for 3, which has it from log 1 and has not read it in log 2.
    let readers = [(1, 2), (2, 2), (1, 1), (2, 1), (3, 1), (3, 3), (1, 3), (2, 3)];
    let records = [report(2)].into_iter().chain(readers.map(|(receiver, owner)| handover(receiver, owner)));
    let table = played(3, &records.collect::<Vec<_>>());
    for pair in round(3) {
        assert_served(&table, pair, Pair::new(3, 2));
        assert_unserved(&table, pair, SCRATCH - 1, Some(Refusal::Scratch));
        assert_unserved(&table, pair, 0, Some(Refusal::Scratch));
    }
}

#[test]
fn none_is_said_with_any_scratch() {
    let mut machine = Machine::from_table(reported(3)).unwrap();
    assert_eq!(machine.dispatch_to_end(), 27);
    let (three, seven) = (fresh(1, 3).unwrap(), fresh(2, 7).unwrap());
    for (n, table) in [(3, &three), (7, &seven), (3, machine.table())] {
        for pair in round(n) {
            for room in [0, 1, SCRATCH - 1, SCRATCH, SCRATCH + 1] {
                assert_unserved(table, pair, room, None);
            }
        }
    }
}

#[test]
fn both_numbers_of_the_pair_named_are_asked_about_also_where_nothing_waits() {
    let waits = reported(3);
    let mut broken = waits.clone();
    broken.count = 65;
    for table in [&waits, &fresh(1, 3).unwrap()] {
        for stranger in [0, 4, 255, 256, 257, 1 << 32, usize::MAX] {
            for room in [0, SCRATCH] {
                let refused = Some(Refusal::Controller);
                assert_unserved(table, Pair { receiver: stranger, owner: 1 }, room, refused);
                assert_unserved(table, Pair { receiver: 3, owner: stranger }, room, refused);
                assert_unserved(table, Pair { receiver: stranger, owner: stranger }, room, refused);
            }
        }
    }
    for pair in [Pair::BLANK, Pair::new(3, 3), Pair::new(4, 1), Pair::new(1, 255)] {
        for table in [&broken, &Table::BLANK, &Table::from_bytes(&[0xA5; size_of::<Table>()])] {
            assert_unserved(table, pair, 0, Some(Refusal::Table));
            assert_unserved(table, pair, SCRATCH, Some(Refusal::Table));
        }
    }
    // What is no controller of three is one of seven.
    assert_served(&reported(7), Pair::new(4, 1), Pair::new(4, 2));
    assert_unserved(&reported(7), Pair::new(8, 1), SCRATCH, Some(Refusal::Controller));
    assert_served(&reported(7), Pair::new(7, 7), Pair::new(1, 1));
}

#[test]
fn a_stopped_receiver_is_passed_over_and_a_stopped_owner_is_read() {
    let records = [report(1), report(2), report(3), Record::Stop { controller: 2, kept: 1 }];
    let table = played(3, &records);
    for (after, next) in [((3, 3), (1, 1)), ((1, 1), (1, 2)), ((1, 3), (3, 1)), ((2, 2), (3, 1)), ((3, 1), (3, 2))] {
        assert_served(&table, Pair::new(after.0, after.1), Pair::new(next.0, next.1));
    }
    // What the stop cut off waits for nobody.
    let cut = played(3, &[&records[..3], &[Record::Stop { controller: 2, kept: 0 }]].concat());
    assert_served(&cut, Pair::new(1, 1), Pair::new(1, 3));
    assert_served(&cut, Pair::new(3, 1), Pair::new(3, 3));
    // Where all have stopped nothing waits.
    let mut machine = Machine::from_table(cut).unwrap();
    for controller in [1, 3] {
        machine.play(Record::Stop { controller, kept: 1 }).unwrap();
    }
    assert_eq!(machine.dispatch(Pair::new(1, 1)), Ok(None));
}

#[test]
fn a_handover_finishes_a_sync_and_answers_it() {
    for (version, own) in [(1, report(1)), (2, Record::ClassedReport { sender: 1, amount: 5, class: Class::M.into() })]
    {
        let mut machine = Machine::new(version, 1).unwrap();
        machine.play(own).unwrap();
        assert_eq!(machine.dispatch_to_end(), 1);
        machine.play(Record::Sync { sender: 1 }).unwrap();
        let pair = Pair::new(1, 1);
        assert_served(machine.table(), pair, pair);
        let handed = machine.dispatch(pair).unwrap().unwrap();
        assert_eq!((handed.pair, handed.served()), (pair, Some(pair)));
        assert_eq!(handed.answer.applied(), [Name::new(1, 2)]);
        assert_eq!(handed.answer.sync_answer(), Some(Sums { added: 5, withdrawn: 0 }));
        assert_eq!(machine.dispatch(pair), Ok(None));
    }
}

#[test]
fn a_machine_goes_round_from_the_pair_that_it_is_told() {
    let mut machine = Machine::from_table(reported(3)).unwrap();
    assert_eq!(machine.end_of_round(), Pair::new(3, 3));
    let mut copy = machine.table().clone();
    let mut last = machine.end_of_round();
    let mut served = vec![];
    while let Some(handed) = machine.dispatch(last).unwrap() {
        assert_eq!(dispatch(&mut copy, last, &mut [0; SCRATCH]), Ok(Some(handed.clone())));
        assert_eq!(copy, *machine.table());
        last = handed.pair;
        served.push(last);
    }
    // Three messages are read in three logs by three controllers.
    assert_eq!(served.len(), 27);
    assert_eq!(&served[..3], [Pair::new(1, 1), Pair::new(1, 2), Pair::new(1, 3)]);
    let whole = Sums { added: 15, withdrawn: 0 };
    assert!(machine.controllers().all(|c| machine.look(c).unwrap().sums == whole));
    assert_eq!(machine.dispatch(Pair::BLANK), Err(Refusal::Controller));
    assert_eq!(machine.dispatch(Pair::new(4, 1)), Err(Refusal::Controller));
    assert_eq!(Machine::from_table(copy).as_ref(), Ok(&machine));
}

#[test]
fn to_the_end_every_pair_is_served_in_its_turn() {
    // With two reports of each, it shows in the logs whether 1 read those of 2 one after the other or in turn with 3's.
    let records = [report(1), report(2), report(3)].repeat(2);
    let (mut one_by_one, mut at_once) = (played(3, &records), Machine::from_table(played(3, &records)).unwrap());
    let (mut last, mut handovers) = (one_by_one.end_of_round(), 0);
    while let Some(handed) = dispatch(&mut one_by_one, last, &mut [0; SCRATCH]).unwrap() {
        last = handed.pair;
        handovers += 1;
    }
    assert_eq!((at_once.dispatch_to_end(), at_once.table()), (handovers, &one_by_one));
    assert_eq!(handovers, 54);
    let log: Vec<Name> = one_by_one.controllers[0].log[..6]
        .iter()
        .map(|slot| one_by_one.messages[usize::from(*slot)])
        .map(|message| Name { sender: message.sender, number: message.number })
        .collect();
    assert_eq!(log, [(1, 1), (1, 2), (2, 1), (3, 1), (2, 2), (3, 2)].map(|(sender, number)| Name::new(sender, number)));
}

#[test]
fn no_pair_waits_longer_than_a_round_while_others_get_more() {
    let (mut machine, n) = (Machine::from_table(reported(5)).unwrap(), 5);
    let first = machine.table().clone();
    let mut last = machine.end_of_round();
    for turn in 0..n * n {
        last = machine.dispatch(last).unwrap().expect("an entry waits").pair;
        // Lane 1 reports on, so that the first pairs of a round always have an entry to read.
        if turn % 3 == 0 {
            machine.play(report(1)).unwrap();
        }
    }
    for pair in round(5) {
        let (reader, log) = (pair.receiver - 1, pair.owner - 1);
        let before = first.controllers[reader].read[log];
        assert!(machine.table().controllers[reader].read[log] > before, "{pair:?}");
    }
}

#[test]
fn a_full_run_comes_to_none_in_3_136_handovers() {
    assert_eq!(MOST, 3_136);
    let records: Vec<_> = (0..64).map(|message| report(message % 7 + 1)).collect();
    let mut machine = Machine::from_table(played(7, &records)).unwrap();
    let mut copy = machine.table().clone();
    assert_eq!(machine.dispatch_to_end(), MOST);
    assert_eq!(machine.dispatch_to_end(), 0);
    for c in machine.controllers() {
        assert_eq!(machine.look(c).unwrap().sums, Sums { added: 64 * 5, withdrawn: 0 });
        assert!(machine.controllers().all(|owner| machine.table().unread(c, owner) == 0));
    }
    // From any other pair there are as many, and the panels show the same.
    let mut last = Pair::new(4, 2);
    let mut handovers = 0;
    while let Some(handed) = dispatch(&mut copy, last, &mut [0; SCRATCH]).unwrap() {
        last = handed.pair;
        handovers += 1;
    }
    assert_eq!((handovers, look(&copy, 7)), (MOST, machine.look(7)));
}

#[test]
fn a_pair_is_a_handover() {
    assert_eq!(Record::from(Pair::new(2, 1)), handover(2, 1));
    assert_eq!(Record::from(Pair { receiver: 256, owner: 255 }), handover(255, 255));
    assert_eq!(Record::from(Pair { receiver: 257, owner: usize::MAX }), handover(255, 255));
    assert_eq!(Pair::new(255, 0), Pair { receiver: 255, owner: 0 });
    assert!(Pair::new(1, 7) < Pair::new(2, 1) && Pair::new(2, 1) < Pair::new(2, 2));
    assert_eq!((DispatchAnswer::BLANK.served(), dirty().served()), (None, Some(Pair { receiver: 9, owner: 9 })));
    assert_eq!(Table::BLANK.end_of_round(), Pair::BLANK);
}
