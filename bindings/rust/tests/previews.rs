//! Ask and commit: the set that a handover would apply, the act count, the handover that a commit makes, and what both
//! refuse.

use furnacejade::{ask, calls, commit, count_before, event, fresh, look};
use furnacejade::{
    Answer, AskAnswer, Asked, Machine, Name, Pair, Record, Refusal, RefusalNumber, Sums, Table, MESSAGES, SCRATCH,
};
use std::mem::size_of;

const WORKED: &[u8] = include_bytes!("../../worked.run");

const fn report(sender: u8) -> Record {
    Record::Report { sender, amount: 5 }
}

const fn handover(receiver: u8, owner: u8) -> Record {
    Record::Handover { receiver, owner }
}

/// A table of version 1 after these records.
fn played(n: u8, records: &[Record]) -> Table {
    let (mut table, mut scratch) = (fresh(1, n).unwrap(), [0; SCRATCH]);
    for record in records {
        event(&mut table, &record.bytes(), &mut scratch).unwrap();
    }
    table
}

/// All pairs of n controllers, by receiver and then owner.
fn pairs(n: u8) -> impl Iterator<Item = Pair> {
    (1..=n).flat_map(move |receiver| (1..=n).map(move |owner| Pair::new(receiver, owner)))
}

/// The answers of the calls as they are, which overwrite dirty ones.
fn asked(table: &Table, pair: Pair, scratch: &mut [u8]) -> AskAnswer {
    let mut answer = AskAnswer { refusal: RefusalNumber(9), acts: 9, size: 9, names: [Name::new(9, 9); MESSAGES] };
    calls::ask(table, pair, scratch, &mut answer);
    answer
}

fn committed(table: &mut Table, of: Asked, scratch: &mut [u8]) -> Answer {
    let mut answer = Answer {
        refusal: RefusalNumber(9),
        finished: 9,
        sums: Sums { added: 9, withdrawn: 9 },
        size: 9,
        names: [Name::new(9, 9); MESSAGES],
    };
    calls::commit(table, of.pair, of.acts, scratch, &mut answer);
    answer
}

/// The ask is refused, and changes nothing that is lent.
fn assert_not_shown(table: &Table, pair: Pair, room: usize, refusal: Refusal) {
    let (lent, mut scratch) = (table.clone(), vec![7; room]);
    let blank = AskAnswer { refusal: refusal.into(), ..AskAnswer::BLANK };
    assert_eq!(asked(&lent, pair, &mut scratch), blank, "{pair:?} {room}");
    assert_eq!(ask(&lent, pair, &mut scratch), Err(refusal), "{pair:?} {room}");
    assert_eq!(lent.as_bytes(), table.as_bytes(), "{pair:?} {room}");
    assert!(scratch.iter().all(|byte| *byte == 7), "{pair:?} {room}");
}

/// The commit is refused, and changes nothing that is lent.
fn assert_not_taken(table: &Table, of: Asked, room: usize, refusal: Refusal) {
    let (mut lent, mut scratch) = (table.clone(), vec![7; room]);
    let blank = Answer { refusal: refusal.into(), ..Answer::BLANK };
    assert_eq!(committed(&mut lent, of, &mut scratch), blank, "{of:?} {room}");
    assert_eq!(commit(&mut lent, of, &mut scratch), Err(refusal), "{of:?} {room}");
    assert_eq!(lent.as_bytes(), table.as_bytes(), "{of:?} {room}");
    assert!(scratch.iter().all(|byte| *byte == 7), "{of:?} {room}");
}

/// The ask shows the set of the handover and this count, and the commit with it is the handover. Every other count is
/// refused by 21.
fn assert_taken(table: &Table, of: Asked) {
    for room in [SCRATCH, SCRATCH + 1] {
        let (mut taken, mut played) = (table.clone(), table.clone());
        let mut areas = [(); 3].map(|()| vec![7; room]);
        let (answer, _) = event(&mut played, &Record::from(of.pair).bytes(), &mut areas[0]).unwrap();
        let shown = AskAnswer { acts: of.acts, size: answer.size, names: answer.names, ..AskAnswer::BLANK };
        assert_eq!(asked(&taken, of.pair, &mut areas[1]), shown, "{of:?}");
        assert_eq!(taken.as_bytes(), table.as_bytes(), "{of:?}");
        assert_eq!(committed(&mut taken, of, &mut areas[2]), answer, "{of:?}");
        assert_eq!(taken.as_bytes(), played.as_bytes(), "{of:?}");
        assert!(areas[0] == areas[1] && areas[0] == areas[2], "{of:?}");
        let preview = ask(table, of.pair, &mut areas[1]).unwrap();
        assert_eq!((preview.asked, preview.set()), (of, answer.applied()));
        assert_eq!(commit(&mut table.clone(), of, &mut areas[2]), Ok(answer));
    }
    let others = [of.acts.wrapping_sub(1), of.acts + 1, of.acts + 256, of.acts + (1 << 32), usize::MAX];
    for acts in others.into_iter().chain((of.acts != 0).then_some(0)) {
        for room in [0, SCRATCH] {
            assert_not_taken(table, Asked { acts, ..of }, room, Refusal::ActCount);
        }
    }
    for room in [0, SCRATCH - 1] {
        assert_not_shown(table, of.pair, room, Refusal::Scratch);
        assert_not_taken(table, of, room, Refusal::Scratch);
    }
}

#[test]
fn every_handover_of_the_worked_run_is_shown_and_taken() {
    let (mut table, mut scratch) = (fresh(WORKED[0], WORKED[1]).unwrap(), [0; SCRATCH]);
    let (mut acts, mut applying) = ([0; 4], 0);
    for part in furnacejade::records(WORKED) {
        let record = part.record.unwrap();
        // The pair whose turn it is, and all the others that have an entry to read.
        for pair in pairs(3) {
            let unread = table.unread(u8::try_from(pair.receiver).unwrap(), u8::try_from(pair.owner).unwrap());
            let of = Asked { pair, acts: acts[pair.receiver] };
            match unread {
                0 => assert_not_taken(&table, of, SCRATCH, Refusal::NoEntry),
                _ => assert_taken(&table, of),
            }
        }
        match record {
            Record::Handover { receiver, .. } => acts[usize::from(receiver)] += 1,
            Record::Report { sender, .. } | Record::Sync { sender } => acts[usize::from(sender)] += 1,
            _ => panic!("{record:?}"),
        }
        applying += usize::from(!event(&mut table, part.bytes, &mut scratch).unwrap().0.applied().is_empty());
    }
    assert_eq!(applying, 4);
}

#[test]
fn what_others_do_in_between_changes_no_set_that_was_shown() {
    let mut machine = Machine::new(1, 3).unwrap();
    for record in [report(1), handover(2, 1)] {
        machine.play(record).unwrap();
    }
    let shown = machine.ask(Pair::new(1, 2)).unwrap();
    assert_eq!((shown.set(), shown.asked), (&[Name::new(1, 1)][..], Asked::new(1, 2, 1)));
    // 2 and 3 act on, and the receiver is looked at, counted and read. (A local read of it is refused: 1.1 is pending.)
    for record in [report(2), handover(3, 2), report(3), handover(2, 3), handover(2, 2), handover(3, 2)] {
        machine.play(record).unwrap();
    }
    assert_eq!(machine.play(Record::LocalRead { controller: 1 }), Err(Refusal::ReadPending));
    machine.look(1).unwrap();
    machine.count_before(1, Name::new(1, 1), Name::new(2, 2)).unwrap();
    machine.ask(Pair::new(1, 3)).unwrap();
    assert_eq!(machine.ask(Pair::new(1, 2)), Ok(shown.clone()));
    assert_eq!(machine.commit(shown.asked).unwrap().applied(), shown.set());
    assert_eq!(machine.commit(shown.asked), Err(Refusal::ActCount));
}

#[test]
fn each_act_of_the_receiver_makes_an_ask_old() {
    let records = [report(1), report(2), handover(2, 1)];
    let machine = Machine::from_table(played(2, &records)).unwrap();
    let shown = machine.ask(Pair::new(2, 1)).err();
    assert_eq!(shown, Some(Refusal::NoEntry));
    let asked = machine.ask(Pair::new(2, 2)).unwrap().asked;
    assert_eq!(asked, Asked::new(2, 2, 2));
    for (act, refusal) in [
        (report(2), Refusal::ActCount),
        (handover(2, 2), Refusal::ActCount),
        (Record::Stop { controller: 2, kept: 2 }, Refusal::Stopped),
        (Record::Stop { controller: 2, kept: 0 }, Refusal::Stopped),
    ] {
        let mut machine = machine.clone();
        machine.play(act).unwrap();
        let before = machine.clone();
        assert_eq!(machine.commit(asked), Err(refusal), "{act:?}");
        assert_eq!(machine, before);
    }
    // A handover by the dispatcher and one by a commit are acts as well.
    let mut dispatched = machine.clone();
    assert_eq!(dispatched.dispatch(Pair::new(2, 1)).unwrap().unwrap().pair, Pair::new(2, 2));
    assert_eq!(dispatched.commit(asked), Err(Refusal::ActCount));
    let mut twice = machine.clone();
    twice.commit(asked).unwrap();
    assert_eq!(twice.commit(asked), Err(Refusal::ActCount));
    assert_eq!(twice.ask(Pair::new(2, 2)).unwrap().asked.acts, asked.acts + 1);
}

#[test]
fn a_stop_of_the_owner_cuts_the_entry_away_or_keeps_it() {
    let machine = Machine::from_table(played(3, &[report(1), report(2)])).unwrap();
    let shown = machine.ask(Pair::new(3, 2)).unwrap();
    for (kept, refusal) in [(1, None), (0, Some(Refusal::NoEntry))] {
        let mut machine = machine.clone();
        machine.play(Record::Stop { controller: 2, kept }).unwrap();
        match refusal {
            None => assert_taken(machine.table(), shown.asked),
            Some(refusal) => {
                assert_not_shown(machine.table(), shown.asked.pair, SCRATCH, refusal);
                assert_not_taken(machine.table(), shown.asked, 0, refusal);
                assert_not_taken(machine.table(), Asked { acts: 1, ..shown.asked }, 0, Refusal::ActCount);
            }
        }
    }
    // What was cut off still counts as sent.
    let mut cut = machine.clone();
    cut.play(Record::Stop { controller: 1, kept: 0 }).unwrap();
    assert_eq!(cut.ask(Pair::new(2, 2)).unwrap().asked.acts, 1);
}

#[test]
fn one_count_takes_any_pair_of_the_receiver_and_the_set_is_that_of_the_pair() {
    let machine = Machine::from_table(played(3, &[report(1), handover(2, 1), report(3)])).unwrap();
    let (two, three) = (machine.ask(Pair::new(1, 2)).unwrap(), machine.ask(Pair::new(1, 3)).unwrap());
    assert_eq!(two.asked.acts, three.asked.acts);
    assert_eq!((two.set(), three.set()), (&[Name::new(1, 1)][..], &[][..]));
    for shown in [two, three] {
        assert_eq!(machine.clone().commit(shown.asked).unwrap().applied(), shown.set());
    }
}

#[test]
fn a_commit_finishes_a_sync_and_answers_it() {
    let mut machine = Machine::new(1, 1).unwrap();
    machine.play(report(1)).unwrap();
    machine.dispatch_to_end();
    machine.play(Record::LocalRead { controller: 1 }).unwrap();
    machine.play(Record::Sync { sender: 1 }).unwrap();
    let shown = machine.ask(Pair::new(1, 1)).unwrap();
    assert_eq!((shown.asked.acts, shown.set()), (3, &[Name::new(1, 2)][..]));
    assert_taken(machine.table(), shown.asked);
    let answer = machine.commit(shown.asked).unwrap();
    assert_eq!(answer.sync_answer(), Some(Sums { added: 5, withdrawn: 0 }));
    assert_eq!(machine.ask(Pair::new(1, 1)), Err(Refusal::NoEntry));
}

#[test]
fn the_questions_come_in_their_order() {
    let waits = played(3, &[report(1), report(2), report(3)]);
    let mut broken = waits.clone();
    broken.count = 65;
    let stopped = played(3, &[report(1), report(2), Record::Stop { controller: 2, kept: 1 }]);
    for room in [0, SCRATCH] {
        for acts in [0, 1, usize::MAX] {
            for stranger in [0, 4, 255, 256, 257, 1 << 32, usize::MAX] {
                for pair in [
                    Pair { receiver: stranger, owner: 1 },
                    Pair { receiver: 3, owner: stranger },
                    Pair { receiver: stranger, owner: stranger },
                ] {
                    for (table, refusal) in [(&waits, Refusal::Controller), (&broken, Refusal::Table)] {
                        assert_not_shown(table, pair, room, refusal);
                        assert_not_taken(table, Asked { pair, acts }, room, refusal);
                    }
                }
            }
            // 10 before 21 and 13: 2 has stopped, and there is nothing in log 3.
            for owner in [1, 2, 3] {
                assert_not_shown(&stopped, Pair::new(2, owner), room, Refusal::Stopped);
                assert_not_taken(&stopped, Asked::new(2, owner, acts), room, Refusal::Stopped);
            }
        }
        // 21 before 13 and 15, and 13 before 15.
        assert_not_taken(&stopped, Asked::new(1, 3, 0), room, Refusal::ActCount);
        assert_not_taken(&stopped, Asked::new(1, 3, 1), room, Refusal::NoEntry);
        assert_not_shown(&stopped, Pair::new(1, 3), room, Refusal::NoEntry);
    }
    for table in [&Table::BLANK, &Table::from_bytes(&[0xA5; size_of::<Table>()])] {
        assert_not_shown(table, Pair::new(1, 1), SCRATCH, Refusal::Table);
        assert_not_taken(table, Asked::new(1, 1, 0), SCRATCH, Refusal::Table);
    }
}

#[test]
fn a_machine_takes_what_was_asked_of_its_table() {
    let mut machine = Machine::from_table(played(3, &[report(1), handover(2, 1)])).unwrap();
    let mut copy = machine.table().clone();
    let shown = machine.ask(Pair::new(1, 2)).unwrap();
    assert_eq!(ask(&copy, Pair::new(1, 2), &mut [7; SCRATCH]), Ok(shown.clone()));
    assert_eq!(machine.commit(Asked::new(4, 2, 1)), Err(Refusal::Controller));
    assert_eq!(machine.commit(shown.asked), commit(&mut copy, shown.asked, &mut [7; SCRATCH]));
    assert_eq!((machine.table(), look(&copy, 1)), (&copy, machine.look(1)));
    let (one, two) = (Name::new(1, 1), Name::new(2, 1));
    assert_eq!(count_before(&copy, 1, one, two), machine.count_before(1, one, two));
    assert_eq!(Machine::from_table(copy).as_ref(), Ok(&machine));
}

#[test]
fn no_answer_made_by_hand_panics() {
    for size in [65, usize::MAX] {
        assert_eq!(AskAnswer { size, ..AskAnswer::BLANK }.set().len(), MESSAGES);
    }
    assert!(AskAnswer::BLANK.set().is_empty());
}
