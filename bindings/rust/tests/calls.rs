//! The calls as a user makes them: the worked run, a run with classes, one with reports under way, one with a set
//! point, one with a stale read, the count of "goes before", and what a refusal leaves.

use furnacejade::{ask, calls, commit, count_before, event, fresh, head, look, run};
use furnacejade::{
    Answer, Asked, Class, ClassNumber, CountAnswer, FreshAnswer, LookAnswer, MessageNumber, Name, Pair, Panel, Payload,
    Record, Refusal, RefusalNumber, Register, RunAnswer, Stamp, Sums, Table, INTERFACE, REGISTERS, SCRATCH,
};
use std::mem::size_of;

const WORKED: &[u8] = include_bytes!("../../worked.run");
const CLASSES: &[u8] = include_bytes!("../../classes.run");
const UNDERWAY: &[u8] = include_bytes!("../../underway.run");
const SETTINGS: &[u8] = include_bytes!("../../settings.run");
const READING: &[u8] = include_bytes!("../../reading.run");

/// A run file of these records.
fn file_of(version: u8, n: u8, records: &[Record]) -> Vec<u8> {
    head(version, n).into_iter().chain(records.iter().flat_map(Record::bytes)).collect()
}

fn sums(added: u32, withdrawn: u32) -> Sums {
    Sums { added, withdrawn }
}

/// A panel by what was added and withdrawn, of the whole and of each class, with no register written.
fn panel(whole: (u32, u32), classes: [(u32, u32); 5]) -> Panel {
    let classes = classes.map(|(added, withdrawn)| sums(added, withdrawn));
    Panel { sums: sums(whole.0, whole.1), classes, ..Panel::BLANK }
}

fn register(value: u32, date: u16, writer: u16) -> Register {
    Register { value, stamp: Stamp { date, writer } }
}

/// A report of controller 1 as a table of this version takes it.
fn report_in(version: u8, amount: i16, class: Class) -> Record {
    match version {
        1 => Record::Report { sender: 1, amount },
        _ => Record::ClassedReport { sender: 1, amount, class: class.into() },
    }
}

/// Controller 1 reads the next entry of its own log.
const OWN_ENTRY: Record = Record::Handover { receiver: 1, owner: 1 };

/// The table and the answers of a file's records, carried out one by one.
fn events_of(file: &[u8]) -> (Table, Vec<Answer>) {
    let (mut table, mut scratch) = (fresh(file[0], file[1]).unwrap(), [0; SCRATCH]);
    let (mut rest, mut answers) = (&file[2..], vec![]);
    while !rest.is_empty() {
        let (answer, left) = event(&mut table, rest, &mut scratch).unwrap();
        answers.push(answer);
        rest = left;
    }
    (table, answers)
}

#[test]
fn a_file_and_its_events_end_in_the_same_table() {
    let (mut listing, mut scratch) = ([0; 256], [7; SCRATCH]);
    let answer = run(WORKED, &mut listing, &mut scratch);
    assert_eq!((answer.refusal, answer.events), (RefusalNumber::ACCEPTED, 11));
    let (table, answers) = events_of(WORKED);
    let sets: Vec<Name> = answers.iter().flat_map(|answer| answer.applied().to_vec()).collect();
    assert_eq!(sets, [Name::new(1, 1), Name::new(1, 1), Name::new(3, 1), Name::new(1, 1), Name::new(3, 1)]);
    assert_eq!(table, answer.table);
    assert_eq!(look(&table, 2), Ok(panel((30, 2), [(30, 2), (0, 0), (0, 0), (0, 0), (0, 0)])));
    assert_eq!(&listing[..answer.written], b"4 1 30 0 1.1\n7 2 30 0 1.1\n8 2 30 2 3.1\n11 3 30 2 1.1 3.1\n");
}

#[test]
fn a_panel_shows_each_class() {
    let (mut listing, mut scratch) = ([0; 256], [0; SCRATCH]);
    let answer = run(CLASSES, &mut listing, &mut scratch);
    assert_eq!((answer.refusal, answer.events), (RefusalNumber::ACCEPTED, 15));
    let (table, answers) = events_of(CLASSES);
    assert_eq!((table.version, answers.len()), (2, 15));
    assert_eq!(table, answer.table);
    let classes: Vec<_> = table.messages[..3].iter().map(|message| message.payload.class.class()).collect();
    assert_eq!(classes, [Class::Xl, Class::M, Class::S].map(Some));
    for c in 1..=2 {
        let shown = look(&table, c).unwrap();
        assert_eq!(shown, panel((42, 2), [(0, 0), (30, 0), (0, 0), (12, 0), (0, 2)]));
        assert_eq!((shown.of(Class::M), shown.of(Class::S)), (sums(12, 0), sums(0, 2)));
    }
    assert_eq!(&listing[..answer.written], b"7 1 42 0 1.1 2.1\n10 2 42 0 1.1 2.1\n13 2 42 2 2.3\n14 1 42 2 2.3\n");
}

#[test]
fn a_class_shows_what_was_added_and_what_was_withdrawn() {
    for (version, classes) in
        [(1, [(30, 19), (0, 0), (0, 0), (0, 0), (0, 0)]), (2, [(0, 0), (0, 0), (0, 0), (30, 12), (0, 7)])]
    {
        let reports = [(30, Class::M), (-12, Class::M), (-7, Class::S)];
        let records = [&reports.map(|(amount, class)| report_in(version, amount, class))[..], &[OWN_ENTRY]].concat();
        let (table, _) = events_of(&file_of(version, 1, &records));
        assert_eq!(look(&table, 1), Ok(panel((30, 19), classes)));
    }
}

#[test]
fn two_reports_of_one_sender_are_under_way_at_once() {
    let (mut listing, mut scratch) = ([0; 256], [7; SCRATCH]);
    let answer = run(UNDERWAY, &mut listing, &mut scratch);
    assert_eq!((answer.refusal, answer.events), (RefusalNumber::ACCEPTED, 13));
    assert_eq!(&listing[..answer.written], b"4 2 30 0 1.1\n7 1 30 0 1.1\n8 1 50 0 1.2\n12 3 30 0 1.1\n13 3 50 0 1.2\n");
    let (table, answers) = events_of(UNDERWAY);
    assert_eq!(table, answer.table);
    // Events 5 and 9 are local reads, of 2 and of 1; no other event of this run gives sums.
    let given: Vec<Sums> = answers.iter().map(|answer| answer.sums).collect();
    assert_eq!(given, [0, 0, 0, 0, 30, 0, 0, 0, 50, 0, 0, 0, 0].map(|added| sums(added, 0)));
    assert_eq!(answers[4], Answer { sums: sums(30, 0), ..Answer::BLANK });
}

#[test]
fn a_sync_has_what_was_finished_before_it_was_sent_and_a_local_read_may_lack_it() {
    let (mut listing, mut scratch) = ([0; 256], [7; SCRATCH]);
    let answer = run(READING, &mut listing, &mut scratch);
    assert_eq!((answer.refusal, answer.events), (RefusalNumber::ACCEPTED, 9));
    assert_eq!(&listing[..answer.written], b"3 1 30 0 1.1\n8 2 30 0 1.1 2.2\n");
    let (table, answers) = events_of(READING);
    assert_eq!(table, answer.table);
    // Event 3 finishes 1.1. The local read of event 4 lacks it, and the sync of event 5, which event 8 finishes, has
    // it.
    assert_eq!(answers[2].applied(), [Name::new(1, 1)]);
    assert_eq!(answers[3], Answer::BLANK);
    assert_eq!(answers[7].applied(), [Name::new(1, 1), Name::new(2, 2)]);
    assert_eq!(answers[7].sync_answer(), Some(sums(30, 0)));
    assert_eq!(answers[8].sums, sums(30, 0));
}

#[test]
fn a_local_read_leaves_the_table_as_it_is() {
    let local_read = [&Record::LocalRead { controller: 1 }.bytes()[..], &[9]].concat();
    for version in [1, 2] {
        let (mut table, mut scratch) = (fresh(version, 1).unwrap(), [7; SCRATCH]);
        for amount in [9, -4, 9] {
            event(&mut table, &report_in(version, amount, Class::L).bytes(), &mut scratch).unwrap();
        }
        assert_eq!(event(&mut table, &local_read, &mut scratch), Err(Refusal::ReadPending));
        assert_eq!(event(&mut table, &OWN_ENTRY.bytes(), &mut scratch).unwrap().0.applied().len(), 3);
        let before = *table.as_bytes();
        scratch.fill(7);
        let given = Answer { sums: sums(18, 4), ..Answer::BLANK };
        assert_eq!(event(&mut table, &local_read, &mut scratch), Ok((given, &[9][..])));
        assert_eq!((*table.as_bytes(), scratch), (before, [0; SCRATCH]));
    }
}

#[test]
fn a_sync_answers_the_sums_when_it_is_finished() {
    for version in [1, 2] {
        let reports = [30, -7].map(|amount| report_in(version, amount, Class::S));
        let records = [&reports[..], &[OWN_ENTRY, Record::Sync { sender: 1 }, OWN_ENTRY]].concat();
        let (_, answers) = events_of(&file_of(version, 1, &records));
        let last = sums(30, 7);
        let synced: Vec<_> = answers.iter().map(Answer::sync_answer).collect();
        assert_eq!(synced, [None, None, None, None, Some(last)]);
        let given: Vec<_> = answers.iter().map(|answer| answer.sums).collect();
        assert_eq!(given, [Sums::BLANK, Sums::BLANK, Sums::BLANK, Sums::BLANK, last]);
    }
}

#[test]
fn a_register_that_is_set_at_one_panel_is_read_at_another() {
    let (mut listing, mut scratch) = ([0; 256], [7; SCRATCH]);
    let answer = run(SETTINGS, &mut listing, &mut scratch);
    assert_eq!((answer.refusal, answer.events), (RefusalNumber::ACCEPTED, 8));
    assert_eq!(&listing[..answer.written], b"3 2 0 0 2.1\n6 1 0 0 2.1\n7 1 0 0 2.2\n8 2 0 0 2.2\n");
    let (table, answers) = events_of(SETTINGS);
    assert_eq!(table, answer.table);
    // Event 3 finishes 2's sync. That 2 has applied its write, with event 8, finishes no sync.
    let finished: Vec<u8> = answers.iter().map(|answer| answer.finished).collect();
    assert_eq!(finished, [0, 0, 1, 0, 0, 0, 0, 0]);
    let set = table.messages[1];
    assert_eq!((set.sender, set.number, set.date), (2, MessageNumber(2), 1));
    assert_eq!(set.payload, Payload { kind: Payload::WRITE, reg: 1, value: 1500, ..Payload::BLANK });
    for (c, first) in [(1, register(1500, 1, 2)), (2, register(1500, 1, 2)), (3, Register::BLANK)] {
        let mut shown = Panel::BLANK;
        shown.registers[0] = first;
        assert_eq!(look(&table, c), Ok(shown));
    }
}

#[test]
fn each_register_has_its_values_and_dates() {
    let mut records = vec![];
    let values = [0, 1, 255, 256, 65_536, 1 << 24, u32::MAX - 1, u32::MAX];
    for (number, value) in (1..).zip(values).chain([(8, 7), (8, 0x0102_0304)]) {
        let write = Record::Write { sender: 1, register: number, value };
        records.extend([Record::Sync { sender: 1 }, OWN_ENTRY, write, OWN_ENTRY]);
    }
    let mut registers = values.map(|value| register(value, 1, 1));
    registers[7] = register(0x0102_0304, 3, 1);
    for version in [1, 2] {
        let (table, _) = events_of(&file_of(version, 1, &records));
        let shown = look(&table, 1).unwrap();
        assert_eq!(shown, Panel { registers, ..Panel::BLANK });
        assert_eq!((shown.register(0), shown.register(8), shown.register(9)), (None, Some(registers[7]), None));
    }
}

#[test]
fn a_write_follows_on_an_applied_sync() {
    let (mut table, mut scratch) = (fresh(1, 1).unwrap(), [0; SCRATCH]);
    let mut play = |record: Record| event(&mut table, &record.bytes(), &mut scratch).err();
    let write = |register| Record::Write { sender: 1, register, value: 5 };
    let (sync, report) = (Record::Sync { sender: 1 }, Record::Report { sender: 1, amount: 5 });
    for (record, refusal) in [
        (write(1), Some(Refusal::NotSynced)),
        (sync, None),
        (write(9), Some(Refusal::Register)),
        (write(1), Some(Refusal::OwnPending)),
        (OWN_ENTRY, None),
        (write(0), Some(Refusal::Register)),
        (report, None),
        (OWN_ENTRY, None),
        (write(1), Some(Refusal::NotSynced)),
        (sync, None),
        (OWN_ENTRY, None),
        (write(8), None),
        (write(8), Some(Refusal::OwnPending)),
        (OWN_ENTRY, None),
        (write(8), Some(Refusal::NotSynced)),
    ] {
        assert_eq!(play(record), refusal, "{record:?}");
    }
}

#[test]
fn the_version_says_what_a_report_is() {
    let mut scratch = [0; SCRATCH];
    let report = Record::Report { sender: 1, amount: 5 };
    let classed = |amount, class| Record::ClassedReport { sender: 1, amount, class: ClassNumber(class) };
    for (version, record, refusal) in [
        (1, report, None),
        (1, classed(5, 2), Some(Refusal::RecordLength)),
        (2, report, Some(Refusal::RecordLength)),
        (2, classed(5, 0), Some(Refusal::Class)),
        (2, classed(5, 1), None),
        (2, classed(5, 4), None),
        (2, classed(5, 5), Some(Refusal::Class)),
        (2, classed(0, 5), Some(Refusal::Amount)),
    ] {
        let mut table = fresh(version, 2).unwrap();
        assert_eq!(table.version, usize::from(version));
        assert_eq!(event(&mut table, &record.bytes(), &mut scratch).err(), refusal, "{record:?}");
    }
}

#[test]
fn as_many_as_put_a_message_first_are_counted() {
    let (mut table, mut scratch) = (fresh(1, 3).unwrap(), [0; SCRATCH]);
    let (one, three) = (Name::new(1, 1), Name::new(3, 1));
    // What controller 3 keeps after each event of the worked run: 1.1 before 3.1, and 3.1 before 1.1.
    let counts = [[0, 0], [0, 0], [0, 0], [0, 0], [0, 1], [0, 1], [0, 1], [0, 1], [1, 1], [1, 1], [0, 0]];
    let mut rest = &WORKED[2..];
    for found in counts {
        rest = event(&mut table, rest, &mut scratch).unwrap().1;
        let before = *table.as_bytes();
        assert_eq!([count_before(&table, 3, one, three), count_before(&table, 3, three, one)], found.map(Ok));
        assert_eq!(*table.as_bytes(), before);
    }
    assert!(rest.is_empty());
}

/// Controller 1 of two has sent 1.1 and 1.2; 2 has read 1.1 in log 1, and has sent 2.2.
fn two_under_way() -> Table {
    let handover = |owner| Record::Handover { receiver: 2, owner };
    let report = Record::Report { sender: 1, amount: 5 };
    let records = [report, report, handover(1), Record::Sync { sender: 2 }];
    events_of(&file_of(1, 2, &records)).0
}

#[test]
fn any_two_names_are_counted() {
    let table = two_under_way();
    let (first, second, sync) = (Name::new(1, 1), Name::new(1, 2), Name::new(2, 2));
    let odd = [(0, 0), (0, 1), (1, 0), (1, 3), (1, 64), (1, 65), (1, 255), (2, 1), (3, 1), (255, 1), (255, 255)];
    for c in [1, 2] {
        // Each of the three has one mark where it is pending: of its sender, which alone is known to have forwarded it.
        for pending in if c == 1 { [first, second] } else { [first, sync] } {
            assert_eq!(count_before(&table, c, pending, pending), Ok(0));
            for (sender, number) in odd {
                assert_eq!(count_before(&table, c, pending, Name::new(sender, number)), Ok(1), "{sender}.{number}");
                assert_eq!(count_before(&table, c, Name::new(sender, number), pending), Ok(0), "{sender}.{number}");
                assert_eq!(
                    count_before(&table, c, Name::new(sender, number), Name::new(0, 0)),
                    Ok(0),
                    "{sender}.{number}"
                );
            }
        }
    }
    assert_eq!((count_before(&table, 1, first, second), count_before(&table, 1, second, first)), (Ok(1), Ok(0)));
    assert_eq!((count_before(&table, 2, first, sync), count_before(&table, 2, sync, first)), (Ok(1), Ok(1)));
    // 2.2 is pending at 2 alone, and 1.2 at 1 alone.
    assert_eq!((count_before(&table, 1, first, sync), count_before(&table, 1, sync, first)), (Ok(1), Ok(0)));
    assert_eq!((count_before(&table, 2, second, first), count_before(&table, 2, first, second)), (Ok(0), Ok(1)));
}

#[test]
fn a_stopped_controller_is_asked_for_what_it_keeps() {
    let (mut table, mut scratch) = (two_under_way(), [0; SCRATCH]);
    let stop = Record::Stop { controller: 1, kept: 1 };
    event(&mut table, &stop.bytes(), &mut scratch).unwrap();
    // 1.2 is cut off, and pending at its sender for good.
    for (c, pairs) in [(1, [Ok(1), Ok(0)]), (2, [Ok(1), Ok(0)])] {
        let found =
            [(1, 2), (2, 1)].map(|(one, other)| count_before(&table, c, Name::new(1, one), Name::new(1, other)));
        assert_eq!(found, pairs);
    }
}

#[test]
fn a_count_asks_for_a_table_and_a_controller() {
    let good = two_under_way();
    let mut broken = good.clone();
    broken.count = 65;
    let before = *good.as_bytes();
    for (table, c, refusal) in [
        (&good, 0, Some(Refusal::Controller)),
        (&good, 1, None),
        (&good, 2, None),
        (&good, 3, Some(Refusal::Controller)),
        (&good, 257, Some(Refusal::Controller)),
        (&good, usize::MAX, Some(Refusal::Controller)),
        (&broken, 0, Some(Refusal::Table)),
        (&broken, 1, Some(Refusal::Table)),
        (&broken, 3, Some(Refusal::Table)),
        (&Table::BLANK, 1, Some(Refusal::Table)),
    ] {
        for (second, count) in [((1, 64), 1), ((0, 0), 1), ((255, 255), 1), ((1, 1), 0)] {
            let second = Name::new(second.0, second.1);
            let mut answer = CountAnswer { refusal: RefusalNumber(9), count: 9 };
            calls::count_before(table, c, &Name::new(1, 1), &second, &mut answer);
            let expected = refusal.map_or(CountAnswer { count, ..CountAnswer::BLANK }, |refusal| CountAnswer {
                refusal: refusal.into(),
                ..CountAnswer::BLANK
            });
            assert_eq!(answer, expected, "{c} {second}");
            if let Ok(c) = u8::try_from(c) {
                assert_eq!(count_before(table, c, Name::new(1, 1), second), refusal.map_or(Ok(count), Err));
            }
        }
    }
    assert_eq!(*good.as_bytes(), before);
}

#[test]
fn a_refused_call_changes_nothing() {
    let mut table = fresh(2, 2).unwrap();
    let mut scratch = [7; SCRATCH];
    let before = table.clone();
    for (bytes, refusal) in [(&[][..], Refusal::Record), (&[1, 9], Refusal::Kind), (&[1, 2], Refusal::RecordLength)] {
        assert_eq!(event(&mut table, bytes, &mut scratch), Err(refusal));
    }
    for (record, refusal) in [
        (Record::Sync { sender: 3 }, Refusal::Controller),
        (Record::ClassedReport { sender: 1, amount: 361, class: Class::M.into() }, Refusal::Amount),
        (Record::ClassedReport { sender: 1, amount: 360, class: Class::None.into() }, Refusal::Class),
        (Record::Handover { receiver: 1, owner: 2 }, Refusal::NoEntry),
        (Record::Stop { controller: 2, kept: 256 }, Refusal::Kept),
        (Record::LocalRead { controller: 0 }, Refusal::Controller),
        (Record::Write { sender: 3, register: 0, value: 5 }, Refusal::Controller),
        (Record::Write { sender: 1, register: 9, value: 5 }, Refusal::Register),
        (Record::Write { sender: 1, register: 8, value: 5 }, Refusal::NotSynced),
    ] {
        assert_eq!(event(&mut table, &record.bytes(), &mut scratch), Err(refusal));
    }
    for record in [Record::Sync { sender: 1 }, Record::LocalRead { controller: 1 }] {
        assert_eq!(event(&mut table, &record.bytes(), &mut scratch[1..]), Err(Refusal::Scratch));
    }
    assert_eq!(look(&table, 0), Err(Refusal::Controller));
    assert_eq!(ask(&table, Pair::new(1, 2), &mut scratch), Err(Refusal::NoEntry));
    for (acts, refusal) in [(0, Refusal::NoEntry), (1, Refusal::ActCount)] {
        assert_eq!(commit(&mut table, Asked::new(1, 2, acts), &mut scratch), Err(refusal));
    }
    assert_eq!(count_before(&table, 3, Name::new(1, 1), Name::new(2, 1)), Err(Refusal::Controller));
    assert_eq!((table, scratch), (before, [7; SCRATCH]));
}

#[test]
fn a_refused_run_keeps_the_lines_before_it() {
    let sent = [Record::Report { sender: 1, amount: 5 }, OWN_ENTRY, OWN_ENTRY];
    let (mut listing, mut scratch) = ([7; 256], [7; SCRATCH + 1]);
    let answer = run(&file_of(1, 1, &sent), &mut listing, &mut scratch);
    assert_eq!((answer.refusal.check(), answer.events), (Err(Refusal::NoEntry), 2));
    assert_eq!(listing[..answer.written], *b"2 1 5 0 1.1\n");
    assert!(listing[answer.written..].iter().all(|byte| *byte == 7));
    assert!(scratch[..SCRATCH].iter().all(|byte| *byte == 0) && scratch[SCRATCH] == 7);
    assert_eq!(look(&answer.table, 1).unwrap().sums, sums(5, 0));
    // Where no event was accepted, nothing that was lent is changed.
    for file in [&[1][..], &[3, 1], &[1, 8], &[1, 1], &[1, 1, 3, 3, 1, 1]] {
        let (mut listing, mut scratch) = ([7; 256], [7; SCRATCH]);
        assert_eq!(run(file, &mut listing, &mut scratch).events, 0);
        assert_eq!((listing, scratch), ([7; 256], [7; SCRATCH]));
    }
}

#[test]
fn a_refused_answer_is_blank_but_for_its_number() {
    let (mut table, mut answer) = (Table::BLANK, Answer { size: 9, finished: 1, sums: sums(9, 9), ..Answer::BLANK });
    let refusal = Refusal::Table.into();
    assert_eq!(calls::event(&mut table, &[1, 2, 3], &mut [], &mut answer), 3);
    assert_eq!(answer, Answer { refusal, ..Answer::BLANK });
    let dirty = Panel { registers: [register(9, 9, 9); REGISTERS], ..panel((9, 9), [(9, 9); 5]) };
    let mut answer = LookAnswer { refusal: RefusalNumber::ACCEPTED, panel: dirty };
    calls::look(&table, 1, &mut answer);
    assert_eq!(answer, LookAnswer { refusal, panel: Panel::BLANK });
    let mut answer = CountAnswer { refusal: RefusalNumber::ACCEPTED, count: 9 };
    calls::count_before(&table, 1, &Name::new(1, 1), &Name::new(2, 1), &mut answer);
    assert_eq!(answer, CountAnswer { refusal, ..CountAnswer::BLANK });
    for (file, refusal) in
        [(&[1][..], Refusal::FileLength), (&[3, 3], Refusal::Version), (&[2, 8], Refusal::ControllerCount)]
    {
        assert_eq!(run(file, &mut [], &mut []), RunAnswer { refusal: refusal.into(), ..RunAnswer::BLANK });
    }
    for (version, n, refusal) in [(0, 3, Refusal::Version), (3, 8, Refusal::Version), (2, 8, Refusal::ControllerCount)]
    {
        let mut answer = FreshAnswer { refusal: RefusalNumber::ACCEPTED, table: fresh(2, 7).unwrap() };
        calls::fresh(version.into(), n.into(), &mut answer);
        assert_eq!(answer, FreshAnswer { refusal: refusal.into(), ..FreshAnswer::BLANK });
        assert_eq!(fresh(version, n), Err(refusal));
    }
}

#[test]
fn any_bytes_are_a_table() {
    let mut table = Table::from_bytes(&[0xA5; size_of::<Table>()]);
    let before = *table.as_bytes();
    assert_eq!(look(&table, 1), Err(Refusal::Table));
    assert_eq!(count_before(&table, 1, Name::new(0xA5, 0xA5), Name::new(1, 1)), Err(Refusal::Table));
    assert_eq!(event(&mut table, &[], &mut []), Err(Refusal::Table));
    assert_eq!(ask(&table, Pair::new(1, 1), &mut []), Err(Refusal::Table));
    assert_eq!(commit(&mut table, Asked::new(1, 1, 0), &mut []), Err(Refusal::Table));
    assert_eq!(*table.as_bytes(), before);
}

#[test]
fn the_library_has_the_interface_of_the_package() {
    assert_eq!(furnacejade::interface(), INTERFACE);
}
