//! Refusals, classes, names and records: numbers, texts and bytes, in both directions.

use furnacejade::{head, records};
use furnacejade::{Class, ClassNumber, Name, Record, RecordBytes, Refusal, RefusalNumber, Sums, LONGEST_RECORD};
use std::num::NonZeroU8;

#[test]
fn the_refusals_are_1_to_21_in_order() {
    assert_eq!(Refusal::ALL.len(), 21);
    for (number, refusal) in (1..).zip(Refusal::ALL.iter().copied()) {
        assert_eq!(refusal.number(), number);
        assert_eq!(Refusal::from(NonZeroU8::new(number).unwrap()), refusal);
        assert_eq!(RefusalNumber::from(refusal), RefusalNumber(number));
        assert_eq!(RefusalNumber(number).refusal(), Some(refusal));
        assert_eq!(RefusalNumber(number).check(), Err(refusal));
        let question = refusal.question();
        assert!(
            question.starts_with(|first: char| first.is_ascii_uppercase()) && question.ends_with('?'),
            "{question}"
        );
        assert_eq!(
            refusal.to_string(),
            format!("refused by question {number}: {}{}", &question[..1].to_lowercase(), &question[1..])
        );
    }
    assert_eq!(Refusal::Controller.to_string(), "refused by question 8: is every controller named from 1 to n?");
    let shown = "NoEntry (refused by question 13: does the log have an entry that the receiver has not read?)";
    assert_eq!(format!("{:?}", Refusal::NoEntry), shown);
}

#[test]
fn a_number_of_no_question_is_unknown_and_0_is_no_refusal() {
    for number in 22..=255 {
        let refusal = Refusal::Unknown(NonZeroU8::new(number).unwrap());
        assert_eq!((RefusalNumber(number).refusal(), refusal.number()), (Some(refusal), number));
        assert_eq!(RefusalNumber::from(refusal), RefusalNumber(number));
    }
    let refusal = RefusalNumber(99).check().unwrap_err();
    assert_eq!(refusal.to_string(), "refused by number 99, which no question of this package has");
    assert_eq!((RefusalNumber::ACCEPTED.refusal(), RefusalNumber::ACCEPTED.check()), (None, Ok(())));
    assert_eq!(RefusalNumber::ACCEPTED, RefusalNumber(0));
}

#[test]
fn names_and_sums_take_the_width_that_a_format_asks_for() {
    assert_eq!(
        format!("{:>5}|{:<5}|{:^7}|", Name::new(3, 1), Name::new(3, 12), Name::new(255, 255)),
        "  3.1|3.12 |255.255|"
    );
    let (sums, most) = (Sums { added: 30, withdrawn: 2 }, Sums { added: u32::MAX, withdrawn: u32::MAX });
    assert_eq!(format!("{sums:>6}|{most}|"), "  30 2|4294967295 4294967295|");
}

#[test]
fn no_error_says_accepted() {
    for number in 0..=255 {
        let text = RefusalNumber(number).refusal().map_or(String::new(), |refusal| refusal.to_string());
        assert!(!text.contains("accepted"), "{text}");
    }
}

#[test]
fn classes_have_numbers_and_names() {
    assert_eq!(Class::ALL.map(Class::number), [1, 2, 3, 4]);
    assert_eq!(Class::ALL.map(|class| class.to_string()), ["XL", "L", "M", "S"]);
    assert_eq!((Class::None.number(), Class::None.to_string()), (0, "none".into()));
    for class in Class::ALL.into_iter().chain([Class::None]) {
        assert_eq!(ClassNumber::from(class).class(), Some(class));
        let name = class.to_string();
        assert_eq!((name.to_lowercase().parse(), name.to_uppercase().parse()), (Ok(class), Ok(class)));
    }
    for number in 5..=255 {
        assert_eq!(ClassNumber(number).class(), None);
    }
    for text in ["", "XXL", "1", "X L", " M", "L\n"] {
        assert!(text.parse::<Class>().is_err(), "{text:?}");
    }
    assert_eq!(format!("[{:>4}]", Class::Xl), "[  XL]");
}

#[test]
fn names_are_read_and_written() {
    for (sender, number) in [(1, 1), (7, 64), (0, 0), (255, 255), (3, 10)] {
        let name = Name::new(sender, number);
        assert_eq!((name.sender, name.number.0), (sender, number));
        assert_eq!(name.to_string().parse(), Ok(name));
    }
    for text in
        ["", ".", "3", "3.", ".1", "3.1.1", "256.1", "1.256", "+3.1", "3.+1", "-3.1", " 3.1", "3.1 ", "3,1", "a.b"]
    {
        assert!(text.parse::<Name>().is_err(), "{text:?}");
    }
}

const RECORDS: [Record; 7] = [
    Record::Report { sender: 255, amount: -32_768 },
    Record::ClassedReport { sender: 0, amount: 32_767, class: ClassNumber(255) },
    Record::Sync { sender: 7 },
    Record::Handover { receiver: 1, owner: 200 },
    Record::Stop { controller: 3, kept: 0x0102 },
    Record::LocalRead { controller: 9 },
    Record::Write { sender: 2, register: 0, value: 0x8102_0304 },
];

#[test]
fn a_record_is_read_back_from_its_bytes_and_from_no_others() {
    for record in RECORDS {
        let bytes = record.bytes();
        assert_eq!(Record::from_bytes(&bytes), Some(record));
        assert_eq!(Record::from_bytes(&bytes[..bytes.len() - 1]), None);
        assert_eq!(Record::from_bytes(&[&bytes[..], &[0]].concat()), None);
    }
    // Of all lengths and kinds these are the forms of a record, seven of them.
    let forms = (0..=20).flat_map(|length: u8| (0..=255).map(move |kind| (length, kind)));
    let read = forms.filter_map(|(length, kind)| {
        let mut bytes = vec![5; usize::from(length) + 1];
        bytes[0] = length;
        *bytes.get_mut(1)? = kind;
        Record::from_bytes(&bytes).map(|record| assert_eq!(record.bytes(), bytes[..]))
    });
    assert_eq!(read.count(), RECORDS.len());
}

#[test]
fn the_bytes_of_a_record_are_used_as_a_slice() {
    let bytes: RecordBytes = Record::Handover { receiver: 2, owner: 1 }.bytes();
    let slice: &[u8] = &[3, 3, 2, 1];
    assert_eq!(bytes, [3, 3, 2, 1]);
    assert_eq!(bytes, slice);
    assert_ne!(bytes, [3, 3, 2, 1, 0]);
    assert_eq!((bytes.as_ref(), bytes.len(), bytes[2]), (slice, 4, 2));
    assert!(bytes.into_iter().eq([3, 3, 2, 1]) && (&bytes).into_iter().eq(&[3, 3, 2, 1]));
    assert_eq!(format!("{bytes:?}"), "[3, 3, 2, 1]");
    assert_eq!(RECORDS.map(|record| record.bytes().len()).into_iter().max(), Some(LONGEST_RECORD));
}

#[test]
fn the_records_of_a_file_are_found_and_its_bytes_are_all_there() {
    let file: Vec<u8> = head(2, 3).into_iter().chain(RECORDS.iter().flat_map(Record::bytes)).collect();
    assert!(records(&file).map(|part| part.record).eq(RECORDS.map(Some)));
    for cut in 0..=file.len() {
        let parts: Vec<_> = records(&file[..cut]).collect();
        let mut offset = 2;
        for part in &parts {
            assert_eq!((part.offset, part.bytes), (offset, &file[offset..offset + part.bytes.len()]));
            offset += part.bytes.len();
        }
        assert_eq!(offset, cut.max(2));
        let whole = parts.iter().filter(|part| part.record.is_some()).count();
        assert!(whole == parts.len() || whole == parts.len() - 1 && parts[whole].record.is_none());
    }
    // A length byte of 0 is a part of its own, and one of 255 takes all that is there.
    let parts: Vec<_> =
        records(&[1, 1, 0, 255, 2, 2, 1]).map(|part| (part.offset, part.bytes.len(), part.record)).collect();
    assert_eq!(parts, [(2, 1, None), (3, 4, None)]);
    let mut ended = records(&[1]);
    assert!(ended.next().is_none() && ended.next().is_none());
}
