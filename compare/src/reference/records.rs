//! One record as bytes: question 5, then questions 6 to 9, 17 and 19 in this order, and the event that the record
//! stands for.

use super::*;

/// The number of the first question that was answered no, if there is one.
pub(super) fn first_no(questions: &[(u8, bool)]) -> Result<(), u8> {
    match questions.iter().find(|(_, yes)| !yes) {
        Some((number, _)) => Err(*number),
        None => Ok(()),
    }
}

/// Question 5: the record's bytes without the length byte, and the bytes after the record.
pub(super) fn cut(bytes: &[u8]) -> Result<(&[u8], &[u8]), u8> {
    let (&length, after) = bytes.split_first().ok_or(5)?;
    if after.len() < length as usize {
        return Err(5);
    }
    Ok(after.split_at(length as usize))
}

/// Question 6: the kind of a record.
pub(super) fn kind_of(record: &[u8]) -> Result<u8, u8> {
    let kind = *record.first().ok_or(6)?;
    if !(1..=6).contains(&kind) {
        return Err(6);
    }
    Ok(kind)
}

/// Questions 6 to 9, 17 and 19 on the bytes of one record.
pub(super) fn decode(record: &[u8], version: usize, n: usize) -> Result<Event, u8> {
    let kind = kind_of(record)?;
    let length = match kind {
        1 if version == 2 => 5,
        1 | 4 => 4,
        2 | 5 => 2,
        6 => 7,
        _ => 3,
    };
    if record.len() != length {
        return Err(7);
    }
    let first = record[1] as usize;
    let event = match kind {
        1 => {
            let amount = i16::from_be_bytes([record[2], record[3]]) as i32;
            let class = if version == 2 { record[4] as usize } else { 0 };
            Event::Send { sender: first, payload: Payload::Report { amount, class } }
        }
        2 => Event::Send { sender: first, payload: Payload::Sync },
        3 => Event::Handover { receiver: first, owner: record[2] as usize },
        4 => Event::Stop { controller: first, kept: u16::from_be_bytes([record[2], record[3]]) as usize },
        5 => Event::Read { controller: first },
        _ => {
            let value = u32::from_be_bytes([record[3], record[4], record[5], record[6]]);
            Event::Send { sender: first, payload: Payload::Write { register: record[2] as usize, value } }
        }
    };
    first_no(&[(8, named(&event, n)), (9, fair(&event)), (17, classed(&event, version)), (19, registered(&event))])?;
    Ok(event)
}

/// Question 8: is every controller named from 1 to n?
pub(super) fn named(event: &Event, n: usize) -> bool {
    let known = |c: usize| (1..=n).contains(&c);
    match *event {
        Event::Send { sender, .. } => known(sender),
        Event::Handover { receiver, owner } => known(receiver) && known(owner),
        Event::Stop { controller, .. } | Event::Read { controller } => known(controller),
    }
}

/// Question 9: is a report's amount from -360 to 360 and not 0?
pub(super) fn fair(event: &Event) -> bool {
    match *event {
        Event::Send { payload: Payload::Report { amount, .. }, .. } => (-360..=360).contains(&amount) && amount != 0,
        _ => true,
    }
}

/// Question 17: is the class of a report of version 2 from 1 to 4?
pub(super) fn classed(event: &Event, version: usize) -> bool {
    match *event {
        Event::Send { payload: Payload::Report { class, .. }, .. } if version == 2 => (1..=4).contains(&class),
        _ => true,
    }
}

/// Question 19: is the register of a write from 1 to 8?
pub(super) fn registered(event: &Event) -> bool {
    match *event {
        Event::Send { payload: Payload::Write { register, .. }, .. } => (1..=REGISTERS).contains(&register),
        _ => true,
    }
}
