//! Records and files as bytes, made by the package, with controllers and lengths as plain numbers; and the records of a
//! whole file.

use furnacejade::{head, ClassNumber, Record};

/// A report of version 1.
pub fn report(sender: usize, amount: i16) -> Vec<u8> {
    Record::Report { sender: sender as u8, amount }.bytes().to_vec()
}

/// A report of version 2.
pub fn classed_report(sender: usize, amount: i16, class: u8) -> Vec<u8> {
    Record::ClassedReport { sender: sender as u8, amount, class: ClassNumber(class) }.bytes().to_vec()
}

/// A report as a table of this version takes it; its class, if it has one, depends on its sender.
pub fn report_in(version: usize, sender: usize, amount: i16) -> Vec<u8> {
    match version {
        2 => classed_report(sender, amount, 1 + (sender % 4) as u8),
        _ => report(sender, amount),
    }
}

pub fn sync(sender: usize) -> Vec<u8> {
    Record::Sync { sender: sender as u8 }.bytes().to_vec()
}

pub fn handover(receiver: usize, owner: usize) -> Vec<u8> {
    Record::Handover { receiver: receiver as u8, owner: owner as u8 }.bytes().to_vec()
}

pub fn stop(controller: usize, kept: usize) -> Vec<u8> {
    Record::Stop { controller: controller as u8, kept: kept as u16 }.bytes().to_vec()
}

pub fn local_read(controller: usize) -> Vec<u8> {
    Record::LocalRead { controller: controller as u8 }.bytes().to_vec()
}

pub fn write(sender: usize, register: usize, value: u32) -> Vec<u8> {
    Record::Write { sender: sender as u8, register: register as u8, value }.bytes().to_vec()
}

pub fn file_of(version: usize, n: usize, run: &[Vec<u8>]) -> Vec<u8> {
    [&head(version as u8, n as u8)[..], &run.concat()].concat()
}

/// What is left of a whole file at each of its records: the record, and all that comes after it.
pub fn rests(file: &[u8]) -> Vec<&[u8]> {
    let (mut rests, mut rest) = (vec![], &file[2..]);
    while let Some(length) = rest.first() {
        rests.push(rest);
        rest = &rest[1 + *length as usize..];
    }
    rests
}
