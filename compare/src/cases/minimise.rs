//! Makes a failing case small: fewer controllers, calls, records, bytes, and fields that are not as in a fresh table. A
//! smaller case is kept if it fails too.

use super::fields::plain_table;
use super::{Asked, Call, Case, Head};
use furnacejade::{Name, Pair, Table};

/// A case that fails, and what it means to fail.
struct Search<'a> {
    case: Case,
    fails: &'a dyn Fn(&Case) -> bool,
}

/// A smaller case that fails in the same way.
pub fn minimise(case: &Case, fails: &dyn Fn(&Case) -> bool) -> Case {
    let mut search = Search { case: case.clone(), fails };
    loop {
        let before = search.case.text().len();
        search.fewer_controllers();
        search.leave_out(|case| case.calls.len(), without_calls);
        search.leave_out(|case| records(case).len(), without_records);
        search.shorter_events();
        search.plainer_table();
        if search.case.text().len() >= before {
            return search.case;
        }
    }
}

impl Search<'_> {
    /// Keeps a smaller case if it fails.
    fn keep(&mut self, smaller: Case) -> bool {
        let better = (self.fails)(&smaller);
        if better {
            self.case = smaller;
        }
        better
    }

    /// Leaves out stretches of a list, long ones first.
    fn leave_out(&mut self, length: fn(&Case) -> usize, without: fn(&Case, usize, usize) -> Case) {
        let mut stretch = length(&self.case);
        while stretch > 0 {
            let mut at = 0;
            while at < length(&self.case) {
                let end = (at + stretch).min(length(&self.case));
                if !self.keep(without(&self.case, at, end)) {
                    at = end;
                }
            }
            stretch /= 2;
        }
    }

    /// Leaves out one controller of a list from a fresh table; those above it move down by one.
    fn fewer_controllers(&mut self) {
        for gone in (1..=7).rev() {
            let Head::Fresh { version, n } = self.case.head else { return };
            if (2..=7).contains(&n) && gone as usize <= n {
                let calls = self.case.calls.iter().filter_map(|call| without_controller(call, gone)).collect();
                self.keep(Case { head: Head::Fresh { version, n: n - 1 }, calls });
            }
        }
    }

    fn shorter_events(&mut self) {
        for call in 0..self.case.calls.len() {
            loop {
                let mut smaller = self.case.clone();
                let Call::Event { bytes, .. } = &mut smaller.calls[call] else { break };
                if bytes.pop().is_none() || !self.keep(smaller) {
                    break;
                }
            }
        }
    }

    fn plainer_table(&mut self) {
        let plain = *plain_table().as_bytes();
        for stretch in [1024, 256, 64, 16, 4, 1] {
            let mut at = 0;
            while let Head::Table(t) = &self.case.head {
                let mut bytes = *t.as_bytes();
                if at >= bytes.len() {
                    break;
                }
                let end = (at + stretch).min(bytes.len());
                if bytes[at..end] != plain[at..end] {
                    bytes[at..end].copy_from_slice(&plain[at..end]);
                    let head = Head::Table(Box::new(Table::from_bytes(&bytes)));
                    self.keep(Case { head, calls: self.case.calls.clone() });
                }
                at = end;
            }
        }
    }
}

/// Where the records of a file stand.
fn records(case: &Case) -> Vec<(usize, usize)> {
    let Head::File { bytes, .. } = &case.head else { return vec![] };
    let (mut all, mut at) = (vec![], 2);
    while at < bytes.len() {
        let end = (at + 1 + bytes[at] as usize).min(bytes.len());
        all.push((at, end));
        at = end;
    }
    all
}

fn without_records(case: &Case, from: usize, to: usize) -> Case {
    let (all, mut smaller) = (records(case), case.clone());
    if let Head::File { bytes, .. } = &mut smaller.head {
        bytes.drain(all[from].0..all[to - 1].1);
    }
    smaller
}

fn without_calls(case: &Case, from: usize, to: usize) -> Case {
    let mut smaller = case.clone();
    smaller.calls.drain(from..to);
    smaller
}

/// A call with the controllers above `gone` moved down, or nothing if it names `gone`.
fn without_controller(call: &Call, gone: u8) -> Option<Call> {
    let moved = |c: usize| (c != gone as usize).then_some(if c > gone as usize { c - 1 } else { c });
    let both = |pair: &Pair| Some(Pair { receiver: moved(pair.receiver)?, owner: moved(pair.owner)? });
    match call {
        Call::Look(c) => moved(*c).map(Call::Look),
        Call::CountBefore(Asked { controller, first, second }) => {
            let of = |name: &Name| Some(Name { sender: moved(name.sender as usize)? as u8, ..*name });
            Some(Call::CountBefore(Asked { controller: moved(*controller)?, first: of(first)?, second: of(second)? }))
        }
        Call::Dispatch { named, scratch } => Some(Call::Dispatch { named: both(named)?, scratch: *scratch }),
        Call::Ask { pair, scratch } => Some(Call::Ask { pair: both(pair)?, scratch: *scratch }),
        Call::Commit { pair, acts, scratch } => {
            Some(Call::Commit { pair: both(pair)?, acts: *acts, scratch: *scratch })
        }
        Call::Event { bytes, scratch } => {
            let mut bytes = bytes.clone();
            let named = if bytes.get(1) == Some(&3) { 2..4 } else { 2..3 };
            for c in bytes.get_mut(named)? {
                *c = moved(*c as usize)? as u8;
            }
            Some(Call::Event { bytes, scratch: *scratch })
        }
    }
}
