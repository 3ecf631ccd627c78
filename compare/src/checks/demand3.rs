//! Demand 3, checked over one list of calls. It reads arguments and answers only, as docs/RULES.md says of the list,
//! and shares nothing with the reference. Of counts of "goes before" demand 3 says nothing: they move nothing, and are
//! worked out anew from the logs of the list. So is the number of an ask or a commit.

use super::as_shown::{AsShown, Commit};
use super::dispatched::{Dispatched, Waiting};
use super::never_stale::{NeverStale, Own, Shown};
use std::collections::{BTreeMap, BTreeSet};

/// A message: sender, number.
pub type Name = (usize, usize);

/// A handover: receiver, log owner.
pub type Pair = (usize, usize);

/// Two sums: of the amounts above 0, and of those below 0 with the sign dropped.
pub type Sums = (usize, usize);

/// What an event answers besides its refusal and its set.
pub struct Figures {
    pub finished: u8,
    pub sums: Sums,
}

/// A stamp: the date, then the writer; 0, 0 where nothing was written.
pub type Stamp = (usize, usize);

/// What a panel shows of a register: the stamp, and the value.
pub type Register = (Stamp, u32);

/// A register's place among the registers 1 to 8, and what a write gives it.
#[derive(Clone, Copy)]
struct Written {
    place: usize,
    gives: Register,
}

/// What a message says: the amount, 0 if it is no report, and its class, 0 if it has none; whether it is a sync; and
/// what a write writes.
#[derive(Default)]
struct Content {
    amount: i64,
    class: usize,
    sync: bool,
    write: Option<Written>,
}

/// Whether no stamp of one is later than the same register's stamp in the other, or the other way round; and whether
/// equal stamps have equal values.
fn ordered(one: &[Register; 8], other: &[Register; 8]) -> bool {
    let all = |holds: fn(&Register, &Register) -> bool| one.iter().zip(other).all(|(a, b)| holds(a, b));
    all(|a, b| a.0 != b.0 || a.1 == b.1) && (all(|a, b| a.0 <= b.0) || all(|a, b| a.0 >= b.0))
}

/// A line of a listing without its event's number.
struct Line {
    controller: usize,
    sums: Sums,
    set: Vec<Name>,
}

/// The event's number and the line, unless it has another form.
fn line_of(text: &str) -> Option<(usize, Line)> {
    let mut fields = text.split(' ');
    let mut number = || fields.next()?.parse::<usize>().ok();
    let (event, controller, sums) = (number()?, number()?, (number()?, number()?));
    let name = |field: &str| field.split_once('.').and_then(|(s, k)| Some((s.parse().ok()?, k.parse().ok()?)));
    let set = fields.map(name).collect::<Option<Vec<Name>>>()?;
    (!set.is_empty()).then_some((event, Line { controller, sums, set }))
}

pub struct Ledger {
    /// The version of the request for a fresh table, or of the file.
    version: usize,
    n: usize,
    logs: Vec<Vec<Name>>,
    /// `places[r][o]`: r's place in o's log.
    places: Vec<Vec<usize>>,
    running: Vec<bool>,
    sent: BTreeMap<Name, Content>,
    cut_off: BTreeSet<Name>,
    applied: Vec<BTreeSet<Name>>,
    /// What any controller had applied at any moment, each once.
    moments: BTreeSet<Vec<Name>>,
    /// The eight registers that any controller held at any moment, each once.
    snapshots: BTreeSet<[Register; 8]>,
    pub readings: NeverStale,
    pub dispatched: Dispatched,
    pub as_shown: AsShown,
    broken: Option<String>,
}

impl Ledger {
    pub fn new(version: usize, n: usize) -> Ledger {
        Ledger {
            version,
            n,
            logs: vec![vec![]; n],
            places: vec![vec![0; n]; n],
            running: vec![true; n],
            sent: BTreeMap::new(),
            cut_off: BTreeSet::new(),
            applied: vec![BTreeSet::new(); n],
            moments: BTreeSet::from([vec![]]),
            snapshots: BTreeSet::from([[((0, 0), 0); 8]]),
            readings: NeverStale::new(n),
            dispatched: Dispatched::new(n),
            as_shown: AsShown::new(n),
            broken: None,
        }
    }

    /// How many controllers the list has.
    pub fn n(&self) -> usize {
        self.n
    }

    /// What is wrong with the list so far, if anything.
    pub fn broken(&self) -> Option<&str> {
        self.broken.as_deref()
    }

    /// Says at which call of the list it broke.
    pub fn name_place(&mut self, call: usize) {
        let place = if call == 0 { "before call 1".into() } else { format!("at call {call}") };
        self.broken = self.broken.take().map(|text| format!("{text}; {place} of the list"));
    }

    fn expect(&mut self, holds: bool, what: impl FnOnce() -> String) {
        if !holds && self.broken.is_none() {
            self.broken = Some(what());
        }
    }

    fn expect_right(&mut self, found: Result<(), String>) {
        if let Err(text) = found {
            self.expect(false, || text);
        }
    }

    /// An event call with its bytes and its answer. A record of a file has no other figures than its line.
    pub fn event(&mut self, bytes: &[u8], number: u8, set: &[Name], figures: Option<Figures>) {
        if number != 0 {
            self.expect(set.is_empty(), || "a refused event answers a set".into());
            return;
        }
        let report = if self.version == 2 { 5 } else { 4 };
        let length = bytes.get(1).and_then(|kind| [0, report, 2, 3, 4, 2, 7].get(*kind as usize).copied());
        if length != bytes.first().copied() || bytes.len() <= bytes[0] as usize || bytes[0] == 0 {
            return self.expect(false, || "accepted bytes hold no record".into());
        }
        let c = bytes[2] as usize;
        if c < 1 || c > self.n || (bytes[1] == 3 && (bytes[3] < 1 || bytes[3] as usize > self.n)) {
            return self.expect(false, || "accepted bytes name no controller".into());
        }
        match bytes[1] {
            1 => {
                let amount = i16::from_be_bytes([bytes[3], bytes[4]]) as i64;
                let class = if self.version == 2 { bytes[5] as usize } else { 0 };
                self.send(c, Content { amount, class, ..Content::default() });
            }
            2 => self.send(c, Content { sync: true, ..Content::default() }),
            3 => self.handover(c, bytes[3] as usize, set, figures),
            4 => self.stop(c, u16::from_be_bytes([bytes[3], bytes[4]]) as usize),
            5 => self.local_read(c, figures.map(|figures| figures.sums)),
            6 => self.write(c, bytes[3] as usize, u32::from_be_bytes([bytes[4], bytes[5], bytes[6], bytes[7]])),
            _ => return self.expect(false, || "accepted bytes have no kind".into()),
        }
        self.expect(bytes[1] == 3 || set.is_empty(), || "a set without a handover".into());
        self.ending();
    }

    /// A call of the dispatcher: the pair that it names, whether it is lent enough scratch, and its answer. Pair 0, 0
    /// is "none". What it serves is a handover as any other.
    pub fn dispatch(&mut self, named: Pair, enough: bool, number: u8, pair: Pair, set: &[Name], figures: Figures) {
        let plain = pair == (0, 0) && set.is_empty() && (figures.finished, figures.sums) == (0, (0, 0));
        if number != 0 {
            self.expect(plain, || "a refused call of the dispatcher answers something".into());
            let refused = self.dispatched.refused(named, enough, number);
            return self.expect_right(refused);
        }
        if pair == (0, 0) {
            self.expect(plain, || "none is answered with something".into());
            let waiting = self.waiting();
            let end = self.dispatched.none(&waiting);
            self.expect_right(end);
            return self.ending();
        }
        if ![pair.0, pair.1].iter().all(|c| (1..=self.n).contains(c)) {
            return self.expect(false, || format!("the dispatcher serves {pair:?}"));
        }
        self.dispatched.before(named, self.waiting());
        self.handover(pair.0, pair.1, set, Some(figures));
        let fair = self.dispatched.after(pair, |(r, o)| self.places[r - 1][o - 1]);
        self.expect_right(fair);
        self.ending();
    }

    /// Whether r has an entry of o's log unread.
    fn unread(&self, (r, o): Pair) -> bool {
        self.places[r - 1][o - 1] < self.logs[o - 1].len()
    }

    /// The number of an ask, or of a commit that gives a count. Every table of a list is well formed.
    fn number(&self, pair: Pair, count: Option<usize>, enough: bool) -> u8 {
        let known = |c: usize| (1..=self.n).contains(&c);
        match pair {
            (r, o) if !known(r) || !known(o) => 8,
            (r, _) if !self.running[r - 1] => 10,
            (r, _) if count.is_some_and(|count| count != self.as_shown.acts(r)) => 21,
            _ if !self.unread(pair) => 13,
            _ if !enough => 15,
            _ => 0,
        }
    }

    /// An ask: its pair, whether it is lent enough scratch, and its answer. It moves nothing.
    pub fn ask(&mut self, pair: Pair, enough: bool, number: u8, count: usize, set: &[Name]) {
        let right = self.number(pair, None, enough);
        if number != 0 {
            self.expect(set.is_empty() && count == 0, || "a refused ask answers something".into());
        } else if right != 8 {
            let counted = self.as_shown.ask(pair, count, set);
            self.expect_right(counted);
        }
        self.expect(number == right, || format!("an ask of {pair:?} gets {number}, not {right}"));
    }

    /// A commit: its pair, the count that it gives back, whether it is lent enough scratch, and its answer. What it takes
    /// is a handover as any other.
    pub fn commit(&mut self, pair: Pair, count: usize, enough: bool, number: u8, set: &[Name], figures: Figures) {
        let right = self.number(pair, Some(count), enough);
        let commit = Commit { pair, count, enough, unread: right != 8 && self.unread(pair) };
        if number != 0 {
            let plain = set.is_empty() && (figures.finished, figures.sums) == (0, (0, 0));
            self.expect(plain, || "a refused commit answers something".into());
            let refused = self.as_shown.refused(&commit, number);
            self.expect_right(refused);
        } else {
            let taken = self.as_shown.accepted(&commit, set);
            self.expect_right(taken);
        }
        self.expect(number == right, || format!("a commit of {pair:?} with {count} gets {number}, not {right}"));
        if number == 0 && right != 8 {
            self.handover(pair.0, pair.1, set, Some(figures));
            self.ending();
        }
    }

    /// Every entry that is next for a receiver that runs.
    fn waiting(&self) -> Vec<Waiting> {
        let running = (1..=self.n).filter(|r| self.running[r - 1]);
        let next = |r: usize, o: usize| self.unread((r, o)).then(|| self.places[r - 1][o - 1]);
        running.flat_map(|r| (1..=self.n).filter_map(move |o| Some(((r, o), next(r, o)?)))).collect()
    }

    fn send(&mut self, c: usize, content: Content) {
        let name = (c, self.logs[c - 1].len() + 1);
        self.as_shown.act(c);
        self.logs[c - 1].push(name);
        let new = self.sent.insert(name, content).is_none();
        self.expect(new, || format!("{name:?} is sent twice"));
        self.readings.begin(name, &self.applied[c - 1]);
        (1..=self.n).for_each(|r| self.in_order(r));
    }

    /// A write of c: its date is one more than the greatest date of its register among the writes that c has applied.
    /// No other write of that register has its stamp.
    fn write(&mut self, c: usize, register: usize, value: u32) {
        if !(1..=8).contains(&register) {
            return self.expect(false, || format!("an accepted write of register {register}"));
        }
        let place = register - 1;
        let stamp = (self.registers(c)[place].0 .0 + 1, c);
        let twice = self.sent.values().filter_map(|x| x.write).any(|x| (x.place, x.gives.0) == (place, stamp));
        self.expect(!twice, || format!("two writes of register {register} have the stamp {stamp:?}"));
        self.send(c, Content { write: Some(Written { place, gives: (stamp, value) }), ..Content::default() });
    }

    /// The eight registers of c: each has the greatest stamp among the writes that c has applied.
    fn registers(&self, c: usize) -> [Register; 8] {
        let applied = self.applied[c - 1].iter().filter_map(|name| self.sent.get(name)?.write);
        let mut registers = [((0, 0), 0); 8];
        for Written { place, gives } in applied {
            registers[place] = gives.max(registers[place]);
        }
        registers
    }

    /// The registers of r now and those of any controller at any moment are in order.
    fn snapshot(&mut self, r: usize) {
        let now = self.registers(r);
        let other = self.snapshots.iter().find(|then| !ordered(&now, then));
        if let Some(then) = other {
            let text = format!("{r} holds {now:?}, another at some moment {then:?}");
            self.expect(false, || text);
        }
        self.snapshots.insert(now);
    }

    fn handover(&mut self, r: usize, o: usize, set: &[Name], figures: Option<Figures>) {
        let place = self.places[r - 1][o - 1];
        let Some(name) = self.logs[o - 1].get(place).copied() else {
            return self.expect(false, || format!("an accepted handover to {r} reads past the end of log {o}"));
        };
        self.places[r - 1][o - 1] += 1;
        let shown = self.as_shown.handover((r, o), set);
        self.expect_right(shown);
        self.as_shown.act(r);
        let bounded = self.dispatched.handover();
        self.expect_right(bounded);
        if !self.logs[r - 1].contains(&name) {
            self.logs[r - 1].push(name);
        }
        for name in set {
            let sent = self.sent.contains_key(name);
            self.expect(sent, || format!("{r} applies {name:?}, which was not sent"));
            let once = self.applied[r - 1].insert(*name);
            self.expect(once, || format!("{r} applies {name:?} twice"));
        }
        if !set.is_empty() {
            self.found(r, set);
            self.contained(r);
            self.in_order(r);
            self.snapshot(r);
        }
        if let Some(figures) = figures {
            self.finishing(r, set, figures);
        }
    }

    /// Where messages of r's own are finished, r has all that was finished before they were begun.
    fn found(&mut self, r: usize, set: &[Name]) {
        let write = |x: &Content| x.write.map(|Written { place, gives }| (place, gives.0));
        let own = |name: &Name| self.sent.get(name).map(|x| Own { name: *name, sync: x.sync, write: write(x) });
        let own: Vec<Own> = set.iter().filter(|name| name.0 == r).filter_map(own).collect();
        if !own.is_empty() {
            let shown = self.panel(r);
            let found = self.readings.finish(&own, &self.applied[r - 1], &shown);
            self.expect_right(found);
        }
    }

    /// What the panel of r would show.
    fn panel(&self, r: usize) -> Shown {
        let classes = std::array::from_fn(|class| self.sums(r, |x| x.class == class));
        Shown { sums: self.sums(r, |_| true), classes, stamps: self.registers(r).map(|(stamp, _)| stamp) }
    }

    /// A handover to r whose set holds a sync of r's own says that it is finished, and gives the sums over all that r
    /// has then applied. Any other gives zeros.
    fn finishing(&mut self, r: usize, set: &[Name], Figures { finished, sums }: Figures) {
        let own_sync = |name: &Name| name.0 == r && self.sent.get(name).is_some_and(|x| x.sync);
        let right = set.iter().any(own_sync);
        self.expect(finished == right as u8, || format!("a handover to {r} of {set:?} answers finished {finished}"));
        match right {
            true => self.reads(r, sums),
            false => self.expect(sums == (0, 0), || format!("a handover to {r} finishes no sync and gives {sums:?}")),
        }
    }

    /// Of each sender, r has applied every message that was sent before the last one that it has applied.
    fn in_order(&mut self, r: usize) {
        let applied = &self.applied[r - 1];
        let last_of = |c: usize| applied.range((c, 0)..(c + 1, 0)).next_back().copied();
        let before = |last: Name| self.sent.range((last.0, 0)..last).map(|(name, _)| *name);
        let missing = (1..=self.n).filter_map(last_of).flat_map(before).find(|name| !applied.contains(name));
        if let Some(name) = missing {
            self.expect(false, || {
                format!("{r} has applied a later message than {name:?} of its sender, and not that one")
            });
        }
    }

    /// An accepted local read: it gives the sums of what its controller has applied, and that is all that it has sent,
    /// or more.
    fn local_read(&mut self, c: usize, sums: Option<Sums>) {
        let own = self.sent.range((c, 0)..(c + 1, 0)).map(|(name, _)| *name);
        let missing: Vec<Name> = own.filter(|name| !self.applied[c - 1].contains(name)).collect();
        self.expect(missing.is_empty(), || format!("a local read of {c}, which has sent and not applied {missing:?}"));
        if let Some(sums) = sums {
            self.readings.local_read(sums);
            self.shows(c, sums);
        }
    }

    /// What r has applied now contains, or is contained in, what any controller had at any moment.
    fn contained(&mut self, r: usize) {
        let now = self.applied[r - 1].clone();
        let other = self.moments.iter().find(|then| {
            let shared = then.iter().filter(|name| now.contains(name)).count();
            shared != then.len() && shared != now.len()
        });
        if let Some(then) = other {
            let text = format!("{r} has applied {now:?}, another at some moment {then:?}");
            self.expect(false, || text);
        }
        self.moments.insert(now.into_iter().collect());
    }

    fn stop(&mut self, c: usize, kept: usize) {
        self.running[c - 1] = false;
        self.dispatched.stop();
        self.as_shown.act(c);
        let log = &mut self.logs[c - 1];
        let gone = log.split_off(kept.min(log.len()));
        self.cut_off.extend(gone.into_iter().filter(|name| name.0 == c));
    }

    /// The controllers at which the ending speaks of this moment; none if its condition fails.
    pub fn ended(&self) -> Vec<usize> {
        let runs: Vec<usize> = (1..=self.n).filter(|c| self.running[c - 1]).collect();
        let read_all = runs.iter().all(|r| (0..self.n).all(|o| self.places[r - 1][o] == self.logs[o].len()));
        if 2 * runs.len() > self.n && read_all {
            runs
        } else {
            vec![]
        }
    }

    fn ending(&mut self) {
        let due: BTreeSet<Name> = self.sent.keys().filter(|name| !self.cut_off.contains(name)).copied().collect();
        for c in self.ended() {
            let all = self.applied[c - 1] == due;
            self.expect(all, || format!("the ending: {c} has not applied exactly {due:?}"));
        }
    }

    /// Each sum over its own part of the amounts that a controller has applied, of the messages that count.
    fn sums(&self, c: usize, counts: impl Fn(&&Content) -> bool) -> Sums {
        let applied = self.applied[c - 1].iter().filter_map(|name| self.sent.get(name));
        let amounts: Vec<i64> = applied.filter(counts).map(|x| x.amount).collect();
        let part = |sign: i64| amounts.iter().map(|amount| (sign * amount).max(0) as usize).sum();
        (part(1), part(-1))
    }

    /// The sums of a finished sync or of a line: they are never stale.
    fn reads(&mut self, c: usize, sums: Sums) {
        let fresh = self.readings.sums(c, sums);
        self.expect_right(fresh);
        self.shows(c, sums);
    }

    /// The sums that a look at a controller shows, a local read or a finished sync gives, or a line of a listing has.
    fn shows(&mut self, c: usize, sums: Sums) {
        let right = self.sums(c, |_| true);
        self.expect(sums == right, || format!("{c} shows {sums:?}, not {right:?}"));
    }

    /// A local read of a controller at which the ending speaks, lent enough scratch. It gives the ending's
    /// sums, since these are the sums of what was applied.
    pub fn ending_read(&mut self, c: usize, number: u8, sums: Sums) {
        self.expect(number == 0, || format!("the ending: a local read of {c} is refused"));
        self.local_read(c, Some(sums));
    }

    /// A panel look with its answer. Where the ending speaks, the sums over what was applied are the ending's sums.
    pub fn look(&mut self, c: usize, number: u8, sums: Sums, classes: [Sums; 5], registers: [Register; 8]) {
        if number != 0 {
            return self.expect(!self.ended().contains(&c), || format!("the ending: a look at {c} is refused"));
        }
        if c < 1 || c > self.n {
            return self.expect(false, || format!("an accepted look at {c}"));
        }
        let fresh = self.readings.look(c, &Shown { sums, classes, stamps: registers.map(|(stamp, _)| stamp) });
        self.expect_right(fresh);
        self.shows(c, sums);
        for (class, shown) in classes.into_iter().enumerate() {
            let right = self.sums(c, |x| x.class == class);
            self.expect(shown == right, || format!("{c} shows {shown:?} of class {class}, not {right:?}"));
        }
        let right = self.registers(c);
        self.expect(registers == right, || format!("{c} shows the registers {registers:?}, not {right:?}"));
        let all = classes.iter().fold((0, 0), |all, x| (all.0 + x.0, all.1 + x.1));
        self.expect(all == sums, || format!("the classes at {c} do not add up to its sums"));
    }

    /// The mark of f that c keeps for a message, worked out from the list: the message's place in f's log, if c has
    /// read it there, or has sent it itself and is f; none once c has applied it.
    fn mark(&self, c: usize, f: usize, name: Name) -> Option<usize> {
        let read = &self.logs[f - 1][..self.places[c - 1][f - 1].min(self.logs[f - 1].len())];
        let place = match self.sent.contains_key(&name) && name.0 == c && c == f {
            true => Some(name.1),
            false => read.iter().position(|entry| *entry == name).map(|before| before + 1),
        };
        place.filter(|_| !self.applied[c - 1].contains(&name))
    }

    /// A count of "goes before" with its answer. It moves nothing. Every table of a list is well formed, so only a
    /// number that is no controller's is refused.
    pub fn count(&mut self, c: usize, [first, second]: [Name; 2], number: u8, count: usize) {
        if c < 1 || c > self.n {
            return self.expect((number, count) == (8, 0), || format!("a count at {c} answers {number} and {count}"));
        }
        self.expect(number == 0, || format!("a count at {c} is refused"));
        let puts_first = |f: &usize| match (self.mark(c, *f, first), self.mark(c, *f, second)) {
            (Some(one), Some(other)) => one < other,
            (one, other) => one.is_some() && other.is_none(),
        };
        let right = (1..=self.n).filter(puts_first).count();
        self.expect(count == right, || format!("at {c}, {count} put {first:?} before {second:?}, not {right}"));
    }

    /// The head of a list by a file run: its accepted records as calls, with the sets of its listing.
    pub fn file(file: &[u8], events: usize, listing: &[u8]) -> Ledger {
        let mut ledger = Ledger::new(file[0] as usize, file[1] as usize);
        let mut lines = BTreeMap::new();
        for text in String::from_utf8_lossy(listing).lines() {
            match line_of(text) {
                None => ledger.expect(false, || format!("a line of no known form: {text}")),
                Some((event, line)) => {
                    let new = lines.insert(event, line).is_none();
                    ledger.expect(new, || format!("two lines for event {event}"));
                }
            }
        }
        let mut rest = &file[2..];
        for event in 1..=events {
            let line = lines.remove(&event);
            ledger.event(rest, 0, line.as_ref().map_or(&[], |line| &line.set), None);
            if ledger.broken.is_some() {
                return ledger;
            }
            if let Some(Line { controller, sums, .. }) = line {
                let named = rest[2] as usize == controller;
                ledger.expect(named, || format!("the line of event {event} names {controller}"));
                ledger.reads(rest[2] as usize, sums);
            }
            rest = &rest[1 + rest[0] as usize..];
        }
        ledger.expect(lines.is_empty(), || "a line for an event that was not accepted".into());
        ledger
    }
}
