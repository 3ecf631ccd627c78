//! The mode `count`: how often each answer comes in random cases, to see what these reach. The reference alone answers,
//! and the checker of demand 3 says how often it had something to check.

use crate::cases::{asked_in, Asked, Call, Case, Head};
use crate::checks::as_shown;
use crate::checks::counts::pending;
use crate::checks::dispatched;
use crate::checks::never_stale::Tally;
use crate::checks::replay::ledger_of;
use crate::checks::sets;
use crate::engines::Reference;
use crate::generate;
use crate::reference::{calls, to_state, well_formed, MAX_MESSAGES, SCRATCH};
use furnacejade::{
    Answer, AskAnswer, Controller, DispatchAnswer, Message, Pair, Payload, Refusal, RefusalNumber, Stamp, Sums, Table,
};

/// Accepted calls have number 0, and the refusals follow.
const NUMBERS: usize = 1 + Refusal::ALL.len();

/// How often each answer came, by number and by the size of its set.
struct Counts {
    events: [usize; NUMBERS],
    looks: [usize; NUMBERS],
    asked: [usize; NUMBERS],
    dispatches: [usize; NUMBERS],
    files: [usize; NUMBERS],
    before: Before,
    /// Accepted events, by how many messages they apply.
    sizes: [usize; MAX_MESSAGES + 1],
    most_pending: usize,
    kept_pending: usize,
    most_own: usize,
    local_reads: usize,
    both: BothSums,
    set: SetPoints,
    readings: Tally,
    served: Served,
    dispatched: dispatched::Tally,
    previews: Previews,
    as_shown: as_shown::Tally,
    sets: sets::Tally,
}

/// How often each ask and each commit was answered, by number; how many asks showed a set, and of how many messages at
/// most; how many of the accepted ones were of a stopped owner; and how many commits took a set and finished a sync.
struct Previews {
    asks: [usize; NUMBERS],
    commits: [usize; NUMBERS],
    sets: usize,
    most: usize,
    stopped_owner: usize,
    taken_sets: usize,
    syncs: usize,
}

/// How many calls of the dispatcher served a pair: that of a stopped owner, the one named, one that applies a set and
/// one that finishes a sync; how many had to pass over a stopped receiver that has something unread, and how many said
/// "none" with too little scratch.
#[derive(Default)]
struct Served {
    all: usize,
    stopped_owner: usize,
    named: usize,
    sets: usize,
    syncs: usize,
    passed_over: usize,
    nones: usize,
    short_nones: usize,
}

/// How many writes were accepted, and how many of them with a date that another write of the register has; how many
/// looks show a register, several, and one that was written again.
#[derive(Default)]
struct SetPoints {
    writes: usize,
    rivals: usize,
    looks: usize,
    several: usize,
    again: usize,
}

/// How many counts of "goes before" were of two messages that are pending there, by their count, and how many of those
/// at a stopped controller; how many were of one that is pending and one that is not, and of none.
#[derive(Default)]
struct Before {
    both: [usize; 8],
    stopped: usize,
    one: usize,
    none: usize,
}

/// How often both sums were above 0.
#[derive(Default)]
struct BothSums {
    syncs: usize,
    local_reads: usize,
    looks: usize,
    classes: usize,
}

/// 1 if both sums are above 0, else 0.
fn has_both(sums: Sums) -> usize {
    (sums.added > 0 && sums.withdrawn > 0) as usize
}

impl Counts {
    fn new() -> Counts {
        let zero = [0; NUMBERS];
        Counts {
            events: zero,
            looks: zero,
            asked: zero,
            dispatches: zero,
            files: zero,
            before: Before::default(),
            sizes: [0; MAX_MESSAGES + 1],
            most_pending: 0,
            kept_pending: 0,
            most_own: 0,
            local_reads: 0,
            both: BothSums::default(),
            set: SetPoints::default(),
            readings: Tally::default(),
            served: Served::default(),
            dispatched: dispatched::Tally::default(),
            previews: Previews {
                asks: zero,
                commits: zero,
                sets: 0,
                most: 0,
                stopped_owner: 0,
                taken_sets: 0,
                syncs: 0,
            },
            as_shown: as_shown::Tally::default(),
            sets: sets::Tally::default(),
        }
    }

    fn case(&mut self, case: &Case) {
        self.readings(case);
        let mut table = self.head(&case.head);
        for calls in case.counts_together() {
            match &calls[0] {
                Call::Look(c) => self.look(&table, *c),
                Call::Event { bytes, scratch } => self.event(&mut table, bytes, *scratch),
                Call::CountBefore(_) => self.goes_before(&mut table, &asked_in(calls)),
                Call::Dispatch { named, scratch } => self.dispatch(&mut table, *named, *scratch),
                Call::Ask { pair, scratch } => self.ask(&mut table, *pair, *scratch),
                Call::Commit { pair, acts, scratch } => self.commit(&mut table, *pair, *acts, *scratch),
            }
        }
    }

    /// How often a list had to find something that was finished.
    fn readings(&mut self, case: &Case) {
        if let Some(ledger) = ledger_of(case, &Reference) {
            self.readings.add(&ledger.readings.tally);
            self.dispatched.add(&ledger.dispatched.tally);
            self.as_shown.add(&ledger.as_shown.tally);
        }
    }

    fn ask(&mut self, table: &mut Table, pair: Pair, scratch: usize) {
        let mut answer = AskAnswer::BLANK;
        calls::ask(table, pair, &mut vec![0; scratch], &mut answer);
        self.previews.asks[answer.refusal.0 as usize] += 1;
        self.previews.sets += (answer.size > 0) as usize;
        self.previews.most = self.previews.most.max(answer.size);
        if answer.refusal == RefusalNumber::ACCEPTED {
            self.looked_for(table, pair);
            self.previews.stopped_owner += (table.controllers[pair.owner - 1].running == 0) as usize;
        }
    }

    fn commit(&mut self, table: &mut Table, pair: Pair, acts: usize, scratch: usize) {
        let (before, mut answer) = (table.clone(), Answer::BLANK);
        calls::commit(table, pair, acts, &mut vec![0; scratch], &mut answer);
        self.previews.commits[answer.refusal.0 as usize] += 1;
        if answer.refusal == RefusalNumber::ACCEPTED {
            self.looked_for(&before, pair);
        }
        self.previews.taken_sets += (answer.size > 0) as usize;
        self.previews.syncs += answer.finished as usize;
    }

    fn dispatch(&mut self, table: &mut Table, named: Pair, scratch: usize) {
        let (before, mut dispatched) = (table.clone(), DispatchAnswer::BLANK);
        calls::dispatch(table, named, &mut vec![0; scratch], &mut dispatched);
        let DispatchAnswer { pair, answer } = dispatched;
        self.dispatches[answer.refusal.0 as usize] += 1;
        if answer.refusal != RefusalNumber::ACCEPTED {
            return;
        }
        let unread = |r: &Controller| (0..before.n).any(|o| r.read[o] < before.controllers[o].length);
        let stopped = before.controllers[..before.n].iter().filter(|r| r.running == 0);
        self.served.passed_over += stopped.filter(|r| unread(r)).count().min(1);
        if pair == Pair::BLANK {
            self.served.nones += 1;
            self.served.short_nones += (scratch < SCRATCH) as usize;
            return;
        }
        self.looked_for(&before, pair);
        self.served.all += 1;
        self.served.stopped_owner += (before.controllers[pair.owner - 1].running == 0) as usize;
        self.served.named += (pair == named) as usize;
        self.served.sets += (answer.size > 0) as usize;
        self.served.syncs += answer.finished as usize;
    }

    fn head(&mut self, head: &Head) -> Table {
        match head {
            Head::Table(t) => (**t).clone(),
            Head::Fresh { version, n } => calls::fresh(*version, *n).table,
            Head::File { bytes, listing, scratch } => {
                let run = calls::run(bytes, &mut vec![0; *listing], &mut vec![0; *scratch]);
                self.files[run.refusal.0 as usize] += 1;
                run.table
            }
        }
    }

    fn event(&mut self, table: &mut Table, bytes: &[u8], scratch: usize) {
        let (before, mut answer) = (table.clone(), Answer::BLANK);
        calls::event(table, bytes, &mut vec![0; scratch], &mut answer);
        self.events[answer.refusal.0 as usize] += 1;
        self.sizes[answer.size] += 1;
        let pending = |c: &Controller| c.pending.iter().filter(|p| p.held != 0).count();
        self.both.syncs += answer.sync_answer().map_or(0, has_both);
        if answer.refusal == RefusalNumber::ACCEPTED {
            if bytes[1] == Payload::WRITE {
                self.write(table);
            }
            if bytes[1] == sets::HANDOVER {
                self.looked_for(&before, Pair { receiver: bytes[2].into(), owner: bytes[3].into() });
            }
            let own = |c: usize, slot: usize| table.messages[slot].sender as usize == c + 1;
            let waits = |c: usize, slot: usize| own(c, slot) && table.controllers[c].pending[slot].held != 0;
            let own_at = |c: usize| (0..table.count).filter(|slot| waits(c, *slot)).count();
            self.most_own = (0..table.n).map(own_at).fold(self.most_own, usize::max);
            if bytes[1] == calls::LOCAL_READ {
                self.local_reads += 1;
                self.both.local_reads += has_both(answer.sums);
            }
        }
        if answer.size > 0 {
            let left = pending(&table.controllers[bytes[2] as usize - 1]);
            self.most_pending = self.most_pending.max(left + answer.size);
            self.kept_pending += (left > 0) as usize;
        }
    }

    /// A set was looked for at the receiver of a handover, on the table before it.
    fn looked_for(&mut self, before: &Table, pair: Pair) {
        self.sets.see(before.n, &sets::buffer(before, pair));
    }

    /// A write that was accepted is the table's last message.
    fn write(&mut self, table: &Table) {
        let Some((last, before)) = table.messages[..table.count].split_last() else { return };
        let rivals = |m: &Message| (m.payload.reg, m.date) == (last.payload.reg, last.date);
        self.set.writes += 1;
        self.set.rivals += before.iter().any(rivals) as usize;
    }

    fn goes_before(&mut self, table: &mut Table, asked: &[Asked]) {
        let state = well_formed(table).then(|| to_state(table));
        for (asked, answer) in asked.iter().zip(calls::counts_before(table, asked)) {
            self.asked[answer.refusal.0 as usize] += 1;
            let (Some(state), RefusalNumber::ACCEPTED) = (&state, answer.refusal) else { continue };
            let is_pending = |name| pending(state, asked.controller, name).is_some();
            match (is_pending(&asked.first), is_pending(&asked.second)) {
                (true, true) => {
                    self.before.both[answer.count] += 1;
                    self.before.stopped += !state.controllers[asked.controller - 1].running as usize;
                }
                (false, false) => self.before.none += 1,
                _ => self.before.one += 1,
            }
        }
    }

    fn look(&mut self, table: &Table, c: usize) {
        let answer = calls::look(table, c);
        self.looks[answer.refusal.0 as usize] += 1;
        self.both.looks += has_both(answer.panel.sums);
        let written = |from: Stamp| answer.panel.registers.iter().filter(move |x| x.stamp > from).count();
        let (any, again) = (written(Stamp::BLANK), written(Stamp { date: 1, writer: u16::MAX }));
        self.set.looks += (any > 0) as usize;
        self.set.several += (any > 1) as usize;
        self.set.again += (again > 0) as usize;
        self.both.classes += answer.panel.classes[1..].iter().map(|sums| has_both(*sums)).sum::<usize>();
    }

    fn print(&self) {
        let Counts { events, looks, files, sizes, most_pending, kept_pending, most_own, local_reads, .. } = self;
        println!("events by number {events:?}\nlooks by number {looks:?}\nfiles by number {files:?}");
        println!("sets by size {sizes:?}");
        println!("most pending at a set {most_pending}; sets that left others pending {kept_pending}");
        println!("most of a sender's own pending {most_own}; local reads accepted {local_reads}");
        self.print_subjects();
    }

    fn print_subjects(&self) {
        let BothSums { syncs, local_reads, looks, classes } = self.both;
        println!(
            "both sums above 0: finished syncs {syncs}, local reads {local_reads}, looks {looks}, weight classes {classes}"
        );
        let (asked, Before { both, stopped, one, none }) = (&self.asked, &self.before);
        println!("counts of goes before by number {asked:?}; of two pending messages by count {both:?}");
        println!("of these at a stopped controller {stopped}; counts of one pending message {one}, of none {none}");
        let SetPoints { writes, rivals, looks, several, again } = self.set;
        println!("writes accepted {writes}, of them with the date of a rival {rivals}");
        println!("looks that show a register {looks}, several {several}, one that was written again {again}");
        let Tally { syncs, lacking, second_syncs, looks, stale_reads } = self.readings;
        println!(
            "syncs finished that were begun after another's message was {syncs}, after another's sync {second_syncs}"
        );
        println!("syncs finished whose sender lacked something finished when they were begun {lacking}");
        println!("looks that must find a finished write of another {looks}; stale local reads {stale_reads}");
        self.print_dispatched();
    }

    fn print_dispatched(&self) {
        let Served { all, stopped_owner, named, sets, syncs, passed_over, nones, short_nones } = self.served;
        println!("calls of the dispatcher by number {:?}; handovers {all}, none {nones}", self.dispatches);
        println!(
            "of the handovers with a set {sets}, that finish a sync {syncs}, from a stopped owner {stopped_owner}"
        );
        println!("of the pair named {named}; none with too little scratch {short_nones}");
        println!("accepted where a stopped receiver has something unread {passed_over}");
        let dispatched::Tally { made, nones, rounds, mixed, last_moment } = self.dispatched;
        println!("in lists: its handovers {made}, none {nones}; stretches of n x n that had to be fair {rounds}");
        println!("of these with other handovers in between {mixed}, with an entry that the last reads {last_moment}");
        self.print_previews();
    }

    fn print_previews(&self) {
        let Previews { asks, commits, sets, most, stopped_owner, taken_sets, syncs } = &self.previews;
        println!(
            "asks by number {asks:?}; with a set {sets}, the greatest of {most}, of a stopped owner {stopped_owner}"
        );
        println!("commits by number {commits:?}; with a set {taken_sets}, that finish a sync {syncs}");
        let as_shown::Tally { asks, sets, taken, taken_sets, others_acted, cut_away, acted, handed } = self.as_shown;
        println!("in lists: asks accepted {asks}, with a set {sets}; commits of what was shown {taken}, with a set {taken_sets}");
        println!("of these after acts of others {others_acted}; refused because the entry was cut away {cut_away}");
        println!("refused where the receiver had acted {acted}; handovers of what was shown, by any call {handed}");
        self.print_sets();
    }

    fn print_sets(&self) {
        let sets::Tally { all, most, full, mixed, none_out, all_out, some_out, .. } = self.sets;
        println!("sets looked for {all}, with at most {most} pending, with 64 pending {full}");
        println!("with candidates and others pending {mixed}");
        println!("no candidate was taken out {none_out}, all were {all_out}, some were {some_out}");
        let sets::Tally { rounds, most_rounds, forced_before, forced_after, .. } = self.sets;
        println!("by rounds of removals, up to seven and more {rounds:?}, the most {most_rounds}");
        println!(
            "a message taken out forces out one before it in slot order {forced_before}, one after it {forced_after}"
        );
    }
}

pub fn print(cases: usize, seed: u64) {
    let mut counts = Counts::new();
    (0..cases).for_each(|index| counts.case(&generate::case(seed, index).1));
    counts.print();
}
