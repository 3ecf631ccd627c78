//! The state of all controllers and the events on it: questions 10 to 15, 18 and 20, Algorithm 1 line by line, looks,
//! and counts of "goes before".

use super::*;

impl Controller {
    /// Lines 6 to 12: the log owner's forward number is marked; a message that was not pending becomes so, and is
    /// forwarded.
    fn take_in(&mut self, name: Name, owner: usize, place: usize) {
        if let Some(marks) = self.pending.get_mut(&name) {
            marks[owner - 1] = Some(place);
            return;
        }
        let mut marks = [None; MAX_CONTROLLERS];
        marks[owner - 1] = Some(place);
        self.pending.insert(name, marks);
        self.log.push(name);
    }
}

impl State {
    /// A fresh table of version 1 or 2 and of n controllers, n from 1 to 7.
    pub fn fresh(version: usize, n: usize) -> State {
        let controller = Controller {
            running: true,
            log: vec![],
            read: vec![0; n],
            pending: BTreeMap::new(),
            applied: BTreeSet::new(),
            highest: vec![0; n],
            registers: [Register::default(); REGISTERS],
        };
        State { version, n, messages: vec![], controllers: vec![controller; n] }
    }

    /// The payload of a message of the run.
    pub fn payload(&self, name: &Name) -> Payload {
        self.messages.iter().find(|m| m.name == *name).expect("a message of the run").payload
    }

    fn amount(&self, name: &Name) -> i32 {
        match self.payload(name) {
            Payload::Report { amount, .. } => amount,
            Payload::Sync | Payload::Write { .. } => 0,
        }
    }

    pub(super) fn class(&self, name: &Name) -> usize {
        match self.payload(name) {
            Payload::Report { class, .. } => class,
            Payload::Sync | Payload::Write { .. } => 0,
        }
    }

    /// The sums of the amounts of messages.
    pub(super) fn sums_of<'a>(&self, names: impl IntoIterator<Item = &'a Name>) -> Sums {
        names.into_iter().fold(Sums::default(), |sums, x| sums.plus(self.amount(x)))
    }

    /// The sums of what controller c has applied.
    pub fn sums(&self, c: usize) -> Sums {
        self.sums_of(&self.controllers[c - 1].applied)
    }

    /// The sums of one class that controller c has applied.
    pub(super) fn class_sums(&self, c: usize, class: usize) -> Sums {
        self.sums_of(self.controllers[c - 1].applied.iter().filter(|x| self.class(x) == class))
    }

    /// A panel look: question 8, then the sums, the sums of each class, and the registers that the controller holds.
    pub fn look(&self, c: usize) -> Result<Shown, u8> {
        first_no(&[(8, (1..=self.n).contains(&c))])?;
        let classes = std::array::from_fn(|class| self.class_sums(c, class));
        Ok(Shown { sums: self.sums(c), classes, registers: self.controllers[c - 1].registers })
    }

    /// The marks that controller c keeps for a message. A message that is not pending there has every mark absent.
    fn marks(&self, c: usize, name: &Name) -> Marks {
        self.controllers[c - 1].pending.get(name).copied().unwrap_or_default()
    }

    /// The count of "goes before" at controller c: question 8, put to c and to no sender; then how many controllers
    /// have a smaller mark there for the first message than for the second.
    pub fn count_before(&self, c: usize, first: &Name, second: &Name) -> Result<usize, u8> {
        first_no(&[(8, (1..=self.n).contains(&c))])?;
        let (x, y) = (self.marks(c, first), self.marks(c, second));
        Ok(goes_before(self.n, &x, &y))
    }

    /// Has controller c a message of its own pending?
    fn own_pending(&self, c: usize) -> bool {
        self.controllers[c - 1].pending.keys().any(|name| name.sender == c)
    }

    /// Question 20: is the latest message of controller c a sync that it has applied?
    pub fn synced(&self, c: usize) -> bool {
        let own = self.messages.iter().filter(|x| x.name.sender == c);
        let latest = own.max_by_key(|x| x.name.number);
        latest.is_some_and(|x| x.payload == Payload::Sync && self.controllers[c - 1].applied.contains(&x.name))
    }

    /// Questions 10 to 15, 18 and 20 in order, with their answers. A report may follow on pending messages of its
    /// sender.
    fn questions(&self, event: &Event, scratch: usize) -> Vec<(u8, bool)> {
        let mut asked = match *event {
            Event::Send { sender, payload } => {
                let s = &self.controllers[sender - 1];
                let waits = !matches!(payload, Payload::Report { .. }) && self.own_pending(sender);
                let early = matches!(payload, Payload::Write { .. }) && !self.synced(sender);
                vec![(10, s.running), (11, !waits), (12, self.messages.len() < MAX_MESSAGES), (20, !early)]
            }
            Event::Handover { receiver, owner } => {
                let (r, o) = (&self.controllers[receiver - 1], &self.controllers[owner - 1]);
                vec![(10, r.running), (13, r.read[owner - 1] < o.log.len())]
            }
            Event::Stop { controller, kept } => {
                let c = &self.controllers[controller - 1];
                let read_within = |r: usize| self.controllers[r - 1].read[controller - 1] <= kept;
                vec![(10, c.running), (14, kept <= c.log.len() && (1..=self.n).all(read_within))]
            }
            Event::Read { controller: c } => {
                vec![(10, self.controllers[c - 1].running), (18, !self.own_pending(c))]
            }
        };
        asked.push((15, scratch >= SCRATCH));
        asked
    }

    /// Questions 5 to 15 and 17 to 20: the event, and the bytes after its record.
    pub(super) fn accept<'a>(&self, bytes: &'a [u8], scratch: usize) -> Result<(Event, &'a [u8]), u8> {
        let (record, rest) = cut(bytes)?;
        let event = decode(record, self.version, self.n)?;
        first_no(&self.questions(&event, scratch))?;
        Ok((event, rest))
    }

    /// The date of a message that controller c sends. For a write it is one more than the date that c knows of its
    /// register (Algorithm 3).
    fn date(&self, c: usize, payload: Payload) -> usize {
        match payload {
            Payload::Write { register, .. } => self.controllers[c - 1].registers[register - 1].stamp.date + 1,
            _ => 0,
        }
    }

    /// A report, sync or write: nothing is applied.
    fn send(&mut self, sender: usize, payload: Payload) -> BTreeSet<Name> {
        let date = self.date(sender, payload);
        let s = &mut self.controllers[sender - 1];
        let place = s.log.len() + 1;
        let name = Name { sender, number: place };
        let mut marks = [None; MAX_CONTROLLERS];
        marks[sender - 1] = Some(place);
        s.pending.insert(name, marks);
        s.log.push(name);
        self.messages.push(Message { name, payload, date });
        BTreeSet::new()
    }

    /// Lines 3 to 14: the receiver reads the next entry of the owner's log and tries to apply.
    pub(super) fn handover(&mut self, receiver: usize, owner: usize) -> BTreeSet<Name> {
        let place = self.controllers[receiver - 1].read[owner - 1] + 1;
        let name = self.controllers[owner - 1].log[place - 1];
        let r = &mut self.controllers[receiver - 1];
        r.read[owner - 1] = place;
        if name.number > r.highest[name.sender - 1] {
            r.take_in(name, owner, place);
        }
        self.apply(receiver)
    }

    /// Lines 15 to 20: applies the largest set and answers it.
    fn apply(&mut self, receiver: usize) -> BTreeSet<Name> {
        let set = largest(self.n, &self.controllers[receiver - 1].pending);
        let r = &mut self.controllers[receiver - 1];
        for name in &set {
            r.pending.remove(name);
            r.applied.insert(*name);
            let highest = &mut r.highest[name.sender - 1];
            *highest = name.number.max(*highest);
        }
        self.hold(receiver, &set);
        set
    }

    /// Algorithm 3 on a set that controller c applies: a write is held from then on if its stamp exceeds the one held.
    pub fn hold(&mut self, c: usize, set: &BTreeSet<Name>) {
        for x in self.messages.iter().filter(|x| set.contains(&x.name)) {
            let Payload::Write { register, value } = x.payload else { continue };
            let stamp = Stamp { date: x.date, writer: x.name.sender };
            let held = &mut self.controllers[c - 1].registers[register - 1];
            if stamp > held.stamp {
                *held = Register { value, stamp };
            }
        }
    }

    /// A stop: nothing is applied.
    fn stop(&mut self, controller: usize, kept: usize) -> BTreeSet<Name> {
        let c = &mut self.controllers[controller - 1];
        c.running = false;
        c.log.truncate(kept);
        BTreeSet::new()
    }

    /// A local read (Algorithm 5, line 5): the sums, without a message. Nothing changes.
    fn read(&mut self, controller: usize) -> Answer {
        Answer { sums: self.sums(controller), ..Answer::default() }
    }

    /// Carries out an event that passed its questions. Answers the set and the sums of a finished sync or a local read.
    pub(super) fn carry_out(&mut self, event: Event) -> Answer {
        let (set, subject) = match event {
            Event::Send { sender, payload } => (self.send(sender, payload), sender),
            Event::Handover { receiver, owner } => (self.handover(receiver, owner), receiver),
            Event::Stop { controller, kept } => (self.stop(controller, kept), controller),
            Event::Read { controller } => return self.read(controller),
        };
        let own_sync = |x: &Name| x.sender == subject && self.payload(x) == Payload::Sync;
        let finished = set.iter().any(own_sync);
        let sums = if finished { self.sums(subject) } else { Sums::default() };
        Answer { refusal: 0, set: set.into_iter().collect(), finished, sums }
    }

    /// The single-event call on a table that is known to be well formed. Answers the rest of the bytes too.
    pub fn event<'a>(&mut self, bytes: &'a [u8], scratch: &mut [u8]) -> (Answer, &'a [u8]) {
        match self.accept(bytes, scratch.len()) {
            Ok((event, rest)) => {
                let answer = self.carry_out(event);
                clear(scratch);
                (answer, rest)
            }
            Err(refusal) => (Answer { refusal, ..Answer::default() }, bytes),
        }
    }
}

/// What an accepted call leaves in scratch: zeros as far as it asks for bytes, and the rest as it was.
pub(super) fn clear(scratch: &mut [u8]) {
    scratch[..SCRATCH].fill(0);
}
