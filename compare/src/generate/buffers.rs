//! Random buffers with up to 64 messages pending, of which few or many are candidates, and of which none, some or all are
//! taken out, at once or one after the other. They come in well-formed tables, most of which no run reaches, with every
//! call that looks for a set; and in no table, with any marks.

use super::odd::any_scratch;
use super::random::Random;
use super::runs::{follow, follow_commit, follow_dispatch};
use super::tables::{table_of, Shape};
use crate::cases::records::handover;
use crate::cases::{Call, Case, Head};
use crate::checks::matrix::Buffer;
use crate::checks::subsets;
use crate::reference::{to_state, well_formed, State};
use furnacejade::{ForwardNumber, Pair, Pending, Table, CONTROLLERS, MESSAGES};

/// The marks of one message.
type Marks = [ForwardNumber; CONTROLLERS];

/// Half of the time so few messages that all subsets can be tried, and else up to all that a table has.
fn any_size(random: &mut Random) -> usize {
    match random.below(4) {
        0 => random.pick(&[MESSAGES - 1, MESSAGES, MESSAGES]),
        1 => random.between(subsets::MOST + 1, MESSAGES),
        _ => random.between(2, subsets::MOST),
    }
}

/// Some of these at random, at most that many.
fn some_of(random: &mut Random, from: &[usize], many: usize) -> Vec<usize> {
    let mut some = from.to_vec();
    random.shuffle(&mut some);
    some.truncate(many);
    some
}

/// A message's place in the order of each controller, and the controllers at which it has changed places with the message
/// before it.
struct Placed {
    places: [u8; CONTROLLERS],
    swapped: Vec<usize>,
}

impl Placed {
    /// The controllers among these at which it has not changed places with the message before it.
    fn others(&self, known: &[usize]) -> Vec<usize> {
        known.iter().copied().filter(|f| !self.swapped.contains(f)).collect()
    }
}

/// Messages in one order, but for neighbours that have changed places at some of these controllers, as many as it takes
/// that the first does not go before the second.
fn linked_places(random: &mut Random, known: &[usize], swaps: usize, size: usize) -> Vec<Placed> {
    let share = random.pick(&[1, 2, 10, 100]);
    let in_order = |place: usize| Placed { places: [place as u8; CONTROLLERS], swapped: vec![] };
    let mut all: Vec<Placed> = (1..=size).map(in_order).collect();
    for x in 1..size {
        let many = if random.below(share + 1) > 0 { swaps } else { 0 };
        let swapped = some_of(random, &all[x - 1].others(known), many);
        for f in &swapped {
            (all[x - 1].places[*f], all[x].places[*f]) = (all[x].places[*f], all[x - 1].places[*f]);
        }
        all[x].swapped = swapped;
    }
    all
}

/// Marks by which each message goes before all those after it, but often not before the next one, so that a message that
/// is taken out forces out the one before it. A majority of the controllers has marks, or a few more. Some messages lack
/// marks, and are no candidates: in most buffers the last one or the last few, in others one in the middle.
fn linked_marks(random: &mut Random, n: usize, size: usize) -> Vec<Marks> {
    let majority = n / 2 + 1;
    let many = if random.one_in(3) { random.between(majority, n) } else { majority };
    let (known, too_many) = (some_of(random, &(0..n).collect::<Vec<_>>(), many), many - majority + 1);
    let placed = linked_places(random, &known, too_many, size);
    let mut marks = vec![[ForwardNumber::ABSENT; CONTROLLERS]; size];
    for (marks, x) in marks.iter_mut().zip(&placed) {
        known.iter().for_each(|f| marks[*f] = ForwardNumber(x.places[*f]));
    }
    let lacking = random.pick(&[0, 1, 1, 1, 1, 2, size / 4]).min(size);
    for x in size - lacking..size {
        let x = if random.one_in(8) { random.below(size) } else { x };
        let absent = some_of(random, &placed[x].others(&known), too_many);
        absent.into_iter().for_each(|f| marks[x][f] = ForwardNumber::ABSENT);
    }
    marks
}

/// Any marks up to a number, of which one in a few is absent.
fn any_marks(random: &mut Random, size: usize, most: u8) -> Vec<Marks> {
    let (absent, range) = (random.pick(&[2, 3, 10]), random.pick(&[2, 8, most]) as usize);
    let mut mark = || match random.one_in(absent) {
        true => ForwardNumber::ABSENT,
        false => ForwardNumber(random.between(1, range) as u8),
    };
    (0..size).map(|_| std::array::from_fn(|_| mark())).collect()
}

/// Puts messages into slots: in order, the other way round, or anyhow.
fn put(random: &mut Random, mut slots: Vec<usize>, marks: Vec<Marks>, buffer: &mut Buffer) {
    match random.below(4) {
        0 => {}
        1 => slots.reverse(),
        _ => random.shuffle(&mut slots),
    }
    slots.into_iter().zip(marks).for_each(|(slot, marks)| buffer[slot].marks = marks);
}

/// A buffer in no table, for any n: any bytes as flags and marks, also in slots that are not held.
pub fn buffer(random: &mut Random) -> (usize, Buffer) {
    let (n, size) = (random.between(1, CONTROLLERS), any_size(random));
    let held = some_of(random, &(0..MESSAGES).collect::<Vec<_>>(), size);
    let mut rubbish = || ForwardNumber(random.byte());
    let mut buffer: Buffer = std::array::from_fn(|_| Pending { held: 0, marks: std::array::from_fn(|_| rubbish()) });
    for slot in &held {
        buffer[*slot].held = random.between(1, 255) as u8;
    }
    let marks = match random.below(3) {
        0 => any_marks(random, size, 254),
        _ => linked_marks(random, n, size),
    };
    put(random, held, marks, &mut buffer);
    if random.one_in(4) {
        buffer[random.below(MESSAGES)].marks[random.below(n)] = ForwardNumber(random.pick(&[0, 65, 254, 255]));
    }
    (n, buffer)
}

/// Nearly all run, know all messages, and have most of them pending or all.
fn crowded(random: &mut Random) -> Shape {
    Shape { stopped: 50, share: random.pick(&[9, 10, 10]), held: random.pick(&[5, 9, 10, 10]) }
}

/// The next entry that a controller reads of its own log is a pending message that has that mark already, if there is
/// one: that handover looks for the set in the buffer as it is.
fn reread(t: &mut Table, c: usize) {
    let own = &mut t.controllers[c];
    let marked =
        |slot: &usize| own.pending[*slot].held != 0 && (1..=own.length).contains(&own.pending[*slot].marks[c].0.into());
    let Some(slot) = (0..t.count).find(marked) else { return };
    let place = own.pending[slot].marks[c].0 as usize - 1;
    let Some(now) = own.log[..own.length].iter().position(|entry| *entry as usize == slot) else { return };
    own.log.swap(place, now);
    own.read[c] = place;
}

fn crowded_table(random: &mut Random) -> Table {
    let (n, count) = (random.pick(&[1, 2, 3, 3, 4, 5, 6, 7, 7]), any_size(random));
    let mut t = table_of(random, n, count, crowded);
    for c in 0..n {
        let own = &mut t.controllers[c];
        let held: Vec<usize> = (0..count).filter(|slot| own.pending[*slot].held != 0).collect();
        let marks = match random.below(6) {
            0 => any_marks(random, held.len(), 64),
            1 => continue,
            _ => linked_marks(random, n, held.len()),
        };
        put(random, held, marks, &mut own.pending);
        if random.one_in(2) {
            reread(&mut t, c);
        }
    }
    assert!(well_formed(&t), "the generator makes well-formed tables");
    t
}

/// Asks of these pairs, and then handovers of some of them, by a record, by the dispatcher or by a commit.
fn looks_for_sets(random: &mut Random, state: &mut State, pairs: Vec<Pair>) -> Vec<Call> {
    let ask = |random: &mut Random, pair: &Pair| Call::Ask { pair: *pair, scratch: any_scratch(random) };
    let mut calls: Vec<Call> = pairs.iter().map(|pair| ask(random, pair)).collect();
    for _ in 0..random.between(1, 3) {
        let (pair, scratch) = (random.pick(&pairs), any_scratch(random));
        calls.push(match random.below(3) {
            0 => {
                let bytes = handover(pair.receiver, pair.owner);
                follow(state, &bytes, scratch);
                Call::Event { bytes, scratch }
            }
            1 => {
                follow_dispatch(state, pair, scratch);
                Call::Dispatch { named: pair, scratch }
            }
            _ => {
                let acts = state.acts(pair.receiver);
                follow_commit(state, pair, acts, scratch);
                Call::Commit { pair, acts, scratch }
            }
        });
    }
    calls
}

/// A table with many messages pending, and calls that look for sets: of every pair if its messages are few, and else of
/// some.
pub fn crowded_buffers(random: &mut Random) -> Case {
    let t = crowded_table(random);
    let pairs: Vec<Pair> =
        (1..=t.n).flat_map(|receiver| (1..=t.n).map(move |owner| Pair { receiver, owner })).collect();
    let mut pairs = if t.count > subsets::MOST { (0..4).map(|_| random.pick(&pairs)).collect() } else { pairs };
    let own = random.between(1, t.n);
    pairs.push(Pair { receiver: own, owner: own });
    let calls = looks_for_sets(random, &mut to_state(&t), pairs);
    Case { head: Head::Table(Box::new(t)), calls }
}
