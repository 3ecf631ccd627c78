//! Counts of "goes before" on one table: of every pair of names at every controller, and of names and numbers that
//! are no message's and no controller's.

use super::random::Random;
use crate::cases::{name, Asked, Call};
use furnacejade::{MessageNumber, Name, Table, CONTROLLERS, MESSAGES};

/// Names for calls on a table: of all its messages, of slots after them, of messages that were never sent, and names
/// that no message can have.
fn names(random: &mut Random, t: &Table) -> Vec<Name> {
    let (n, count) = (t.n.clamp(1, CONTROLLERS), t.count.min(MESSAGES));
    let slot = |s: usize| Name { sender: t.messages[s].sender, number: t.messages[s].number };
    let mut names: Vec<Name> = (0..count).map(slot).collect();
    let unsent: Vec<Name> = (1..=n).flat_map(|sender| (1..=64).map(move |number| name(sender, number))).collect();
    let unsent: Vec<Name> = unsent.into_iter().filter(|x| !names.contains(x)).collect();
    names.extend((0..2).filter(|_| !unsent.is_empty()).map(|_| random.pick(&unsent)).collect::<Vec<Name>>());
    names.extend((count..MESSAGES).take(2).map(slot));
    names.extend((count..MESSAGES).rev().take(1).map(slot));
    let Name { sender, number } = if count > 0 { slot(random.below(count)) } else { name(1, 1) };
    names.extend([0, sender.wrapping_add(8), 255].map(|sender| Name { sender, number }));
    names.extend([0, number.0.wrapping_add(64), 65, 255].map(|number| Name { sender, number: MessageNumber(number) }));
    names.extend([name(n + 1, number.0 as usize), name(0, 0), name(255, 255)]);
    names.sort();
    names.dedup();
    names
}

/// Every pair of these names at every controller, and at numbers that are no controller's.
pub fn every_pair(random: &mut Random, t: &Table) -> Vec<Call> {
    let (names, n) = (names(random, t), t.n.clamp(1, CONTROLLERS));
    let controllers = (0..=n + 1).chain([255, usize::MAX]);
    let pairs = names.iter().flat_map(|first| names.iter().map(move |second| (*first, *second)));
    let pairs: Vec<(Name, Name)> = pairs.collect();
    let at = |controller: usize| {
        pairs.iter().map(move |(first, second)| Call::CountBefore(Asked { controller, first: *first, second: *second }))
    };
    controllers.flat_map(at).collect()
}
