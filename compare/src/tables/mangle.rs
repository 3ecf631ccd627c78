//! Tables with fields mangled that the functions over a table read.

use crate::generate::random::Random;
use furnacejade::{MessageNumber, Table, CONTROLLERS, MESSAGES};

/// A number around the limits of lists, and far off.
fn odd(random: &mut Random) -> usize {
    match random.below(3) {
        0 => random.pick(&[0, 1, 2, 6, 7, 8, 9, 62, 63, 64, 65, 255]),
        1 => random.pick(&[99, 256, 257, 500, 9999, 1 << 32, (1 << 32) + 3, 1 << 63, usize::MAX - 1, usize::MAX]),
        _ => random.below(8),
    }
}

/// Changes one field.
fn change(random: &mut Random, t: &mut Table) {
    let (c, slot) = (random.below(CONTROLLERS), random.below(MESSAGES));
    let (message, own) = (&mut t.messages[slot], &mut t.controllers[c]);
    match random.below(11) {
        0 => t.n = odd(random),
        1 => t.count = odd(random),
        2 => message.sender = random.pick(&[0, 1, 2, 3, 7, 8, 255]),
        3 => message.number = MessageNumber(random.pick(&[0, 1, 2, 3, 64, 65, 255])),
        4 => own.length = odd(random),
        5 | 6 => own.read[random.below(CONTROLLERS)] = odd(random),
        7 => own.running = random.pick(&[0, 0, 1, 2, 128, 255]),
        8 => own.pending[slot].held = random.pick(&[0, 1, 2, 255]),
        9 => own.applied[slot] = random.pick(&[0, 1, 2, 255]),
        // A name twice: the first slot counts.
        _ => t.messages[slot] = t.messages[random.below(t.count.clamp(1, MESSAGES))],
    }
}

/// The table with some fields changed.
pub fn mangled(random: &mut Random, t: &Table) -> Table {
    let mut t = t.clone();
    (0..random.pick(&[1, 2, 4, 20])).for_each(|_| change(random, &mut t));
    t
}
