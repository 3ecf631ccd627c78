//! All kinds of random cases in turn, each case from a seed and its index alone. Below stand the kinds, and what they
//! are made of.

mod broken_tables;
pub mod buffers;
mod dispatched;
pub mod files;
mod lists;
pub mod odd;
mod pairs;
mod previews;
pub mod random;
pub mod runs;
pub mod tables;

use crate::cases::Case;
use broken_tables::table_broken;
use buffers::crowded_buffers;
use dispatched::{after_file, dispatched, driven, on_table};
use files::{file_limits, file_long, file_mangled, file_questions};
use lists::{boundaries, cut_off, drained, fresh_any, full, list, readings, rivals, set_points, under_way};
use previews::{previewed, previewed_after_file, previewed_table};
use random::Random;
use tables::{table_flipped, table_good, table_random};

/// A kind of case: its name, and how to make one.
pub type CaseKind = (&'static str, fn(&mut Random) -> Case);

pub const KINDS: [CaseKind; 31] = [
    ("list", list),
    ("table", table_good),
    ("broken table", table_broken),
    ("file", file_limits),
    ("drained list", drained),
    ("broken table", table_broken),
    ("mangled file", file_mangled),
    ("table", table_good),
    ("reports under way", under_way),
    ("boundaries", boundaries),
    ("crowded buffers", crowded_buffers),
    ("set points", set_points),
    ("broken table", table_broken),
    ("file questions", file_questions),
    ("flipped table", table_flipped),
    ("messages cut off", cut_off),
    ("fresh", fresh_any),
    ("full list", full),
    ("rival writers", rivals),
    ("readings", readings),
    ("long file", file_long),
    ("list", list),
    ("table", table_good),
    ("random table", table_random),
    ("crowded buffers", crowded_buffers),
    ("dispatched list", dispatched),
    ("dispatched table", on_table),
    ("driven to none", |random| if random.one_in(3) { after_file(random) } else { driven(random) }),
    ("look and take", previewed),
    ("look and take on a table", previewed_table),
    ("look and take", |random| if random.one_in(3) { previewed_after_file(random) } else { previewed(random) }),
];

/// Case `index` of a seed: each has a generator of its own, so that one case can be made again alone.
pub fn case(seed: u64, index: usize) -> (&'static str, Case) {
    let mut random = Random(seed ^ (index as u64).wrapping_mul(0xD6E8_FEB8_6659_FD93));
    random.next();
    let (name, make) = KINDS[index % KINDS.len()];
    (name, make(&mut random))
}
