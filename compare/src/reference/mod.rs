//! An implementation of docs/RULES.md that shares nothing with the product, made from the rules alone: sets and maps,
//! the source's lines, the questions in order, slow and plain on purpose. The faults of the folder `faults` edit a copy
//! of these files, in which any of them may be used; hence each file takes in all the others.

mod applied_set;
pub mod calls;
mod dispatcher;
mod files;
mod messages;
mod previews;
mod queries;
mod records;
mod state;
mod tables;
mod well_formed;

pub use applied_set::*;
pub use dispatcher::*;
pub use files::*;
pub use messages::*;
pub use previews::*;
pub use queries::*;
pub use tables::*;
pub use well_formed::*;

use records::*;
use state::*;
use std::collections::{BTreeMap, BTreeSet};
