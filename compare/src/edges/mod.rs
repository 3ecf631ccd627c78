//! The runs that docs/RULES.md prints whole and its list of edges, with the answers it gives, put to any engine. What
//! is written as text stands in the folder `cases/answers`.

mod classes;
mod counts;
mod dispatcher;
mod files;
mod lists;
mod local_reads;
pub mod long_runs;
mod previews;
mod reports;
mod scratch;
mod script;
mod tables;
pub mod whole_runs;
mod writes;

use crate::engines::Engine;

pub fn check(engine: &dyn Engine) -> Result<(), String> {
    whole_runs::check(engine)?;
    tables::check(engine)?;
    files::check(engine)?;
    reports::check(engine)?;
    classes::check(engine)?;
    local_reads::check(engine)?;
    writes::check(engine)?;
    lists::check(engine)?;
    counts::check(engine)?;
    dispatcher::check(engine)?;
    previews::check(engine)?;
    scratch::check(engine)?;
    long_runs::check(engine)
}
