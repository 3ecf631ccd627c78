//! The edges of run files: a listing of every length, scratch around its least, the shortest files and the longest,
//! each compared with the reference's run.

use super::long_runs::dense_run;
use super::script::expect;
use super::whole_runs::worked;
use crate::cases::records::file_of;
use crate::engines::{Engine, Reference};
use crate::reference::{LISTING, SCRATCH};

/// A file run with these lengths lent, both dirty, is the reference's.
pub fn same_run(
    engine: &dyn Engine,
    file: &[u8],
    listing: usize,
    scratch: usize,
    edge: &str,
) -> Result<(usize, u8), String> {
    let lend = |engine: &dyn Engine| {
        let (mut lines, mut area) = (vec![7; listing], vec![7; scratch]);
        let run = engine.run(file, &mut lines, &mut area);
        ((run.refusal.0, run.events, run.written), lines, area)
    };
    let found = lend(engine);
    expect(found == lend(&Reference), edge)?;
    Ok((found.0 .1, found.0 .0))
}

fn runs(engine: &dyn Engine) -> Result<(), String> {
    for version in [1, 2] {
        let end = same_run(engine, &dense_run(version), LISTING, SCRATCH, "dense run")?;
        expect(end == (3_207, 0), "the dense run's events")?;
    }
    let whole = worked();
    for listing in 0..=whole.listing().len() + 1 {
        for scratch in [SCRATCH - 1, SCRATCH, SCRATCH + 1] {
            same_run(engine, &whole.file, listing, scratch, "a listing of every length")?;
        }
    }
    for (length, end) in [(65_535, (11, 6)), (65_536, (0, 1))] {
        let mut file = whole.file.clone();
        file.resize(length, 0);
        expect(same_run(engine, &file, LISTING, SCRATCH, "long file")? == end, "a file of 65,535 bytes and one more")?;
    }
    Ok(())
}

fn short_files(engine: &dyn Engine) -> Result<(), String> {
    let header = file_of(1, 3, &[]);
    for (file, number) in [(&header[..1], 1), (&header, 0), (&[1, 8], 3)] {
        let run = engine.run(file, &mut [], &mut []);
        expect((run.refusal.0, run.events, run.written) == (number, 0, 0), "short files")?;
    }
    Ok(())
}

pub fn check(engine: &dyn Engine) -> Result<(), String> {
    runs(engine)?;
    short_files(engine)
}
