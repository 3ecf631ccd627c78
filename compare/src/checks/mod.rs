//! Whether a case fails: a difference from the reference, or a list that breaks demand 3. A failing case is made small
//! and reported.

pub mod as_shown;
pub mod counts;
pub mod demand3;
mod difference;
pub mod dispatched;
pub mod matrix;
pub mod never_stale;
pub mod previews;
pub mod replay;
mod served;
pub mod sets;
pub mod side;
pub mod subsets;

use crate::cases::{minimise, Case};
use crate::engines::{Engine, Reference};
use std::any::Any;
use std::panic::{catch_unwind, AssertUnwindSafe};
use std::process::exit;
use std::time::{Duration, Instant};

/// What is wrong with one case. A panic is a failure too.
pub fn failure(case: &Case, engine: &dyn Engine) -> Option<String> {
    let all = || -> Result<(), String> {
        difference::difference(case, &Reference, engine)?;
        replay::keeps_demand3(case, engine)
    };
    catch_unwind(AssertUnwindSafe(all)).unwrap_or_else(|panic| Err(panic_text(&*panic))).err()
}

fn panic_text(panic: &(dyn Any + Send)) -> String {
    let text = panic.downcast_ref::<&str>().copied().or(panic.downcast_ref::<String>().map(String::as_str));
    format!("panicked: {}", text.unwrap_or_default())
}

/// What breaks demand 3 alone.
pub fn demand3_failure(case: &Case, engine: &dyn Engine) -> Option<String> {
    catch_unwind(AssertUnwindSafe(|| replay::keeps_demand3(case, engine))).unwrap_or(Ok(())).err()
}

/// What a failure is about, without the values: a smaller case must fail in the same way.
fn subject(text: &str) -> String {
    let subject = text.split("differs").next().unwrap_or(text);
    subject.chars().filter(|c| !c.is_ascii_digit()).take(24).collect()
}

/// The smallest case found within the time given.
pub fn smallest(case: &Case, engine: &dyn Engine, text: &str, time: Duration) -> Case {
    let start = Instant::now();
    let same = |t: String| subject(&t) == subject(text);
    minimise::minimise(case, &|smaller| start.elapsed() < time && failure(smaller, engine).is_some_and(same))
}

pub fn report_and_exit(what: &str, case: &Case, engine: &dyn Engine, text: &str) -> ! {
    let small = smallest(case, engine, text, Duration::from_secs(20));
    let again = failure(&small, engine).unwrap_or_default();
    println!("FAILED {what}: {text}\nmade small: {again}\n{}", small.text());
    exit(1)
}
