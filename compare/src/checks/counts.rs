//! What holds of counts of "goes before", whatever the marks are: their limits, both ways round together, and a
//! majority as the relation of line 16 has it.

use super::subsets;
use crate::cases::Asked;
use crate::reference::{self, precedes, to_state, well_formed, Marks, State};
use furnacejade::{CountAnswer, Name, RefusalNumber, Table};
use std::collections::HashMap;

/// The marks of a message that is pending at a controller.
pub fn pending<'a>(state: &'a State, c: usize, name: &Name) -> Option<&'a Marks> {
    let name = reference::Name { sender: name.sender as usize, number: name.number.0 as usize };
    state.controllers[c - 1].pending.get(&name)
}

/// What holds of one count, as far as what is pending there tells it.
fn law(state: &State, asked: &Asked, count: usize) -> Result<(), &'static str> {
    let (n, c) = (state.n, asked.controller);
    let says = |holds: bool, what| if holds { Ok(()) } else { Err(what) };
    says(count <= n, "more than n put a message first")?;
    says(asked.first != asked.second || count == 0, "a message goes before itself")?;
    match (pending(state, c, &asked.first), pending(state, c, &asked.second)) {
        (None, _) => says(count == 0, "a message goes first that is not pending"),
        (Some(x), None) => {
            says(count == x[..n].iter().flatten().count(), "before a message that is not pending, not all marks count")
        }
        (Some(x), Some(y)) => {
            let most = 2 * count > n;
            says(
                most == precedes(n, x, y) && most == subsets::before(n, x, y),
                "a majority is not the relation of line 16",
            )
        }
    }
}

/// What holds of all counts on one table: a refused call counts 0, each count keeps its laws, and both ways round they
/// are at most n together.
pub fn laws(t: &Table, asked: &[Asked], answers: &[CountAnswer]) -> Result<(), String> {
    let state = well_formed(t).then(|| to_state(t));
    let mut counts = HashMap::new();
    for (asked, answer) in asked.iter().zip(answers) {
        let Asked { controller, first, second } = asked;
        let broken = |what: &str| format!("count: {what}: {} at {controller} of {first} and {second}", answer.count);
        if answer.refusal != RefusalNumber::ACCEPTED {
            if answer.count != 0 {
                return Err(broken("a refused call counts"));
            }
            continue;
        }
        let known = state.as_ref().filter(|state| (1..=state.n).contains(&asked.controller));
        let state = known.ok_or_else(|| broken("accepted without a table or a controller"))?;
        law(state, asked, answer.count).map_err(broken)?;
        counts.insert(*asked, answer.count);
        let reverse = Asked { first: asked.second, second: asked.first, ..*asked };
        if counts.get(&reverse).is_some_and(|other| answer.count + other > state.n) {
            return Err(broken("both ways round, more than n put a message first"));
        }
    }
    Ok(())
}
