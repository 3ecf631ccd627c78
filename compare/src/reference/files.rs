//! Run files: questions 1 to 3, the records in turn up to the first refusal, the listing with its room (question 16),
//! and what the program prints.

use super::*;

/// The answer to a file run; no state after refusals 1 to 3.
pub struct Run {
    pub refusal: u8,
    pub events: usize,
    pub written: usize,
    pub state: Option<State>,
}

/// Questions 1 to 3: the version and the number of controllers.
fn open(bytes: &[u8]) -> Result<(usize, usize), u8> {
    first_no(&[(1, (2..=65_535).contains(&bytes.len()))])?;
    let (version, n) = (bytes[0] as usize, bytes[1] as usize);
    questions_2_and_3(version, n)?;
    Ok((version, n))
}

/// Questions 2 and 3, put to files and to requests for a fresh table.
pub fn questions_2_and_3(version: usize, n: usize) -> Result<(), u8> {
    first_no(&[(2, (1..=2).contains(&version)), (3, (1..=MAX_CONTROLLERS).contains(&n))])
}

/// What an event adds to the listing: a line if it applied a set, with the event's number, the controller, its two sums
/// and the messages.
fn line(number: usize, event: &Event, answer: &Answer, after: &State) -> Vec<u8> {
    let (Event::Handover { receiver, .. }, false) = (event, answer.set.is_empty()) else { return vec![] };
    let names: String = answer.set.iter().map(|x| format!(" {}.{}", x.sender, x.number)).collect();
    let Sums { added, withdrawn } = after.sums(*receiver);
    format!("{number} {receiver} {added} {withdrawn}{names}\n").into_bytes()
}

/// A file run: records up to the end or the first refusal, lines into the listing.
pub fn run_file(bytes: &[u8], listing: &mut [u8], scratch: &mut [u8]) -> Run {
    let (version, n) = match open(bytes) {
        Ok(head) => head,
        Err(refusal) => return Run { refusal, events: 0, written: 0, state: None },
    };
    let mut state = State::fresh(version, n);
    let (mut events, mut written, mut rest) = (0, 0, &bytes[2..]);
    while !rest.is_empty() {
        let (event, after) = match state.accept(rest, scratch.len()) {
            Ok(accepted) => accepted,
            Err(refusal) => return Run { refusal, events, written, state: Some(state) },
        };
        let mut next = state.clone();
        let answer = next.carry_out(event);
        let line = line(events + 1, &event, &answer, &next);
        if line.len() > listing.len() - written {
            return Run { refusal: 16, events, written, state: Some(state) };
        }
        listing[written..written + line.len()].copy_from_slice(&line);
        clear(scratch);
        (state, events, written, rest) = (next, events + 1, written + line.len(), after);
    }
    Run { refusal: 0, events, written, state: Some(state) }
}

/// What the program prints for a run file on standard input.
pub fn program(input: &[u8]) -> Vec<u8> {
    let (mut listing, mut scratch) = (vec![0; LISTING], vec![0; SCRATCH]);
    let run = run_file(input, &mut listing, &mut scratch);
    let mut output = vec![];
    if let Some(state) = &run.state {
        output.extend(format!("controllers {}\n", state.n).bytes());
    }
    output.extend(&listing[..run.written]);
    output.extend(format!("end {} {}\n", run.events, run.refusal).bytes());
    output
}
