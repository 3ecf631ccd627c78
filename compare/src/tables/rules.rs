//! The rule that each function over a table stands for. What the functions say foretells the refusal of handovers
//! (questions 10 and 13), stops (10 and 14), local reads (10 and 18) and writes (10, 11 and 20), which the library then
//! gives.

use super::answers::{unpacked, Package, COLUMNS};
use crate::cases::records::{handover, local_read, stop, write};
use crate::reference::{Name, Says, Standing, MAX_MESSAGES, SCRATCH};
use furnacejade::{event, Payload, Table};

/// The number of the question that refuses a record, 0 if none does.
fn refusal(t: &Table, bytes: &[u8]) -> u8 {
    let answered = event(&mut t.clone(), bytes, &mut [0; SCRATCH]);
    answered.map_or_else(|refusal| refusal.number(), |_| 0)
}

/// The first of these questions that is answered no.
fn first_no(questions: &[(u8, bool)]) -> u8 {
    questions.iter().find(|(_, yes)| !yes).map_or(0, |(number, _)| *number)
}

/// What the functions say of one table, and whether a number is a controller's.
struct Foretold<'a> {
    t: &'a Table,
    says: Package<'a>,
}

impl Foretold<'_> {
    fn known(&self, c: usize) -> bool {
        (1..=self.t.n).contains(&c)
    }

    fn handover(&self, receiver: usize, owner: usize) -> u8 {
        let known = self.known(receiver) && self.known(owner);
        first_no(&[(8, known), (10, self.says.runs(receiver)), (13, self.says.unread(receiver, owner) > 0)])
    }

    fn stop(&self, c: usize, kept: usize) -> u8 {
        let may_keep = self.says.kept(c).is_some_and(|(least, greatest)| (least..=greatest).contains(&kept));
        first_no(&[(8, self.known(c)), (10, self.says.runs(c)), (14, may_keep)])
    }

    /// Whether a controller has no message of its own pending.
    fn none_pending(&self, c: usize) -> bool {
        let sent = self.t.messages[..self.t.count].iter().filter(|m| usize::from(m.sender) == c);
        let mut names = sent.map(|m| Name { sender: c, number: m.number.0.into() });
        names.all(|x| self.says.standing(c, &x) != Standing::Pending)
    }

    fn local_read(&self, c: usize) -> u8 {
        first_no(&[(8, self.known(c)), (10, self.says.runs(c)), (18, self.none_pending(c))])
    }

    /// Question 20 is about the latest message of the writer.
    fn write(&self, c: usize) -> u8 {
        let is_sync = |x: &Name| {
            let named =
                |m: &&furnacejade::Message| unpacked(furnacejade::Name { sender: m.sender, number: m.number }) == *x;
            self.t.messages[..self.t.count].iter().find(named).is_some_and(|m| m.payload.kind == Payload::SYNC)
        };
        let synced = |x: &Name| is_sync(x) && self.says.standing(c, x) == Standing::Applied;
        let may_write = self.says.latest(c).is_some_and(|x| synced(&x));
        let room = self.t.count < MAX_MESSAGES;
        let waits = (11, self.none_pending(c));
        first_no(&[(8, self.known(c)), (10, self.says.runs(c)), waits, (12, room), (20, may_write)])
    }

    /// Lengths on both sides of those that a stop may keep.
    fn lengths(&self, c: usize) -> Vec<usize> {
        let (least, greatest) = self.says.kept(c).unwrap_or((0, 0));
        let around = [least, greatest].into_iter().flat_map(|edge| [edge.saturating_sub(1), edge, edge + 1]);
        around.chain([0, 65, usize::from(u16::MAX)]).collect()
    }
}

/// A well-formed table: what its functions say, and how the library refuses.
pub fn check(t: &Table) -> Result<(), String> {
    let foretold = Foretold { t, says: Package(t) };
    let agree = |what: String, right: u8, bytes: Vec<u8>| match refusal(t, &bytes) {
        found if found == right => Ok(()),
        found => Err(format!("{what}: foretold {right}, the library gives {found}")),
    };
    for c in COLUMNS {
        for owner in COLUMNS {
            agree(format!("a handover to {c} from {owner}"), foretold.handover(c, owner), handover(c, owner))?;
        }
        for kept in foretold.lengths(c) {
            agree(format!("a stop of {c} that keeps {kept}"), foretold.stop(c, kept), stop(c, kept))?;
        }
        agree(format!("a local read of {c}"), foretold.local_read(c), local_read(c))?;
        agree(format!("a write of {c}"), foretold.write(c), write(c, 1, 5))?;
    }
    Ok(())
}
