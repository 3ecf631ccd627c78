//! Short scripts of calls on one table, for the edges: an engine with a table, panels by their sums, and what an edge
//! expects.

use crate::cases::records::handover;
use crate::engines::pair;
use crate::engines::Engine;
use crate::reference::SCRATCH;
use furnacejade::{Answer, AskAnswer, DispatchAnswer, Panel, Sums, Table};

/// An engine with a table, for short scripts.
pub struct Script<'a> {
    pub engine: &'a dyn Engine,
    pub table: Table,
}

impl<'a> Script<'a> {
    pub fn copy(&self) -> Script<'a> {
        Script { engine: self.engine, table: self.table.clone() }
    }

    pub fn fresh(engine: &dyn Engine, version: usize, n: usize) -> Script<'_> {
        Script { engine, table: engine.fresh(version, n).table }
    }

    pub fn answer(&mut self, bytes: &[u8], scratch: usize) -> Answer {
        let mut answer = Answer::BLANK;
        self.engine.event(&mut self.table, bytes, &mut vec![1; scratch], &mut answer);
        answer
    }

    /// A call of the dispatcher that names a receiver and an owner.
    pub fn dispatch(&mut self, named: (usize, usize), scratch: usize) -> DispatchAnswer {
        let mut answer = DispatchAnswer::BLANK;
        self.engine.dispatch(&mut self.table, pair(named), &mut vec![1; scratch], &mut answer);
        answer
    }

    /// An ask of a receiver and an owner.
    pub fn ask(&mut self, asked: (usize, usize), scratch: usize) -> AskAnswer {
        let mut answer = AskAnswer::BLANK;
        self.engine.ask(&mut self.table, pair(asked), &mut vec![1; scratch], &mut answer);
        answer
    }

    /// A commit of a receiver and an owner that gives this act count.
    pub fn commit(&mut self, asked: (usize, usize), acts: usize, scratch: usize) -> Answer {
        let mut answer = Answer::BLANK;
        self.engine.commit(&mut self.table, pair(asked), acts, &mut vec![1; scratch], &mut answer);
        answer
    }

    /// The refusal, and the names of the set.
    pub fn event(&mut self, bytes: Vec<u8>) -> (u8, Vec<(u8, u8)>) {
        let answer = self.answer(&bytes, SCRATCH);
        (answer.refusal.0, answer.applied().iter().map(|x| (x.sender, x.number.0)).collect())
    }

    pub fn refusal(&mut self, bytes: Vec<u8>) -> u8 {
        self.event(bytes).0
    }

    /// Every handover that is accepted, until none is.
    pub fn hand_over_all(&mut self) {
        let n = self.table.n;
        let mut pair = |r: usize| (1..=n).filter(|o| self.refusal(handover(r, *o)) == 0).count();
        while (1..=n).map(&mut pair).sum::<usize>() > 0 {}
    }
}

/// What was added and what was withdrawn.
pub type Both = (u32, u32);

pub fn sums((added, withdrawn): Both) -> Sums {
    Sums { added, withdrawn }
}

/// A panel by its sums and the sums of each class.
pub fn panel(whole: Both, classes: [Both; 5]) -> Panel {
    Panel { sums: sums(whole), classes: classes.map(sums), ..Panel::BLANK }
}

/// A panel that shows something of one class alone.
pub fn panel_of(class: usize, whole: Both) -> Panel {
    panel(whole, std::array::from_fn(|k| if k == class { whole } else { (0, 0) }))
}

/// Whether an edge is as it must be.
pub fn expect(holds: bool, edge: &str) -> Result<(), String> {
    if holds {
        Ok(())
    } else {
        Err(format!("edge: {edge}"))
    }
}
