//! The library through its Rust package. Its places for answers are dirty before each call, and each call can be made
//! twice, the second time on a stack that held something else.

use super::stack::on_painted;
use super::Engine;
use crate::cases::Asked;
use furnacejade::{
    calls, Answer, AskAnswer, CountAnswer, DispatchAnswer, FreshAnswer, LookAnswer, Pair, Panel, RefusalNumber,
    Register, RunAnswer, Stamp, Sums, Table,
};
use furnacejade::{CLASSES, REGISTERS};
use std::mem::size_of;

/// Sums that no table gives.
pub const DIRTY_SUMS: Sums = Sums { added: 0xA5A5_A5A5, withdrawn: 0xA5A5_A5A5 };

/// A register that no panel shows.
const DIRTY_REGISTER: Register = Register { value: 0xA5A5_A5A5, stamp: Stamp { date: 0xA5A5, writer: 0xA5A5 } };

/// A count that no table gives.
const DIRTY_COUNT: usize = 0xA5A5_A5A5_A5A5_A5A5;

/// A table in which every byte is dirt.
fn dirty_table() -> Table {
    Table::from_bytes(&[0xA5; size_of::<Table>()])
}

/// The library. Its places for answers are dirty, so that a field that it leaves unwritten is seen. If `twice`, each
/// call is made again as users make it, on a stack that held something else: it must answer the same and leave the same
/// bytes.
pub struct Library {
    pub twice: bool,
}

/// What the stack holds before the first and the second of two equal calls.
const PAINTS: [u8; 2] = [0xA5, 0x5A];

impl Library {
    /// The number as the package's functions take it, a byte, if a call is to be made again with it.
    fn again_at(&self, number: usize) -> Option<u8> {
        u8::try_from(number).ok().filter(|_| self.twice)
    }

    fn event_again(&self, t: &mut Table, bytes: &[u8], scratch: &mut [u8], answer: &mut Answer) -> usize {
        let (mut table, mut area, mut left) = (t.clone(), scratch.to_vec(), 0);
        on_painted(PAINTS[0], || left = calls::event(t, bytes, scratch, answer));
        let mut again = None;
        on_painted(PAINTS[1], || again = Some(furnacejade::event(&mut table, bytes, &mut area)));
        let first = answer.refusal.check().map(|()| (answer.clone(), &bytes[bytes.len() - left..]));
        assert!(Some(first) == again, "two equal events answer differently");
        assert!(t.as_bytes() == table.as_bytes() && scratch == area, "two equal events leave other bytes");
        left
    }

    fn dispatch_again(&self, t: &mut Table, named: Pair, scratch: &mut [u8], answer: &mut DispatchAnswer) {
        let (mut table, mut area, mut again) = (t.clone(), scratch.to_vec(), None);
        on_painted(PAINTS[0], || calls::dispatch(t, named, scratch, answer));
        on_painted(PAINTS[1], || again = Some(furnacejade::dispatch(&mut table, named, &mut area)));
        let first = answer.answer.refusal.check().map(|()| answer.served().map(|_| answer.clone()));
        assert!(Some(first) == again, "two equal calls of the dispatcher answer differently");
        let same = t.as_bytes() == table.as_bytes() && scratch == area;
        assert!(same, "two equal calls of the dispatcher leave other bytes");
    }

    fn ask_again(&self, t: &Table, pair: Pair, scratch: &mut [u8], answer: &mut AskAnswer) {
        let (mut area, mut again) = (scratch.to_vec(), None);
        on_painted(PAINTS[0], || calls::ask(t, pair, scratch, answer));
        on_painted(PAINTS[1], || again = Some(furnacejade::ask(t, pair, &mut area)));
        let first = answer.refusal.check().map(|()| (pair, answer.acts, answer.set().to_vec()));
        let again = again.map(|again| again.map(|shown| (shown.asked.pair, shown.asked.acts, shown.set().to_vec())));
        assert!(Some(first) == again, "two equal asks answer differently");
        assert!(scratch == area, "two equal asks leave other bytes");
    }

    fn commit_again(&self, t: &mut Table, asked: furnacejade::Asked, scratch: &mut [u8], answer: &mut Answer) {
        let (mut table, mut area, mut again) = (t.clone(), scratch.to_vec(), None);
        on_painted(PAINTS[0], || calls::commit(t, asked.pair, asked.acts, scratch, answer));
        on_painted(PAINTS[1], || again = Some(furnacejade::commit(&mut table, asked, &mut area)));
        let first = answer.refusal.check().map(|()| answer.clone());
        assert!(Some(first) == again, "two equal commits answer differently");
        assert!(t.as_bytes() == table.as_bytes() && scratch == area, "two equal commits leave other bytes");
    }

    fn count_before(&self, t: &Table, Asked { controller, first, second }: Asked) -> CountAnswer {
        let mut answer = CountAnswer { refusal: RefusalNumber(0xA5), count: DIRTY_COUNT };
        calls::count_before(t, controller, &first, &second, &mut answer);
        if let Some(controller) = self.again_at(controller) {
            let mut again = None;
            on_painted(PAINTS[1], || again = Some(furnacejade::count_before(t, controller, first, second)));
            let once = answer.refusal.check().map(|()| answer.count);
            assert!(Some(once) == again, "two equal counts answer differently");
        }
        answer
    }

    fn run_again(&self, bytes: &[u8], listing: &mut [u8], scratch: &mut [u8], answer: &mut RunAnswer) {
        let (mut lines, mut area) = (listing.to_vec(), scratch.to_vec());
        on_painted(PAINTS[0], || calls::run(bytes, listing, scratch, answer));
        let mut again = RunAnswer::BLANK;
        on_painted(PAINTS[1], || again = furnacejade::run(bytes, &mut lines, &mut area));
        assert!(*answer == again, "two equal runs answer differently");
        assert!(answer.table.as_bytes() == again.table.as_bytes(), "two equal runs leave other bytes in the table");
        assert!(listing == lines && scratch == area, "two equal runs leave other bytes");
    }
}

impl Engine for Library {
    fn event(&self, t: &mut Table, bytes: &[u8], scratch: &mut [u8], answer: &mut Answer) -> usize {
        match self.twice {
            true => self.event_again(t, bytes, scratch, answer),
            false => calls::event(t, bytes, scratch, answer),
        }
    }
    fn dispatch(&self, t: &mut Table, named: Pair, scratch: &mut [u8], answer: &mut DispatchAnswer) {
        match self.twice {
            true => self.dispatch_again(t, named, scratch, answer),
            false => calls::dispatch(t, named, scratch, answer),
        }
    }
    fn ask(&self, t: &mut Table, pair: Pair, scratch: &mut [u8], answer: &mut AskAnswer) {
        match self.twice {
            true => self.ask_again(t, pair, scratch, answer),
            false => calls::ask(t, pair, scratch, answer),
        }
    }
    fn commit(&self, t: &mut Table, pair: Pair, acts: usize, scratch: &mut [u8], answer: &mut Answer) {
        match self.twice {
            true => self.commit_again(t, furnacejade::Asked { pair, acts }, scratch, answer),
            false => calls::commit(t, pair, acts, scratch, answer),
        }
    }
    fn look(&self, t: &Table, c: usize) -> LookAnswer {
        let registers = [DIRTY_REGISTER; REGISTERS];
        let panel = Panel { sums: DIRTY_SUMS, classes: [DIRTY_SUMS; CLASSES], registers };
        let mut answer = LookAnswer { refusal: RefusalNumber(0xA5), panel };
        calls::look(t, c, &mut answer);
        if let Some(c) = self.again_at(c) {
            let mut again = None;
            on_painted(PAINTS[1], || again = Some(furnacejade::look(t, c)));
            let first = answer.refusal.check().map(|()| answer.panel.clone());
            assert!(Some(first) == again, "two equal looks answer differently");
        }
        answer
    }
    fn counts_before(&self, t: &mut Table, asked: &[Asked]) -> Vec<CountAnswer> {
        asked.iter().map(|asked| self.count_before(t, *asked)).collect()
    }
    fn fresh(&self, version: usize, n: usize) -> FreshAnswer {
        let mut answer = FreshAnswer { refusal: RefusalNumber(0xA5), table: dirty_table() };
        calls::fresh(version, n, &mut answer);
        if let (Some(version), Some(n)) = (self.again_at(version), self.again_at(n)) {
            let mut again = None;
            on_painted(PAINTS[1], || again = Some(furnacejade::fresh(version, n)));
            let first = answer.refusal.check().map(|()| *answer.table.as_bytes());
            assert!(
                Some(first) == again.map(|again| again.map(|t| *t.as_bytes())),
                "two equal requests for a fresh table answer other bytes"
            );
        }
        answer
    }
    fn run(&self, bytes: &[u8], listing: &mut [u8], scratch: &mut [u8]) -> RunAnswer {
        let mut answer = RunAnswer { refusal: RefusalNumber(0xA5), events: 77, written: 77, table: dirty_table() };
        match self.twice {
            true => self.run_again(bytes, listing, scratch, &mut answer),
            false => calls::run(bytes, listing, scratch, &mut answer),
        }
        answer
    }
}
