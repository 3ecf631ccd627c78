//! Calls on a stack of their own, which was filled with a pattern before: how far a call overwrites it, and whether
//! what a call leaves depends on what the stack held.

use std::any::Any;
use std::arch::asm;
use std::cell::RefCell;
use std::panic::{catch_unwind, resume_unwind, AssertUnwindSafe};
use std::ptr::addr_of_mut;

/// Far more than any call needs.
const SIZE: usize = 256 * 1024;

const PAINT: u8 = 0xA5;

thread_local! {
    static STACK: RefCell<Vec<u8>> = RefCell::new(vec![0; SIZE]);
}

/// A call, and the panic that it ended in.
struct Job<'a> {
    call: &'a mut dyn FnMut(),
    panic: Option<Box<dyn Any + Send>>,
}

/// A panic must not pass the frame in which the stack is changed.
extern "C" fn carry_out(job: &mut Job) {
    job.panic = catch_unwind(AssertUnwindSafe(&mut job.call)).err();
}

/// Makes a call on a stack of which every byte is `paint`.
pub fn on_painted(paint: u8, mut call: impl FnMut()) {
    let mut job = Job { call: &mut call, panic: None };
    STACK.with_borrow_mut(|stack| {
        stack.fill(paint);
        let range = stack.as_mut_ptr_range();
        let top = range.end.wrapping_sub(range.end as usize % 16);
        // The stack pointer is kept in a register that every call keeps, and the memory is ours while the call runs.
        unsafe {
            asm!(
                "mov r12, rsp",
                "mov rsp, {top}",
                "call {carry_out}",
                "mov rsp, r12",
                top = in(reg) top,
                carry_out = sym carry_out,
                in("rdi") addr_of_mut!(job),
                out("r12") _,
                clobber_abi("C"),
            );
        }
    });
    if let Some(panic) = job.panic {
        resume_unwind(panic);
    }
}

/// How many bytes of stack a call overwrites.
fn overwritten(call: impl FnMut()) -> usize {
    on_painted(PAINT, call);
    SIZE - STACK.with_borrow(|stack| stack.iter().take_while(|byte| **byte == PAINT).count())
}

/// How many bytes of stack a call needs, without what it costs to make the call here.
pub fn needed(call: impl FnMut()) -> usize {
    overwritten(call) - overwritten(|| ())
}
