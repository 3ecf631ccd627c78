//! The benchmark: the stack that each call of the library needs, and the times of library and reference on the same
//! inputs.

mod inputs;
mod stacks;
mod times;

/// The scratch that is lent, dirty, to each call that is timed or measured. It is more than is asked for, so that a library
/// that asks for 4,096 bytes can be timed by the same program.
const LENT: usize = 4096;

pub fn all() {
    stacks::print();
    times::print();
}
