//! The stack that `include/lane.h` asks of a caller, and no more.

use std::cell::Cell;
use std::{env, thread};

const STACK: usize = 1 << 20;

thread_local! {
    static IS_HERE: Cell<bool> = Cell::new(is_such_a_test());
}

/// A test's thread, which has its test's name, has that stack where
/// `RUST_MIN_STACK` asks for it: to start one for each call takes longer than
/// the calls.
fn is_such_a_test() -> bool {
    let asked = env::var("RUST_MIN_STACK").is_ok_and(|bytes| bytes == STACK.to_string());
    asked && thread::current().name().is_some_and(|name| name != "main")
}

/// Runs some work in a thread with that stack, unless it is in one already: a
/// library call that needs more ends the process.
pub fn within<T: Send>(work: impl FnOnce() -> T + Send) -> T {
    if IS_HERE.get() {
        return work();
    }
    reference::stack::run(STACK, || {
        IS_HERE.set(true);
        work()
    })
}
