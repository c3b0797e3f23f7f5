//! Work in a thread with a stack of a given size: work that needs more ends
//! the process.

use std::panic;
use std::thread;

pub fn run<T: Send>(bytes: usize, work: impl FnOnce() -> T + Send) -> T {
    thread::scope(|scope| {
        thread::Builder::new()
            .stack_size(bytes)
            .spawn_scoped(scope, work)
            .expect("a thread")
            .join()
            .unwrap_or_else(|fault| panic::resume_unwind(fault))
    })
}
