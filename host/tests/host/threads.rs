//! Threads with more stack, or less, than a test's own.

use std::panic::resume_unwind;
use std::sync::mpsc::channel;
use std::thread::{scope, Builder};
use std::time::Duration;

/// The twin goes down a tree by recursion, and so does what frees one: this is enough for 16,383 levels, not optimized either.
const ROOMY_STACK: usize = 64 * 1024 * 1024;

/// What f gives, with room for the twin on the deepest trees.
pub fn roomy<T: Send>(f: impl FnOnce() -> T + Send) -> T {
    scope(|all| {
        let runner = Builder::new().stack_size(ROOMY_STACK).spawn_scoped(all, f);
        runner.expect("a thread").join().unwrap_or_else(|panic| resume_unwind(panic))
    })
}

/// What f gives, on a stack of so many bytes; fails if it takes longer than any linear walk could.
pub fn on_stack<T: Send + 'static>(bytes: usize, f: impl FnOnce() -> T + Send + 'static) -> T {
    let (done, wait) = channel();
    let runner = Builder::new().stack_size(bytes).spawn(move || done.send(f()));
    let answer = wait.recv_timeout(Duration::from_secs(10)).expect("an answer within 10 seconds");
    runner.expect("a thread").join().expect("no panic").expect("sent");
    answer
}
