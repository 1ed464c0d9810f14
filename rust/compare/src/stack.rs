//! pest and the oracle recurse natively.

use std::thread;

/// 1 GiB of address space; pages are taken when they are touched.
const SIZE: usize = 1 << 30;

/// Runs `work` on a thread with a large stack, and passes its panic on.
pub fn with_large_stack<T: Send + 'static>(work: impl FnOnce() -> T + Send + 'static) -> T {
    let thread = thread::Builder::new().stack_size(SIZE).spawn(work).expect("a thread");
    match thread.join() {
        Ok(result) => result,
        Err(cause) => std::panic::resume_unwind(cause),
    }
}
