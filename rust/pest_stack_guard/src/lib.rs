//! Document 01's stand-in for `pest_stack_guard`.
//!
//! `remaining_stack` gives `Some(0)` when the open calls number the depth limit or more, else
//! `None`. A combinator's call is open from entry to return; an entering call does not count
//! itself. pest's combinators cannot be changed, so whoever drives them tells this crate that it
//! is inside a combinator's closure: [`open`].

use std::cell::Cell;

thread_local! {
    static DEPTH_LIMIT: Cell<u32> = const { Cell::new(u32::MAX) };
    static OPEN_CALLS: Cell<u32> = const { Cell::new(0) };
}

/// What pest's `CallLimitTracker::enter` asks.
#[inline]
pub fn remaining_stack() -> Option<usize> {
    (OPEN_CALLS.get() >= DEPTH_LIMIT.get()).then_some(0)
}

/// Starts a run of this thread: no call is open, and `limit` calls may be.
pub fn set_depth_limit(limit: u32) {
    DEPTH_LIMIT.set(limit);
    OPEN_CALLS.set(0);
}

/// Evaluates a combinator's closure: its call is open for that long.
#[inline]
pub fn open<T>(closure: impl FnOnce() -> T) -> T {
    OPEN_CALLS.set(OPEN_CALLS.get() + 1);
    let result = closure();
    OPEN_CALLS.set(OPEN_CALLS.get() - 1);
    result
}
