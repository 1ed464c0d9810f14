//! Counted calls: pest's tracker counts under a call limit only, so the driver counts each entry.

use std::cell::Cell;

use pest::ParserState;

use crate::driver::Watch;
use crate::shown::Shown;
use crate::{watched_state, Ending, Rule, Sheet};

/// The counted calls of a run.
#[derive(Clone, Copy, Debug, Eq, PartialEq)]
pub struct Calls {
    /// By the driver: closures of kinds 8 to 14 that pest came to, a repeat's once.
    pub driven: u64,
    /// By pest's own tracker, where a call limit is set.
    pub tracked: Option<u64>,
}

impl Calls {
    /// Both, where both count so many.
    pub fn both(calls: u64, call_limit: u32) -> Calls {
        Calls { driven: calls, tracked: (call_limit != 0).then_some(calls) }
    }
}

/// What the tracker of pest's state counts: `None` or `Some((current, limit))` is shown.
pub(crate) fn tracked(state: Shown<'_>) -> Option<u64> {
    let current = state.field("call_tracker").field("current_call_limit");
    (current.word() != "None").then(|| current.first().first().number().into())
}

/// One run of pest, with its counted calls.
pub fn counted_state(
    sheet: &Sheet<'_>,
    text: &str,
    root: u32,
    depth_limit: u32,
    call_limit: u32,
) -> (Ending, Calls) {
    let count = Count { driven: Cell::new(0), limited: call_limit != 0, tracked: Cell::new(None) };
    let ending = watched_state(sheet, text, root, depth_limit, call_limit, &count);
    (ending, Calls { driven: count.driven.get(), tracked: count.tracked.get() })
}

struct Count {
    driven: Cell<u64>,
    limited: bool,
    tracked: Cell<Option<u64>>,
}

impl Watch for Count {
    fn counted(&self) {
        self.driven.set(self.driven.get() + 1);
    }

    /// Without a limit the tracker has nothing to show, and showing takes long.
    fn ended(&self, _ok: bool, state: &ParserState<'_, Rule>) {
        if self.limited {
            let shown = format!("{state:?}");
            self.tracked.set(tracked(Shown::new(&shown)));
        }
    }
}
