//! The stops 13 to 16, read off pest's own state: the first moment at which a fixed capacity
//! would be too small, and the line at which that was. pest itself has no such capacities.

use std::cell::{Cell, RefCell};
use std::panic::{catch_unwind, resume_unwind, AssertUnwindSafe};

use pest::ParserState;

use crate::count::{tracked, Calls};
use crate::driver::Watch;
use crate::shown::Shown;
use crate::{watched_state, Ending, Rule, Sheet};

/// What may be held: tokens, stack entries, total debt, attempts in one list.
#[derive(Clone, Copy, Debug, Eq, PartialEq)]
pub struct Capacities {
    pub tokens: usize,
    pub entries: usize,
    pub debt: usize,
    pub attempts: usize,
}

/// Document 01's number of the stop, the line it names, and the calls until then.
#[derive(Clone, Copy, Debug, Eq, PartialEq)]
pub struct Stop {
    pub number: u32,
    pub line: u32,
    pub calls: Calls,
}

/// pest's state when the root was left.
#[derive(Clone, Debug, Eq, PartialEq)]
pub struct Final {
    pub ok: bool,
    pub position: u32,
    /// Start and end of each entry, bottom first.
    pub stack: Vec<(u32, u32)>,
    pub positives: Vec<u32>,
    pub negatives: Vec<u32>,
    pub furthest: u32,
    pub calls: Calls,
    pub lookahead_none: bool,
    pub non_atomic: bool,
    /// Open checkpoints and elements kept for them.
    pub checkpoints: usize,
    pub popped: usize,
}

/// One run of pest within those capacities.
pub fn state_within(
    sheet: &Sheet<'_>,
    text: &str,
    root: u32,
    depth_limit: u32,
    call_limit: u32,
    capacities: Capacities,
) -> Result<(Ending, Final), Stop> {
    let watch = Within { capacities, calls: Cell::new(0), last: RefCell::new(None) };
    let run = || watched_state(sheet, text, root, depth_limit, call_limit, &watch);
    match catch_unwind(AssertUnwindSafe(run)) {
        Ok(ending) => Ok((ending, watch.last.into_inner().expect("the root was left"))),
        Err(cause) => match cause.downcast::<Stop>() {
            Ok(stop) => Err(*stop),
            Err(other) => resume_unwind(other),
        },
    }
}

struct Within {
    capacities: Capacities,
    calls: Cell<u64>,
    last: RefCell<Option<Final>>,
}

impl Watch for Within {
    fn counted(&self) {
        self.calls.set(self.calls.get() + 1);
    }

    fn rule_entered(&self, line: usize, state: &ParserState<'_, Rule>) {
        let shown = format!("{state:?}");
        let state = Shown::new(&shown);
        self.stop_if(held(state, "queue") > self.capacities.tokens, 14, line, state);
    }

    fn popping(&self, line: usize, state: &ParserState<'_, Rule>) {
        let shown = format!("{state:?}");
        let state = Shown::new(&shown);
        self.stop_if(held(state.field("stack"), "cache") == 0, 13, line, state);
    }

    fn left(&self, line: usize, state: &ParserState<'_, Rule>) {
        let shown = format!("{state:?}");
        let state = Shown::new(&shown);
        let stack = state.field("stack");
        let stop_if = |full, number| self.stop_if(full, number, line, state);
        stop_if(held(state, "queue") > self.capacities.tokens, 14);
        stop_if(held(stack, "cache") > self.capacities.entries, 15);
        // pest keeps just the elements that an open checkpoint may ask back: the total debt.
        stop_if(held(stack, "popped") > self.capacities.debt, 15);
        stop_if(held(state, "pos_attempts") > self.capacities.attempts, 16);
        stop_if(held(state, "neg_attempts") > self.capacities.attempts, 16);
    }

    fn ended(&self, ok: bool, state: &ParserState<'_, Rule>) {
        let shown = format!("{state:?}");
        let state = Shown::new(&shown);
        *self.last.borrow_mut() = Some(last(ok, state, self.calls(state)));
    }
}

impl Within {
    fn calls(&self, state: Shown<'_>) -> Calls {
        Calls { driven: self.calls.get(), tracked: tracked(state) }
    }

    /// Leaves the run for good: what pest would do next is no part of it. No panic is reported.
    fn stop_if(&self, full: bool, number: u32, line: usize, state: Shown<'_>) {
        if full {
            let calls = self.calls(state);
            resume_unwind(Box::new(Stop { number, line: line as u32, calls }));
        }
    }
}

fn held(shown: Shown<'_>, list: &str) -> usize {
    shown.field(list).count()
}

fn last(ok: bool, state: Shown<'_>, calls: Calls) -> Final {
    let stack = state.field("stack");
    Final {
        ok,
        position: state.field("position").field("pos").number(),
        stack: stack.field("cache").items().map(span).collect(),
        positives: state.field("pos_attempts").numbers(),
        negatives: state.field("neg_attempts").numbers(),
        furthest: state.field("attempt_pos").number(),
        calls,
        lookahead_none: state.field("lookahead").word() == "None",
        non_atomic: state.field("atomicity").word() == "NonAtomic",
        checkpoints: held(stack, "lengths"),
        popped: held(stack, "popped"),
    }
}

/// `Span(Span { str: .., range: 0..1 })`
fn span(entry: Shown<'_>) -> (u32, u32) {
    let range = entry.first().field("range").word();
    let (start, end) = range.split_once("..").expect("a range");
    (start.parse().expect("a start"), end.parse().expect("an end"))
}
