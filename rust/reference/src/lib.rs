//! pest's combinators, driven from document 01's node lines, from `pest::state`. The line that a run
//! starts at, its root, is one of its arguments, as document 02 has it.
//!
//! Everything that a run answers is pest's: the queue is what `Pairs` holds, the rules and the
//! limit's message are the `ErrorVariant`'s, the furthest position is the `Error`'s location,
//! which `state` makes of `attempt_pos`. Only accepted sheets, roots that are lines of theirs, and UTF-8
//! texts may be given.

pub mod count;
mod driver;
mod sheet;
pub mod shown;
pub mod watch;

use std::num::NonZeroUsize;
use std::sync::{Mutex, MutexGuard, PoisonError};

use pest::error::{Error, ErrorVariant, InputLocation};
use pest::iterators::{Pairs, QueueableToken};
use pest::ParserState;

pub use driver::Watch;
use driver::{Driver, Unwatched};
pub use sheet::{Rule, Sheet};

pub(crate) type State<'i> = Box<ParserState<'i, Rule>>;

/// A token in document 01's layout: kind, partner's index, position, rule, tag.
pub type Token = [u32; 5];

#[derive(Clone, Copy, Debug, Eq, PartialEq)]
pub enum Limit {
    Call,
    Stack,
}

/// What `pest::state` gave back.
#[derive(Clone, Debug, Eq, PartialEq)]
pub enum Ending {
    Parsed { tokens: Vec<Token> },
    Failed { furthest: u32, positives: Vec<u32>, negatives: Vec<u32> },
    Limited { limit: Limit, furthest: u32 },
}

/// One run of pest, with someone looking at its state at each step. Panics where pest does: a pop of
/// an empty stack.
pub fn watched_state<W: Watch>(
    sheet: &Sheet<'_>,
    text: &str,
    root: u32,
    depth_limit: u32,
    call_limit: u32,
    watch: &W,
) -> Ending {
    match pest_state(sheet, text, root, depth_limit, call_limit, watch) {
        Ok(pairs) => Ending::Parsed { tokens: pairs.tokens().queue().iter().map(token).collect() },
        Err(error) => failed(error),
    }
}

/// A run as a benchmark wants it: the queue's length, nobody looking, and nothing turned into numbers.
pub fn queue_length(
    sheet: &Sheet<'_>,
    text: &str,
    root: u32,
    depth_limit: u32,
    call_limit: u32,
) -> Option<usize> {
    let pairs = pest_state(sheet, text, root, depth_limit, call_limit, &Unwatched).ok()?;
    Some(pairs.tokens().queue().len())
}

fn pest_state<'i, W: Watch>(
    sheet: &Sheet<'_>,
    text: &'i str,
    root: u32,
    depth_limit: u32,
    call_limit: u32,
    watch: &W,
) -> Result<Pairs<'i, Rule>, Error<Rule>> {
    let _alone = set_call_limit(call_limit);
    pest_stack_guard::set_depth_limit(depth_limit);
    let driver = Driver { sheet, watch };
    pest::state(text, |state| driver.root(root as usize, state))
}

/// pest's call limit holds for the whole process, and a `ParserState` takes it when it is made:
/// one run at a time, then.
fn set_call_limit(call_limit: u32) -> MutexGuard<'static, ()> {
    static ONE_RUN: Mutex<()> = Mutex::new(());
    // A run that panicked left nothing behind that the next one could see.
    let alone = ONE_RUN.lock().unwrap_or_else(PoisonError::into_inner);
    pest::set_call_limit(NonZeroUsize::new(call_limit as usize));
    alone
}

fn token(token: &QueueableToken<'_, Rule>) -> Token {
    match *token {
        QueueableToken::Start { end_token_index, input_pos } => {
            [1, number(end_token_index), number(input_pos), 0, 0]
        }
        QueueableToken::End { start_token_index, rule, tag, input_pos } => {
            let tag = tag.map_or(0, |tag| tag.parse().expect("a tag is a number"));
            [2, number(start_token_index), number(input_pos), rule.0, tag]
        }
    }
}

fn failed(error: Error<Rule>) -> Ending {
    let furthest = match error.location {
        InputLocation::Pos(attempt_pos) => number(attempt_pos),
        InputLocation::Span(_) => unreachable!("state makes its error from a position"),
    };
    match error.variant {
        ErrorVariant::ParsingError { positives, negatives } => Ending::Failed {
            furthest,
            positives: numbers(positives),
            negatives: numbers(negatives),
        },
        ErrorVariant::CustomError { message } => {
            let limit = match message.as_str() {
                "call limit reached" => Limit::Call,
                "stack limit reached" => Limit::Stack,
                other => unreachable!("state has no such message: {other}"),
            };
            Ending::Limited { limit, furthest }
        }
    }
}

fn number(count: usize) -> u32 {
    u32::try_from(count).expect("texts and queues are small")
}

fn numbers(rules: Vec<Rule>) -> Vec<u32> {
    rules.into_iter().map(|rule| rule.0).collect()
}
