//! One method of pest a line. A call is open while its closure is being evaluated.

use std::mem;

use pest::{ParseResult, ParserState};

use crate::sheet::{Line, LineNumber, Rule, Sheet};
use crate::State;

/// Someone who looks at pest's state while it is driven. What is not looked at costs nothing.
pub trait Watch {
    /// A call of kinds 8 to 14 was entered: pest is in its closure, of a repeat in the first round.
    #[inline]
    fn counted(&self) {}
    /// A rule's body is about to be evaluated.
    #[inline]
    fn rule_entered(&self, _line: usize, _state: &ParserState<'_, Rule>) {}
    /// The stack is about to be popped by kind 15.
    #[inline]
    fn popping(&self, _line: usize, _state: &ParserState<'_, Rule>) {}
    /// A rule, a push or a pop was left.
    #[inline]
    fn left(&self, _line: usize, _state: &ParserState<'_, Rule>) {}
    /// The root was left, `ok` or not.
    #[inline]
    fn ended(&self, _ok: bool, _state: &ParserState<'_, Rule>) {}
}

/// Nobody looks.
pub struct Unwatched;

impl Watch for Unwatched {}

pub(crate) struct Driver<'s, 'l, W> {
    pub sheet: &'s Sheet<'l>,
    pub watch: &'s W,
}

impl<W: Watch> Driver<'_, '_, W> {
    pub fn root<'i>(&self, number: LineNumber, state: State<'i>) -> ParseResult<State<'i>> {
        let result = self.node(number, state);
        self.watch.ended(result.is_ok(), state_of(&result));
        result
    }

    fn node<'i>(&self, number: LineNumber, state: State<'i>) -> ParseResult<State<'i>> {
        match self.sheet.line(number) {
            Line::MatchString(string) => state.match_string(string),
            Line::MatchInsensitive(string) => state.match_insensitive(string),
            // pest's range includes both ends.
            Line::MatchRange(start, end) => state.match_range(start..end),
            Line::Skip(n) => state.skip(n),
            Line::EndOfInput => state.end_of_input(),
            Line::AndThen(a, b) => self.node(a, state).and_then(|state| self.node(b, state)),
            Line::OrElse(a, b) => self.node(a, state).or_else(|state| self.node(b, state)),
            Line::Rule(rule, body) => {
                let result = state.rule(rule, |state| {
                    self.watch.counted();
                    self.watch.rule_entered(number, &state);
                    self.body(body, state)
                });
                self.left(number, result)
            }
            Line::Sequence(body) => state.sequence(|state| self.counted_body(body, state)),
            Line::Repeat(body) => {
                let mut is_first = true;
                state.repeat(|state| {
                    if mem::take(&mut is_first) {
                        self.watch.counted();
                    }
                    self.body(body, state)
                })
            }
            Line::Optional(body) => state.optional(|state| self.counted_body(body, state)),
            Line::Lookahead(is_positive, body) => {
                state.lookahead(is_positive, |state| self.counted_body(body, state))
            }
            Line::Atomic(atomicity, body) => {
                state.atomic(atomicity, |state| self.counted_body(body, state))
            }
            Line::StackPush(body) => {
                let result = state.stack_push(|state| self.counted_body(body, state));
                self.left(number, result)
            }
            Line::StackPop => {
                self.watch.popping(number, &state);
                self.left(number, state.stack_pop())
            }
            Line::StackMatchPeekSlice(start, end, match_dir) => {
                state.stack_match_peek_slice(start, end, match_dir)
            }
            Line::StackMatchPop => self.left(number, state.stack_match_pop()),
            Line::RestoreOnErr(body) => state.restore_on_err(|state| self.body(body, state)),
            Line::TagNode(tag) => state.tag_node(tag),
            Line::Call(rule) => self.node(rule, state),
        }
    }

    #[inline]
    fn counted_body<'i>(&self, number: LineNumber, state: State<'i>) -> ParseResult<State<'i>> {
        self.watch.counted();
        self.body(number, state)
    }

    #[inline]
    fn body<'i>(&self, number: LineNumber, state: State<'i>) -> ParseResult<State<'i>> {
        pest_stack_guard::open(|| self.node(number, state))
    }

    #[inline]
    fn left<'i>(
        &self,
        number: LineNumber,
        result: ParseResult<State<'i>>,
    ) -> ParseResult<State<'i>> {
        self.watch.left(number, state_of(&result));
        result
    }
}

fn state_of<'s, 'i>(result: &'s ParseResult<State<'i>>) -> &'s ParserState<'i, Rule> {
    match result {
        Ok(state) | Err(state) => state,
    }
}
