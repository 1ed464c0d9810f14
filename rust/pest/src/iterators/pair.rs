//! Stand-in: what `pairs.rs`, `flat_pairs.rs` and the examples in pest's comments ask of a pair.

use alloc::rc::Rc;
use alloc::vec::Vec;
use core::fmt;

use super::line_index::LineIndex;
use super::queueable_token::QueueableToken;
use crate::RuleType;

pub struct Pair<'i, R> {
    queue: Rc<Vec<QueueableToken<'i, R>>>,
    input: &'i str,
    start: usize,
}

pub fn new<'i, R: RuleType>(
    queue: Rc<Vec<QueueableToken<'i, R>>>,
    input: &'i str,
    _line_index: Rc<LineIndex>,
    start: usize,
) -> Pair<'i, R> {
    Pair { queue, input, start }
}

impl<'i, R: RuleType> Pair<'i, R> {
    pub fn as_str(&self) -> &'i str {
        match (&self.queue[self.start], self.end()) {
            (
                QueueableToken::Start { input_pos: from, .. },
                QueueableToken::End { input_pos: to, .. },
            ) => &self.input[*from..*to],
            _ => unreachable!(),
        }
    }

    pub fn as_rule(&self) -> R {
        match self.end() {
            QueueableToken::End { rule, .. } => *rule,
            _ => unreachable!(),
        }
    }

    pub fn as_node_tag(&self) -> Option<&str> {
        match self.end() {
            QueueableToken::End { tag, .. } => *tag,
            _ => unreachable!(),
        }
    }

    fn end(&self) -> &QueueableToken<'i, R> {
        match self.queue[self.start] {
            QueueableToken::Start { end_token_index, .. } => &self.queue[end_token_index],
            _ => unreachable!(),
        }
    }
}

impl<R> PartialEq for Pair<'_, R> {
    fn eq(&self, other: &Self) -> bool {
        Rc::ptr_eq(&self.queue, &other.queue) && self.start == other.start
    }
}

impl<R: RuleType> fmt::Debug for Pair<'_, R> {
    fn fmt(&self, f: &mut fmt::Formatter<'_>) -> fmt::Result {
        f.debug_tuple("Pair").field(&self.as_str()).finish()
    }
}

impl<R: RuleType> fmt::Display for Pair<'_, R> {
    fn fmt(&self, f: &mut fmt::Formatter<'_>) -> fmt::Result {
        f.write_str(self.as_str())
    }
}
