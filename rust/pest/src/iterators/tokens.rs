//! Stand-in: `Pairs::tokens` hands the queue itself over, and here it can be looked at. The
//! iterator is there for the examples in pest's comments, which only count.

use alloc::rc::Rc;
use alloc::vec::Vec;

use super::queueable_token::QueueableToken;
use crate::RuleType;

pub struct Tokens<'i, R> {
    queue: Rc<Vec<QueueableToken<'i, R>>>,
    next: usize,
    end: usize,
}

pub fn new<'i, R: RuleType>(
    queue: Rc<Vec<QueueableToken<'i, R>>>,
    _input: &'i str,
    start: usize,
    end: usize,
) -> Tokens<'i, R> {
    Tokens { queue, next: start, end }
}

impl<'i, R> Tokens<'i, R> {
    /// The queue as the run left it.
    pub fn queue(&self) -> &[QueueableToken<'i, R>] {
        &self.queue
    }
}

impl<R> Iterator for Tokens<'_, R> {
    /// The token's index in the queue.
    type Item = usize;

    fn next(&mut self) -> Option<usize> {
        let index = self.next;
        (index < self.end).then(|| {
            self.next += 1;
            index
        })
    }
}
