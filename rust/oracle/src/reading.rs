//! Document 01's reading: it threads position, stack, siblings, lookahead, atomicity, tracker and
//! attempts, and ends Ok (`true`), Err (`false`) or in a stop that names its cause.

use std::mem;

use crate::forest::{size, Forest, Pair};
use crate::table::Node;
use crate::utf8::character;
use crate::{Input, MOST_TOKENS};

/// The fixed capacities.
#[derive(Clone, Copy, Debug, Eq, PartialEq)]
pub struct Capacities {
    pub tokens: usize,
    pub entries: usize,
    pub debt: usize,
    pub attempts: usize,
}

impl Capacities {
    /// The document's, for a tokens area of that length.
    pub fn of(tokens_area: usize) -> Capacities {
        Capacities {
            tokens: (tokens_area / 5).min(MOST_TOKENS),
            entries: 128,
            debt: 1_024,
            attempts: 256,
        }
    }

    /// None: the reading without the stops 14 to 16.
    pub const UNBOUNDED: Capacities = Capacities {
        tokens: usize::MAX,
        entries: usize::MAX,
        debt: usize::MAX,
        attempts: usize::MAX,
    };
}

/// A stop, with the line that it names.
#[derive(Clone, Copy, Debug, Eq, PartialEq)]
pub enum Stop {
    PopOfEmptyStack(usize),
    TokensFull(usize),
    StackFull(usize),
    AttemptsFull(usize),
    /// No stop of the document: whoever asked has no more patience.
    OutOfSteps,
}

impl Stop {
    pub fn number_and_line(self) -> (u32, usize) {
        match self {
            Stop::PopOfEmptyStack(line) => (13, line),
            Stop::TokensFull(line) => (14, line),
            Stop::StackFull(line) => (15, line),
            Stop::AttemptsFull(line) => (16, line),
            Stop::OutOfSteps => unreachable!("never laid out"),
        }
    }
}

/// Why entries are refused.
#[derive(Clone, Copy, Debug, Eq, PartialEq)]
pub enum Cause {
    CallLimit,
    StackLimit,
}

#[derive(Clone, Copy, Debug, Eq, PartialEq)]
enum Lookahead {
    Positive,
    Negative,
    None,
}

#[derive(Clone, Copy, Debug, Eq, PartialEq)]
enum Atomicity {
    Atomic,
    CompoundAtomic,
    NonAtomic,
}

/// A text span: start and end.
type Entry = (usize, usize);

struct Checkpoint {
    content: Vec<Entry>,
    /// Lowest height while it was innermost.
    lowest: usize,
}

impl Checkpoint {
    fn debt(&self) -> usize {
        self.content.len() - self.lowest
    }
}

/// The two limits of a run.
#[derive(Clone, Copy, Debug, Eq, PartialEq)]
pub struct Limits {
    pub depth: u32,
    /// 0 means none.
    pub call: u32,
}

/// What the reading came to.
pub struct Reading {
    pub ending: Result<bool, Stop>,
    pub forest: Forest,
    pub last: Final,
}

/// What else it ended with.
#[derive(Clone, Debug, Eq, PartialEq)]
pub struct Final {
    pub position: usize,
    pub stack: Vec<(usize, usize)>,
    pub positives: Vec<u32>,
    pub negatives: Vec<u32>,
    pub furthest: usize,
    pub cause: Option<Cause>,
    pub calls: u64,
}

/// Reads the text from the root line. The sheet and its root have passed their tests.
pub fn read(nodes: &[Node], input: Input<'_>, capacities: Capacities, steps: u64) -> Reading {
    let mut reader = Reader {
        nodes,
        literals: input.literals,
        text: input.text,
        limits: Limits { depth: input.depth_limit, call: input.call_limit },
        capacities,
        steps,
        open_calls: 0,
        held: 0,
        checkpoints: Vec::new(),
        position: 0,
        stack: Vec::new(),
        siblings: Vec::new(),
        lookahead: Lookahead::None,
        atomicity: Atomicity::NonAtomic,
        calls: 0,
        cause: None,
        positives: Vec::new(),
        negatives: Vec::new(),
        furthest: 0,
    };
    let ending = reader.evaluate(input.root as usize);
    Reading {
        ending,
        forest: reader.siblings,
        last: Final {
            position: reader.position,
            stack: reader.stack,
            positives: reader.positives,
            negatives: reader.negatives,
            furthest: reader.furthest,
            cause: reader.cause,
            calls: reader.calls,
        },
    }
}

struct Reader<'a> {
    nodes: &'a [Node],
    literals: &'a [u8],
    text: &'a [u8],
    limits: Limits,
    capacities: Capacities,
    steps: u64,

    open_calls: u32,
    /// One token for each open recorded rule and two for each pair.
    held: usize,
    checkpoints: Vec<Checkpoint>,

    position: usize,
    stack: Vec<Entry>,
    siblings: Forest,
    lookahead: Lookahead,
    atomicity: Atomicity,
    /// Counted calls entered, whatever the limit.
    calls: u64,
    cause: Option<Cause>,
    positives: Vec<u32>,
    negatives: Vec<u32>,
    furthest: usize,
}

impl Reader<'_> {
    fn evaluate(&mut self, line: usize) -> Result<bool, Stop> {
        self.steps = self.steps.checked_sub(1).ok_or(Stop::OutOfSteps)?;
        let Node { kind, a, b, c } = self.nodes[line - 1];
        let (line_a, line_b) = (a as usize, b as usize);
        match kind {
            1 => Ok(self.match_literal(a, b, |x, y| x == y)),
            2 => Ok(self.match_literal(a, b, |x, y| folded(x) == folded(y))),
            3 => Ok(self.match_range(a as u32, b as u32)),
            4 => Ok(self.skip(a)),
            5 => Ok(self.position == self.text.len()),
            6 => Ok(self.evaluate(line_a)? && self.evaluate(line_b)?),
            7 => Ok(self.evaluate(line_a)? || self.evaluate(line_b)?),
            8 => self.rule(line, a as u32, line_b),
            9 => self.sequence(line_a),
            10 => self.repeat(line_a),
            11 => self.optional(line_a),
            12 => self.look(line_a, b == 1),
            13 => self.atomic(line_a, b),
            14 => self.push(line, line_a),
            15 => self.stack_pop(line),
            16 => Ok(self.peek(a, if c < 2 { Some(b) } else { None }, c == 0 || c == 2)),
            17 => self.stack_match_pop(line),
            18 => self.restore_on_err(line_a),
            19 => Ok(self.tag(a as u32)),
            20 => self.evaluate(line_a),
            _ => unreachable!("the sheet agrees with the table"),
        }
    }

    // Matching. A failed match moves nothing.

    fn match_literal(&mut self, offset: i32, length: i32, same: fn(u8, u8) -> bool) -> bool {
        let literal = &self.literals[offset as usize..][..length as usize];
        let rest = &self.text[self.position..];
        let matched =
            literal.len() <= rest.len() && literal.iter().zip(rest).all(|(x, y)| same(*x, *y));
        if matched {
            self.position += literal.len();
        }
        matched
    }

    fn match_range(&mut self, low: u32, high: u32) -> bool {
        match character(self.text, self.position) {
            Some((scalar, length)) if low <= scalar && scalar <= high => {
                self.position += length;
                true
            }
            _ => false,
        }
    }

    fn skip(&mut self, count: i32) -> bool {
        let mut position = self.position;
        for _ in 0..count {
            match character(self.text, position) {
                Some((_, length)) => position += length,
                None => return false,
            }
        }
        self.position = position;
        true
    }

    // The call tracker.

    /// A refused entry answers Err before all else in its combinator, and is not counted.
    fn enter(&mut self, counted: bool) -> bool {
        if self.cause.is_some() {
            return false;
        }
        if counted && self.limits.call != 0 && self.calls == u64::from(self.limits.call) {
            self.cause = Some(Cause::CallLimit);
            return false;
        }
        if self.open_calls >= self.limits.depth {
            self.cause = Some(Cause::StackLimit);
            return false;
        }
        if counted {
            self.calls = self.calls.saturating_add(1);
        }
        true
    }

    /// A combinator's call is open while its line is evaluated.
    fn inside(&mut self, line: usize) -> Result<bool, Stop> {
        self.open_calls += 1;
        let ending = self.evaluate(line)?;
        self.open_calls -= 1;
        Ok(ending)
    }

    // Rules, their pairs and their attempts.

    fn rule(&mut self, line: usize, rule: u32, body: usize) -> Result<bool, Stop> {
        if !self.enter(true) {
            return Ok(false);
        }
        let recorded = self.lookahead == Lookahead::None && self.atomicity != Atomicity::Atomic;
        let start = self.position;
        let noted = self.attempts_at(start);
        if !recorded {
            let ok = self.inside(body)?;
            self.track_if_due(line, rule, start, noted, ok)?;
            return Ok(ok);
        }

        self.take_token(line)?;
        let elder = mem::take(&mut self.siblings);
        let ok = self.inside(body)?;
        let children = mem::replace(&mut self.siblings, elder);
        self.track_if_due(line, rule, start, noted, ok)?;
        if ok {
            self.take_token(line)?;
            let end = self.position;
            self.siblings.push(Pair { rule, tag: 0, start, end, children });
        } else {
            self.held -= 1 + 2 * size(&children);
        }
        Ok(ok)
    }

    fn take_token(&mut self, line: usize) -> Result<(), Stop> {
        if self.held >= self.capacities.tokens {
            return Err(Stop::TokensFull(line));
        }
        self.held += 1;
        Ok(())
    }

    /// The lengths of both lists if furthest = p, else zeros.
    fn attempts_at(&self, p: usize) -> (usize, usize) {
        if self.furthest == p {
            (self.positives.len(), self.negatives.len())
        } else {
            (0, 0)
        }
    }

    /// On Err unless lookahead is Negative, on Ok if it is; never in Atomic.
    fn track_if_due(
        &mut self,
        line: usize,
        rule: u32,
        p: usize,
        noted: (usize, usize),
        ok: bool,
    ) -> Result<(), Stop> {
        let negative = self.lookahead == Lookahead::Negative;
        if ok != negative || self.atomicity == Atomicity::Atomic {
            return Ok(());
        }
        let now = self.attempts_at(p);
        if now.0 + now.1 == noted.0 + noted.1 + 1 {
            return Ok(());
        }
        if p == self.furthest {
            self.positives.truncate(noted.0);
            self.negatives.truncate(noted.1);
        } else if p > self.furthest {
            self.positives.clear();
            self.negatives.clear();
            self.furthest = p;
        }
        if p == self.furthest {
            let list = if negative { &mut self.negatives } else { &mut self.positives };
            if list.len() >= self.capacities.attempts {
                return Err(Stop::AttemptsFull(line));
            }
            list.push(rule);
        }
        Ok(())
    }

    fn tag(&mut self, tag: u32) -> bool {
        if self.lookahead == Lookahead::None {
            if let Some(last) = self.siblings.last_mut() {
                last.tag = tag;
            }
        }
        true
    }

    // The other combinators.

    fn sequence(&mut self, body: usize) -> Result<bool, Stop> {
        if !self.enter(true) {
            return Ok(false);
        }
        let position = self.position;
        let number = self.siblings.len();
        self.checkpoint();
        let ok = self.inside(body)?;
        if ok {
            self.drop_checkpoint();
        } else {
            self.position = position;
            let cut = self.siblings.split_off(number);
            self.held -= 2 * size(&cut);
            self.restore();
        }
        Ok(ok)
    }

    fn repeat(&mut self, body: usize) -> Result<bool, Stop> {
        if !self.enter(true) {
            return Ok(false);
        }
        while self.inside(body)? {}
        Ok(self.cause.is_none())
    }

    fn optional(&mut self, body: usize) -> Result<bool, Stop> {
        if !self.enter(true) {
            return Ok(false);
        }
        Ok(self.inside(body)? || self.cause.is_none())
    }

    fn look(&mut self, body: usize, positive: bool) -> Result<bool, Stop> {
        if !self.enter(true) {
            return Ok(false);
        }
        let (position, lookahead) = (self.position, self.lookahead);
        self.lookahead = match (lookahead, positive) {
            (Lookahead::Negative, false) => Lookahead::Positive,
            (Lookahead::Negative, true) => Lookahead::Negative,
            (_, true) => Lookahead::Positive,
            (_, false) => Lookahead::Negative,
        };
        self.checkpoint();
        let ok = self.inside(body)?;
        self.restore();
        self.position = position;
        self.lookahead = lookahead;
        Ok(self.cause.is_none() && ok == positive)
    }

    fn atomic(&mut self, body: usize, atomicity: i32) -> Result<bool, Stop> {
        if !self.enter(true) {
            return Ok(false);
        }
        let before = self.atomicity;
        self.atomicity = match atomicity {
            0 => Atomicity::Atomic,
            1 => Atomicity::CompoundAtomic,
            _ => Atomicity::NonAtomic,
        };
        let ok = self.inside(body)?;
        self.atomicity = before;
        Ok(ok)
    }

    fn restore_on_err(&mut self, body: usize) -> Result<bool, Stop> {
        if !self.enter(false) {
            return Ok(false);
        }
        self.checkpoint();
        let ok = self.inside(body)?;
        if ok {
            self.drop_checkpoint();
        } else {
            self.restore();
        }
        Ok(ok)
    }

    // The stack and its checkpoints.

    fn push(&mut self, line: usize, body: usize) -> Result<bool, Stop> {
        if !self.enter(true) {
            return Ok(false);
        }
        let start = self.position;
        let ok = self.inside(body)?;
        if ok {
            if self.stack.len() >= self.capacities.entries {
                return Err(Stop::StackFull(line));
            }
            self.stack.push((start, self.position));
        }
        Ok(ok)
    }

    fn stack_pop(&mut self, line: usize) -> Result<bool, Stop> {
        let entry = self.pop(line)?.ok_or(Stop::PopOfEmptyStack(line))?;
        Ok(self.match_entries(&[entry]))
    }

    fn stack_match_pop(&mut self, line: usize) -> Result<bool, Stop> {
        let start = self.position;
        while let Some(entry) = self.pop(line)? {
            if !self.match_entries(&[entry]) {
                self.position = start;
                return Ok(false);
            }
        }
        Ok(true)
    }

    /// All or nothing moved.
    fn match_entries(&mut self, entries: &[Entry]) -> bool {
        let mut position = self.position;
        for (start, end) in entries {
            let string = &self.text[*start..*end];
            if !self.text[position..].starts_with(string) {
                return false;
            }
            position += string.len();
        }
        self.position = position;
        true
    }

    fn peek(&mut self, start: i32, end: Option<i32>, bottom_up: bool) -> bool {
        let height = self.stack.len();
        let Some(start) = from_height(start, height) else { return false };
        let Some(end) = end.map_or(Some(height), |end| from_height(end, height)) else {
            return false;
        };
        if start >= end {
            return true;
        }
        let mut entries = self.stack[start..end].to_vec();
        if !bottom_up {
            entries.reverse();
        }
        self.match_entries(&entries)
    }

    /// Takes the top entry; the innermost checkpoint may have to owe it.
    fn pop(&mut self, line: usize) -> Result<Option<Entry>, Stop> {
        let Some(entry) = self.stack.pop() else { return Ok(None) };
        let height = self.stack.len();
        if let Some(innermost) = self.checkpoints.last_mut() {
            innermost.lowest = innermost.lowest.min(height);
        }
        let debt: usize = self.checkpoints.iter().map(Checkpoint::debt).sum();
        if debt > self.capacities.debt {
            return Err(Stop::StackFull(line));
        }
        Ok(Some(entry))
    }

    fn checkpoint(&mut self) {
        let content = self.stack.clone();
        let lowest = content.len();
        self.checkpoints.push(Checkpoint { content, lowest });
    }

    /// The outer one takes the lower of the two lowest heights.
    fn drop_checkpoint(&mut self) {
        let inner = self.checkpoints.pop().expect("it was opened");
        if let Some(outer) = self.checkpoints.last_mut() {
            outer.lowest = outer.lowest.min(inner.lowest);
        }
    }

    fn restore(&mut self) {
        self.stack = self.checkpoints.pop().expect("it was opened").content;
    }
}

/// ASCII letters only.
fn folded(byte: u8) -> u8 {
    match byte {
        b'A'..=b'Z' => byte + 32,
        _ => byte,
    }
}

/// A negative index counts from the height; above it, or below minus it, there is none.
fn from_height(index: i32, height: usize) -> Option<usize> {
    let height = height as i64;
    let index = i64::from(index);
    if index > height || index < -height {
        return None;
    }
    Some((if index < 0 { height + index } else { index }) as usize)
}
