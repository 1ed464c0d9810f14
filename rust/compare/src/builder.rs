//! Node lines from named rules: a small builder, so that a grammar can be read.

use std::collections::HashMap;

/// The number of a line.
#[derive(Clone, Copy)]
pub struct Line(i32);

/// A finished sheet with its literal text, and the names of its rules.
pub struct Grammar {
    pub nodes: Vec<[i32; 4]>,
    pub literals: String,
    /// The rule of number n at n - 1.
    pub rules: Vec<&'static str>,
}

#[derive(Default)]
pub struct Builder {
    nodes: Vec<[i32; 4]>,
    literals: String,
    rules: Vec<&'static str>,
    lines: HashMap<&'static str, Line>,
    /// Calls of rules that may not be there yet: line and name.
    calls: Vec<(Line, &'static str)>,
}

impl Builder {
    pub fn new() -> Builder {
        Builder::default()
    }

    fn line(&mut self, node: [i32; 4]) -> Line {
        self.nodes.push(node);
        Line(self.nodes.len() as i32)
    }

    /// Offset and length of the text among the literals, where it is added unless it is there.
    fn literal(&mut self, text: &str) -> (i32, i32) {
        let offset = self.literals.find(text).unwrap_or_else(|| {
            self.literals += text;
            self.literals.len() - text.len()
        });
        (offset as i32, text.len() as i32)
    }

    pub fn string(&mut self, text: &str) -> Line {
        let (offset, length) = self.literal(text);
        self.line([1, offset, length, 0])
    }

    pub fn insensitive(&mut self, text: &str) -> Line {
        let (offset, length) = self.literal(text);
        self.line([2, offset, length, 0])
    }

    pub fn range(&mut self, from: char, to: char) -> Line {
        self.line([3, from as i32, to as i32, 0])
    }

    pub fn skip(&mut self, count: i32) -> Line {
        self.line([4, count, 0, 0])
    }

    pub fn end_of_input(&mut self) -> Line {
        self.line([5, 0, 0, 0])
    }

    /// One after the other: a chain of `and_then`.
    pub fn and_then(&mut self, parts: &[Line]) -> Line {
        self.chain(6, parts)
    }

    /// One or the other: a chain of `or_else`.
    pub fn or_else(&mut self, parts: &[Line]) -> Line {
        self.chain(7, parts)
    }

    /// Nested to the right, so that a chain needs no deep left side.
    fn chain(&mut self, kind: i32, parts: &[Line]) -> Line {
        let (last, others) = parts.split_last().expect("a chain has parts");
        others.iter().rev().fold(*last, |rest, part| self.line([kind, part.0, rest.0, 0]))
    }

    /// As pest writes `a ~ b`: a sequence over a chain.
    pub fn sequence(&mut self, parts: &[Line]) -> Line {
        let chain = self.and_then(parts);
        self.line([9, chain.0, 0, 0])
    }

    pub fn repeat(&mut self, body: Line) -> Line {
        self.line([10, body.0, 0, 0])
    }

    /// Once or more.
    pub fn repeat_once(&mut self, body: Line) -> Line {
        let more = self.repeat(body);
        self.sequence(&[body, more])
    }

    pub fn optional(&mut self, body: Line) -> Line {
        self.line([11, body.0, 0, 0])
    }

    pub fn lookahead(&mut self, is_positive: bool, body: Line) -> Line {
        self.line([12, body.0, i32::from(is_positive), 0])
    }

    /// Any character where `body` does not match.
    pub fn any_but(&mut self, body: Line) -> Line {
        let not = self.lookahead(false, body);
        let any = self.skip(1);
        self.sequence(&[not, any])
    }

    pub fn stack_push(&mut self, body: Line) -> Line {
        self.line([14, body.0, 0, 0])
    }

    pub fn stack_pop(&mut self) -> Line {
        self.line([15, 0, 0, 0])
    }

    /// The top entry, left where it is.
    pub fn stack_match_top(&mut self) -> Line {
        self.line([16, -1, 0, 2])
    }

    /// A call of a rule that is, or will be, there.
    pub fn call(&mut self, name: &'static str) -> Line {
        let line = self.line([20, 0, 0, 0]);
        self.calls.push((line, name));
        line
    }

    pub fn rule(&mut self, name: &'static str, body: Line) -> Line {
        self.rules.push(name);
        let line = self.line([8, self.rules.len() as i32, body.0, 0]);
        self.lines.insert(name, line);
        line
    }

    /// As pest writes `name = @{ body }`.
    pub fn atomic_rule(&mut self, name: &'static str, body: Line) -> Line {
        let atomic = self.line([13, body.0, 0, 0]);
        self.rule(name, atomic)
    }

    /// The last rule is the root.
    pub fn finish(mut self) -> Grammar {
        for (Line(line), name) in &self.calls {
            self.nodes[*line as usize - 1][1] = self.lines[name].0;
        }
        Grammar { nodes: self.nodes, literals: self.literals, rules: self.rules }
    }
}
