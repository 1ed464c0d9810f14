//! Ford (2004), section 3.3: what a parsing expression consumes, over characters. Document 01
//! says that a plain grammar's match or failure is Ford's.

use crate::table::Node;
use crate::utf8::character;

/// Only kinds 1 to 13, 19 and 20, and only kinds 6 and 9 name lines of kind 6.
pub fn is_plain(nodes: &[Node]) -> bool {
    let is_chain = |named: i32| nodes[named as usize - 1].kind == 6;
    nodes.iter().all(|node| match node.kind {
        1..=6 | 9 | 19 | 20 => true,
        7 => !is_chain(node.a) && !is_chain(node.b),
        8 => !is_chain(node.b),
        10..=13 => !is_chain(node.a),
        _ => false,
    })
}

/// The position behind the prefix that the root line consumes, or `None` if it fails. Does not
/// end where Ford's relation gives neither.
pub fn consume(nodes: &[Node], literals: &[u8], text: &[u8], root: u32) -> Option<usize> {
    let grammar = Grammar { nodes, literals: characters(literals), text: characters(text) };
    let end = grammar.expression(root as usize, 0)?;
    Some(grammar.text.get(end).map_or(text.len(), |(at, _)| *at))
}

/// Each character of a UTF-8 text with its byte position.
fn characters(text: &[u8]) -> Vec<(usize, u32)> {
    let mut all = Vec::new();
    let mut at = 0;
    while let Some((scalar, length)) = character(text, at) {
        all.push((at, scalar));
        at += length;
    }
    all
}

struct Grammar<'a> {
    nodes: &'a [Node],
    literals: Vec<(usize, u32)>,
    text: Vec<(usize, u32)>,
}

impl Grammar<'_> {
    /// The expression of a line at character `x`: the character behind what it consumes.
    fn expression(&self, line: usize, x: usize) -> Option<usize> {
        let Node { kind, a, b, .. } = self.nodes[line - 1];
        let (line_a, line_b) = (a as usize, b as usize);
        match kind {
            1 => self.terminals(x, a, b, |scalar, given| scalar == given),
            2 => self.terminals(x, a, b, |scalar, given| lower(scalar) == lower(given)),
            3 => self.terminal(x, |scalar| a as u32 <= scalar && scalar <= b as u32),
            4 => (0..a).try_fold(x, |x, _| self.terminal(x, |_| true)),
            // !.
            5 => self.terminal(x, |_| true).is_none().then_some(x),
            6 => self.expression(line_b, self.expression(line_a, x)?),
            7 => self.expression(line_a, x).or_else(|| self.expression(line_b, x)),
            8 => self.expression(line_b, x),
            9 | 13 | 20 => self.expression(line_a, x),
            10 => Some(self.repetition(line_a, x)),
            // e / ε
            11 => self.expression(line_a, x).or(Some(x)),
            // !e, and &e as !!e
            12 => (self.expression(line_a, x).is_some() == (b == 1)).then_some(x),
            19 => Some(x),
            _ => unreachable!("the grammar is plain"),
        }
    }

    fn repetition(&self, line: usize, mut x: usize) -> usize {
        while let Some(next) = self.expression(line, x) {
            x = next;
        }
        x
    }

    fn terminal(&self, x: usize, in_class: impl Fn(u32) -> bool) -> Option<usize> {
        self.text.get(x).is_some_and(|(_, scalar)| in_class(*scalar)).then_some(x + 1)
    }

    /// The literal's characters, one class after the other.
    fn terminals(
        &self,
        x: usize,
        offset: i32,
        length: i32,
        same: fn(u32, u32) -> bool,
    ) -> Option<usize> {
        let bytes = offset as usize..offset as usize + length as usize;
        self.literals
            .iter()
            .filter(|(at, _)| bytes.contains(at))
            .try_fold(x, |x, (_, given)| self.terminal(x, |scalar| same(scalar, *given)))
    }
}

/// ASCII letters only.
fn lower(scalar: u32) -> u32 {
    if (0x41..=0x5A).contains(&scalar) {
        scalar + 0x20
    } else {
        scalar
    }
}
