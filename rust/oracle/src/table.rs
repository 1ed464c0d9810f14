//! Document 01's table of kinds.

use crate::utf8::is_edge;

/// A line's four numbers.
#[derive(Clone, Copy, Debug, Eq, PartialEq)]
pub struct Node {
    pub kind: i32,
    pub a: i32,
    pub b: i32,
    pub c: i32,
}

impl Node {
    pub fn new(four: &[i32]) -> Node {
        Node { kind: four[0], a: four[1], b: four[2], c: four[3] }
    }
}

/// The first line against the table, from 1.
pub fn first_bad_line(nodes: &[Node], literals: &[u8]) -> Option<usize> {
    (1..=nodes.len()).find(|line| !is_good(*line, nodes, literals))
}

fn is_good(line: usize, nodes: &[Node], literals: &[u8]) -> bool {
    let Node { kind, a, b, c } = nodes[line - 1];
    let lower = |named: i32| 1 <= named && (named as i64) < line as i64;
    let number = |named: i32| (1..=65_535).contains(&named);
    match kind {
        1 | 2 => is_literal(a, b, literals) && c == 0,
        3 => is_scalar(a) && is_scalar(b) && c == 0,
        4 => a >= 0 && b == 0 && c == 0,
        5 | 15 | 17 => a == 0 && b == 0 && c == 0,
        6 | 7 => lower(a) && lower(b) && c == 0,
        8 => number(a) && lower(b) && c == 0,
        9 | 10 | 11 | 14 | 18 => lower(a) && b == 0 && c == 0,
        12 => lower(a) && (b == 0 || b == 1) && c == 0,
        13 => lower(a) && (0..=2).contains(&b) && c == 0,
        16 => c == 0 || c == 1 || ((c == 2 || c == 3) && b == 0),
        19 => number(a) && b == 0 && c == 0,
        20 => is_rule(a, nodes) && b == 0 && c == 0,
        _ => false,
    }
}

/// Offset and length lie in the literal text, on character edges.
fn is_literal(offset: i32, length: i32, literals: &[u8]) -> bool {
    if offset < 0 || length < 0 {
        return false;
    }
    let end = offset as usize + length as usize;
    end <= literals.len() && is_edge(literals, offset as usize) && is_edge(literals, end)
}

fn is_scalar(number: i32) -> bool {
    (0..=0xD7FF).contains(&number) || (0xE000..=0x10FFFF).contains(&number)
}

/// Any line, lower or not, whose kind is 8.
fn is_rule(named: i32, nodes: &[Node]) -> bool {
    1 <= named && named as usize <= nodes.len() && nodes[named as usize - 1].kind == 8
}
