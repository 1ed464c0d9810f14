//! Node lines, read once: each with pest's own argument types.

use std::fmt;
use std::sync::OnceLock;

use pest::{Atomicity, MatchDir};

/// pest's `R`: a rule is its number.
#[derive(Clone, Copy, Eq, Hash, Ord, PartialEq, PartialOrd)]
pub struct Rule(pub u32);

impl fmt::Debug for Rule {
    fn fmt(&self, f: &mut fmt::Formatter<'_>) -> fmt::Result {
        self.0.fmt(f)
    }
}

/// The number of a line, from 1.
pub(crate) type LineNumber = usize;

#[derive(Clone, Copy)]
pub(crate) enum Line<'l> {
    MatchString(&'l str),
    MatchInsensitive(&'l str),
    MatchRange(char, char),
    Skip(usize),
    EndOfInput,
    AndThen(LineNumber, LineNumber),
    OrElse(LineNumber, LineNumber),
    Rule(Rule, LineNumber),
    Sequence(LineNumber),
    Repeat(LineNumber),
    Optional(LineNumber),
    Lookahead(bool, LineNumber),
    Atomic(Atomicity, LineNumber),
    StackPush(LineNumber),
    StackPop,
    StackMatchPeekSlice(i32, Option<i32>, MatchDir),
    StackMatchPop,
    RestoreOnErr(LineNumber),
    TagNode(&'static str),
    Call(LineNumber),
}

/// An accepted sheet.
pub struct Sheet<'l> {
    lines: Vec<Line<'l>>,
}

impl<'l> Sheet<'l> {
    /// Panics on nodes that document 01 refuses.
    pub fn new(nodes: &[i32], literals: &'l str) -> Sheet<'l> {
        let lines = nodes.chunks_exact(4).map(|node| line(node, literals)).collect();
        Sheet { lines }
    }

    #[inline]
    pub(crate) fn line(&self, number: LineNumber) -> Line<'l> {
        self.lines[number - 1]
    }
}

fn line<'l>(node: &[i32], literals: &'l str) -> Line<'l> {
    let (a, b, c) = (node[1], node[2], node[3]);
    match node[0] {
        1 => Line::MatchString(literal(literals, a, b)),
        2 => Line::MatchInsensitive(literal(literals, a, b)),
        3 => Line::MatchRange(scalar(a), scalar(b)),
        4 => Line::Skip(count(a)),
        5 => Line::EndOfInput,
        6 => Line::AndThen(count(a), count(b)),
        7 => Line::OrElse(count(a), count(b)),
        8 => Line::Rule(Rule(a as u32), count(b)),
        9 => Line::Sequence(count(a)),
        10 => Line::Repeat(count(a)),
        11 => Line::Optional(count(a)),
        12 => Line::Lookahead(b == 1, count(a)),
        13 => Line::Atomic(atomicity(b), count(a)),
        14 => Line::StackPush(count(a)),
        15 => Line::StackPop,
        16 => Line::StackMatchPeekSlice(a, (c < 2).then_some(b), match_dir(c)),
        17 => Line::StackMatchPop,
        18 => Line::RestoreOnErr(count(a)),
        19 => Line::TagNode(tag(a)),
        20 => Line::Call(count(a)),
        other => panic!("no such kind: {other}"),
    }
}

fn count(field: i32) -> usize {
    usize::try_from(field).expect("a count")
}

fn literal(literals: &str, offset: i32, length: i32) -> &str {
    &literals[count(offset)..][..count(length)]
}

fn scalar(field: i32) -> char {
    char::from_u32(field as u32).expect("a Unicode scalar value")
}

fn atomicity(field: i32) -> Atomicity {
    match field {
        0 => Atomicity::Atomic,
        1 => Atomicity::CompoundAtomic,
        _ => Atomicity::NonAtomic,
    }
}

fn match_dir(field: i32) -> MatchDir {
    match field {
        0 | 2 => MatchDir::BottomToTop,
        _ => MatchDir::TopToBottom,
    }
}

/// pest's tags are texts: the number, written out.
fn tag(field: i32) -> &'static str {
    static TAGS: OnceLock<Vec<String>> = OnceLock::new();
    let tags = TAGS.get_or_init(|| (0..=65_535).map(|tag| tag.to_string()).collect());
    &tags[count(field)]
}
