//! Pairs, and the tokens of a forest.

#[derive(Clone, Debug, Eq, PartialEq)]
pub struct Pair {
    pub rule: u32,
    /// 0 means none.
    pub tag: u32,
    pub start: usize,
    pub end: usize,
    pub children: Forest,
}

pub type Forest = Vec<Pair>;

/// Pairs in the forest, at every depth.
pub fn size(forest: &[Pair]) -> usize {
    forest.iter().map(|pair| 1 + size(&pair.children)).sum()
}

/// Start, children, End for each pair: kind, partner's index, position, rule, tag.
pub fn tokens_of(forest: &[Pair]) -> Vec<[u32; 5]> {
    let mut tokens = Vec::new();
    append(forest, &mut tokens);
    tokens
}

fn append(forest: &[Pair], tokens: &mut Vec<[u32; 5]>) {
    for pair in forest {
        let start = tokens.len();
        let end = start + 1 + 2 * size(&pair.children);
        tokens.push([1, end as u32, pair.start as u32, 0, 0]);
        append(&pair.children, tokens);
        tokens.push([2, start as u32, pair.end as u32, pair.rule, pair.tag]);
    }
}
