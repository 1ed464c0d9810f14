//! Makes a failing case smaller while it still fails.

use crate::case::{line_fields, Case};

/// Bytes of a text that is long.
const LONG: usize = 200;

/// The smallest case found for which `fails` still holds.
pub fn minimise(case: &Case, fails: &mut dyn FnMut(&Case) -> bool) -> Case {
    let mut best = case.clone();
    while let Some(smaller) = smaller_ones(&best).into_iter().find(|case| fails(case)) {
        best = smaller;
    }
    best
}

/// Each is smaller in some measure than the case, so that this ends.
fn smaller_ones(case: &Case) -> Vec<Case> {
    let mut all = Vec::new();
    for line in 1..=case.lines() {
        all.extend(without_line(case, line));
        all.extend(simpler_line(case, line));
    }
    if case.text.len() > LONG {
        all.extend(shorter_texts(case));
    } else {
        all.extend((0..case.text.len()).filter_map(|at| without_character(case, at)));
    }
    let mut with = |change: &dyn Fn(&mut Case)| {
        let mut other = case.clone();
        change(&mut other);
        if other != *case {
            all.push(other);
        }
    };
    with(&|case| case.root = case.lines() as u32);
    with(&|case| case.call_limit = 0);
    with(&|case| case.depth_limit = 1_024);
    with(&|case| case.tokens = 400);
    with(&|case| case.report = oracle::REPORT);
    with(&|case| case.scratch = oracle::SCRATCH);
    all
}

/// A long text loses a tail only, a half of it down to its last byte: it has too many characters to
/// try each.
fn shorter_texts(case: &Case) -> impl Iterator<Item = Case> + '_ {
    let length = case.text.len();
    let tails = (1..usize::BITS).map(move |halves| length >> halves).take_while(|tail| *tail > 0);
    tails.map(move |tail| Case { text: case.text[..length - tail].to_vec(), ..case.clone() })
}

/// What names the line, the root too, names its first child instead, and the line goes.
fn without_line(case: &Case, line: usize) -> Option<Case> {
    if case.lines() < 2 {
        return None;
    }
    let (gone, by) = (line as i32, child(&case.nodes[4 * (line - 1)..]).unwrap_or(line as i32 - 1));
    let renamed = |named: i32| match named {
        _ if named == gone => by.max(1),
        _ if named > gone => named - 1,
        _ => named,
    };
    let mut nodes = Vec::new();
    for (at, node) in case.nodes.chunks(4).enumerate() {
        if at + 1 == line || node.len() < 4 {
            continue;
        }
        let mut node = node.to_vec();
        for field in line_fields(node[0]) {
            node[*field] = renamed(node[*field]);
        }
        nodes.extend(node);
    }
    let root = match i32::try_from(case.root) {
        Ok(root) => renamed(root) as u32,
        Err(_) => case.root,
    };
    Some(Case { nodes, root, ..case.clone() })
}

fn child(node: &[i32]) -> Option<i32> {
    line_fields(node[0]).first().map(|field| node[*field])
}

/// The line becomes a `skip(0)`, or a `skip(1)`, if it is neither.
fn simpler_line(case: &Case, line: usize) -> Vec<Case> {
    let at = 4 * (line - 1);
    if case.nodes[at] == 4 {
        return Vec::new();
    }
    [[4, 0, 0, 0], [4, 1, 0, 0]]
        .into_iter()
        .map(|node| {
            let mut other = case.clone();
            other.nodes[at..at + 4].copy_from_slice(&node);
            other
        })
        .collect()
}

fn without_character(case: &Case, at: usize) -> Option<Case> {
    let text = std::str::from_utf8(&case.text).ok()?;
    let c = text.get(at..)?.chars().next()?;
    let mut other = case.clone();
    other.text.drain(at..at + c.len_utf8());
    Some(other)
}
