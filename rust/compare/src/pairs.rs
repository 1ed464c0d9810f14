//! What request 4 promises: pairs of accepted sheets that agree on every line that their root
//! reaches, and differ elsewhere. All else that a run is given is the same in both.

use std::collections::BTreeSet;
use std::fmt;

use crate::case::{line_fields, Case};
use crate::rng::Rng;
use crate::{probe, random, roots, tight};

/// Most lines that are added behind a sheet.
const MOST_ADDED: usize = 6;

/// Two cases that differ in their sheets alone.
pub struct Pair {
    pub one: Case,
    pub other: Case,
}

/// Numbers of lines, from 1.
pub type Lines = BTreeSet<usize>;

/// The least set with the root, the lines that its lines of kinds 6 to 14 and 18 name, and the lines
/// that those of kind 20 call. Empty where the root is no line.
pub fn reached(case: &Case) -> Lines {
    let mut lines = Lines::new();
    let mut open = Vec::from_iter(root_line(case));
    while let Some(line) = open.pop() {
        if lines.insert(line) {
            let node = &case.nodes[4 * (line - 1)..][..4];
            open.extend(line_fields(node[0]).iter().map(|field| node[*field] as usize));
        }
    }
    lines
}

fn root_line(case: &Case) -> Option<usize> {
    roots::is_line(case.root, case.lines()).then_some(case.root as usize)
}

impl Pair {
    pub fn draw(rng: &mut Rng) -> Pair {
        let one = accepted(rng);
        let other = with_other_lines(rng, &one);
        Pair { one, other }
    }
}

/// A case whose sheet passes tests 4 to 6; a later test may refuse it.
fn accepted(rng: &mut Rng) -> Case {
    loop {
        let case = random_case(rng);
        let refused = oracle::refusal(case.input(), case.report, case.scratch);
        if !refused.is_some_and(|outcome| matches!(outcome.number, 4..=6)) {
            return case;
        }
    }
}

fn random_case(rng: &mut Rng) -> Case {
    let mut case = match rng.below(4) {
        0 => roots::rooted(rng, probe::case),
        1 => random::rooted_case(rng, 48),
        _ => random::rooted_case(rng, 16),
    };
    match rng.below(16) {
        0 => refuse(rng, &mut case),
        1 | 2 => tight::tighten(rng, &mut case),
        _ => {}
    }
    case
}

/// By 7, 8 or 9.
fn refuse(rng: &mut Rng, case: &mut Case) {
    match rng.below(4) {
        0 => case.text.push(0xFF),
        1 => case.depth_limit = rng.pick(&[0, oracle::DEEPEST + 1]),
        2 => case.report = oracle::REPORT - 1,
        _ => case.scratch = oracle::SCRATCH - 1,
    }
}

/// The case with another sheet, accepted too, which agrees with the first on what the root reaches.
fn with_other_lines(rng: &mut Rng, case: &Case) -> Case {
    let kept = reached(case);
    let literals = std::str::from_utf8(&case.literals).expect("test 4");
    let mut nodes: Vec<[i32; 4]> =
        case.nodes.chunks(4).map(|node| node.try_into().expect("test 5")).collect();
    change(rng, literals, &mut nodes, &kept);
    // A root that is no line stays none.
    if let Some(last) = kept.last() {
        change_length(rng, literals, &mut nodes, *last);
    }
    random::call_rules(rng, &mut nodes, |line| !kept.contains(&line));
    // What is reached stands still where it did, so that this changes none of it.
    random::quieten(&mut nodes);
    Case { nodes: nodes.concat(), ..case.clone() }
}

/// Most of the lines that are not kept become others.
fn change(rng: &mut Rng, literals: &str, nodes: &mut [[i32; 4]], kept: &Lines) {
    for (node, line) in nodes.iter_mut().zip(1..).filter(|(_, line)| !kept.contains(line)) {
        if !rng.once_in(4) {
            *node = random::any_line(rng, literals, line);
        }
    }
}

/// Lines are cut, down to `least` of them, or added behind.
fn change_length(rng: &mut Rng, literals: &str, nodes: &mut Vec<[i32; 4]>, least: usize) {
    if nodes.len() > least && rng.once_in(2) {
        nodes.truncate(rng.within(least, nodes.len()));
        return;
    }
    for line in (nodes.len() + 1..).take(rng.within(1, MOST_ADDED)) {
        nodes.push(random::any_line(rng, literals, line));
    }
}

/// Pairs that were compared, and how their sheets differed: what they are evidence of.
#[derive(Default)]
pub struct Differing {
    pairs: u64,
    differ: u64,
    /// In a line that both sheets have.
    within: u64,
    /// And the root reaches a line above itself.
    upward: u64,
}

impl Differing {
    pub fn add(&mut self, Pair { one, other }: &Pair) {
        let within = one.nodes.iter().zip(&other.nodes).any(|(x, y)| x != y);
        let differ = one.nodes != other.nodes;
        let upward = reached(one).last().is_some_and(|line| *line > one.root as usize);
        self.pairs += 1;
        self.differ += u64::from(differ);
        self.within += u64::from(within);
        self.upward += u64::from(differ && upward);
    }
}

impl fmt::Display for Differing {
    fn fmt(&self, f: &mut fmt::Formatter<'_>) -> fmt::Result {
        write!(f, "{} pairs; their sheets differ in {}, ", self.pairs, self.differ)?;
        write!(f, "of these in a line that both have in {}, ", self.within)?;
        write!(f, "and where the root reaches a line above it in {}", self.upward)
    }
}

#[cfg(test)]
mod tests {
    use super::*;
    use crate::judge::Judge;
    use crate::stack;

    fn from(nodes: &[[i32; 4]], root: u32) -> Vec<usize> {
        reached(&Case { root, ..Case::new(nodes, "a", "a") }).into_iter().collect()
    }

    #[test]
    fn every_kind_reaches_the_lines_that_it_names() {
        let lines: [&[usize]; 21] = [
            &[1],
            &[2],
            &[3],
            &[4],
            &[5],
            &[1, 6],
            &[1, 5, 7],
            &[1, 8],
            &[1, 6, 9],
            &[1, 10],
            &[1, 6, 9, 11],
            &[1, 8, 12],
            &[1, 8, 13],
            &[1, 14],
            &[15],
            &[16],
            &[17],
            &[1, 8, 18],
            &[19],
            &[1, 8, 20],
            &[15, 21],
        ];
        for (root, lines) in (1..).zip(lines) {
            assert_eq!(from(&roots::KINDS, root), lines);
        }
        assert_eq!(from(&roots::KINDS, 0), []);
        assert_eq!(from(&roots::KINDS, 22), []);
    }

    #[test]
    fn a_call_reaches_up() {
        let nodes = [[1, 0, 1, 0], [20, 4, 0, 0], [5, 0, 0, 0], [8, 7, 1, 0], [11, 2, 0, 0]];
        assert_eq!(from(&nodes, 2), [1, 2, 4]);
        assert_eq!(from(&nodes, 5), [1, 2, 4, 5]);
    }

    #[test]
    fn pairs_agree_on_what_is_reached_and_mostly_differ() {
        let mut rng = Rng::new(1);
        let mut differing = Differing::default();
        for _ in 0..10_000 {
            let pair = Pair::draw(&mut rng);
            let Pair { one, other } = &pair;
            let line = |case: &Case, line: usize| case.nodes[4 * (line - 1)..][..4].to_vec();
            let lines = reached(one);
            assert_eq!(lines, reached(other));
            assert!(lines.iter().all(|at| line(one, *at) == line(other, *at)), "{one}\n{other}");
            assert_eq!(*one, Case { nodes: one.nodes.clone(), ..other.clone() });
            let refused = oracle::refusal(other.input(), other.report, other.scratch);
            assert_eq!(refused, oracle::refusal(one.input(), one.report, one.scratch));
            differing.add(&pair);
        }
        assert!(differing.differ > 9_900 && differing.within > 7_000, "{differing}");
        assert!(differing.upward > 300, "{differing}");
    }

    /// A line that the root reaches matters: by a name and by a call, below the root and above it.
    #[test]
    fn a_pair_that_differs_in_what_is_reached_is_refused() {
        let nodes = [[1, 0, 1, 0], [20, 4, 0, 0], [5, 0, 0, 0], [8, 7, 1, 0], [11, 2, 0, 0]];
        let one = Case { root: 2, ..Case::new(&nodes, "ab", "a") };
        let with = |line: usize, node: [i32; 4]| {
            let mut other = one.clone();
            other.nodes[4 * (line - 1)..][..4].copy_from_slice(&node);
            stack::with_large_stack({
                let one = one.clone();
                move || Judge::new(Vec::new()).judge_pair(&Pair { one, other }).is_err()
            })
        };
        assert!(with(1, [1, 1, 1, 0]));
        assert!(with(4, [8, 9, 1, 0]));
        assert!(!with(3, [4, 1, 0, 0]));
        assert!(!with(5, [8, 9, 4, 0]));
    }
}
