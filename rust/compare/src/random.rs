//! Random cases that often match: grammars with rules that call one another, and texts that are
//! sampled from the grammar itself and then, at times, damaged.

use oracle::Node;

use crate::case::Case;
use crate::rng::Rng;
use crate::{roots, sample};

/// One to four bytes a letter, both cases, and letters that only differ by case.
const LITERALS: [&str; 4] = ["abAB", "abcéß漢😀AZ", "aaabbb", "x(y)é\n "];
const RULES: [i32; 6] = [1, 2, 3, 7, 9, 65_535];

/// A random case that passes tests 4 and 5, from its last line.
pub fn case(rng: &mut Rng, most_lines: usize) -> Case {
    let (nodes, literals) = sheet(rng, most_lines);
    let last = nodes.len() as u32;
    from_root(rng, &nodes, literals, last)
}

/// The same from any root, and at times from none.
pub fn rooted_case(rng: &mut Rng, most_lines: usize) -> Case {
    let (nodes, literals) = sheet(rng, most_lines);
    let root = roots::draw(rng, nodes.len());
    from_root(rng, &nodes, literals, root)
}

/// A sheet with its literal text.
fn sheet(rng: &mut Rng, most_lines: usize) -> (Vec<[i32; 4]>, &'static str) {
    let literals = rng.pick(&LITERALS);
    let mut nodes = match rng.below(6) {
        0 | 1 => lines(rng, literals, most_lines),
        2 => grammar(rng, literals, most_lines, true),
        _ => grammar(rng, literals, most_lines, false),
    };
    let keep_some = rng.once_in(40);
    if !keep_some {
        quieten(&mut nodes);
    }
    (nodes, literals)
}

/// Its text is one that the root is likely to match.
fn from_root(rng: &mut Rng, nodes: &[[i32; 4]], literals: &str, root: u32) -> Case {
    let line = if roots::is_line(root, nodes.len()) { root as usize } else { nodes.len() };
    let text = sample::text(rng, nodes, literals, line);
    let mut case = Case { root, ..Case::new(nodes, literals, &text) };
    limit(rng, &mut case);
    case
}

/// Small limits and areas, now and then.
fn limit(rng: &mut Rng, case: &mut Case) {
    if rng.once_in(4) {
        case.depth_limit = rng.within(1, 8) as u32;
    }
    if rng.once_in(4) {
        case.call_limit = rng.within(1, 24) as u32;
    }
    case.tokens = match rng.below(8) {
        0 => rng.within(0, 30),
        1 => rng.within(0, 100),
        _ => rng.within(400, 404),
    };
    if rng.once_in(8) {
        case.report += rng.within(1, 9);
        case.scratch += rng.within(0, 9);
    }
}

/// Repeats whose body may stand still become optionals, from the first on, until none is left.
pub fn quieten(nodes: &mut [[i32; 4]]) {
    loop {
        let read: Vec<Node> = nodes.iter().map(|node| Node::new(node)).collect();
        let still = oracle::may_stand_still(&read);
        let first = nodes.iter_mut().find(|node| node[0] == 10 && still[node[1] as usize - 1]);
        match first {
            Some(node) => node[0] = 11,
            None => return,
        }
    }
}

// Line by line: anything may name anything lower.

fn lines(rng: &mut Rng, literals: &str, most: usize) -> Vec<[i32; 4]> {
    let count = rng.within(1, most);
    let mut nodes = Vec::new();
    for line in 1..=count {
        let terminal = line == 1 || (line != count && rng.once_in(3));
        let node = if terminal {
            leaf(rng, literals)
        } else {
            let a = recent(rng, line);
            let b = recent(rng, line);
            combinator(rng, a, b)
        };
        nodes.push(node);
    }
    call_rules(rng, &mut nodes, |_| true);
    nodes
}

/// Any line of that number: its calls have yet to be given a rule.
pub fn any_line(rng: &mut Rng, literals: &str, line: usize) -> [i32; 4] {
    if line == 1 || rng.once_in(3) {
        return leaf(rng, literals);
    }
    let (a, b) = (recent(rng, line), recent(rng, line));
    combinator(rng, a, b)
}

/// A line below `line`, most often a near one.
fn recent(rng: &mut Rng, line: usize) -> i32 {
    let reach = if rng.once_in(4) { line - 1 } else { (line - 1).min(3) };
    (line - rng.within(1, reach)) as i32
}

/// Turns the calls at those lines into calls of whatever rules there are; without any they become
/// `skip(1)`.
pub fn call_rules(rng: &mut Rng, nodes: &mut [[i32; 4]], at: impl Fn(usize) -> bool) {
    let rules: Vec<i32> =
        (1..=nodes.len()).filter(|line| nodes[line - 1][0] == 8).map(|line| line as i32).collect();
    let lines = nodes.iter_mut().zip(1..);
    for (node, _) in lines.filter(|(node, line)| node[0] == 20 && at(*line)) {
        *node = match rules.is_empty() {
            true => [4, 1, 0, 0],
            false => [20, rng.pick(&rules), 0, 0],
        };
    }
}

// Rule by rule: each body is a tree, and leaves may call any rule. If the grammar is to be plain,
// nothing uses the stack, and every chain of and_then stands in a sequence.

fn grammar(rng: &mut Rng, literals: &str, most: usize, plain: bool) -> Vec<[i32; 4]> {
    let mut nodes = Vec::new();
    let rules = rng.within(1, 4);
    for _ in 0..rules {
        if nodes.len() + 8 > most {
            break;
        }
        let body = tree(rng, literals, &mut nodes, 3, plain);
        nodes.push([8, rng.pick(&RULES), body, 0]);
    }
    match rng.below(3) {
        0 if nodes.len() + 10 <= most => {
            tree(rng, literals, &mut nodes, 3, plain);
        }
        1 => {
            let last = nodes.len() as i32;
            let node = combinator(rng, last, last);
            nodes.push(if plain && node[0] > 13 { [9, last, 0, 0] } else { node });
        }
        _ => {}
    }
    call_rules(rng, &mut nodes, |_| true);
    nodes
}

fn tree(
    rng: &mut Rng,
    literals: &str,
    nodes: &mut Vec<[i32; 4]>,
    depth: usize,
    plain: bool,
) -> i32 {
    let mut node = if depth == 0 || rng.once_in(5) {
        leaf(rng, literals)
    } else {
        let a = tree(rng, literals, nodes, depth - 1, plain);
        let node = combinator(rng, a, a);
        match node[0] {
            // pest writes its sequences as a chain of and_then in one closure.
            6 | 7 if depth > 1 || rng.once_in(2) => {
                let b = tree(rng, literals, nodes, depth - 1, plain);
                [node[0], a, b, 0]
            }
            _ => node,
        }
    };
    if plain {
        node = match node[0] {
            6 => {
                nodes.push(node);
                [9, nodes.len() as i32, 0, 0]
            }
            14 | 18 => [9, node[1], 0, 0],
            15..=17 => [4, 1, 0, 0],
            _ => node,
        };
    }
    nodes.push(node);
    nodes.len() as i32
}

fn leaf(rng: &mut Rng, literals: &str) -> [i32; 4] {
    match rng.below(24) {
        0..=6 => {
            let (offset, length) = literal(rng, literals);
            [1, offset, length, 0]
        }
        7..=8 => {
            let (offset, length) = literal(rng, literals);
            [2, offset, length, 0]
        }
        9..=10 => range(rng),
        11 => [4, rng.within(0, 2) as i32, 0, 0],
        12 => [5, 0, 0, 0],
        13..=14 => [15, 0, 0, 0],
        15..=16 => peek(rng),
        17 => [17, 0, 0, 0],
        18..=19 => [19, rng.within(1, 3) as i32, 0, 0],
        _ => [20, 0, 0, 0],
    }
}

/// Up to two characters of the literal text.
fn literal(rng: &mut Rng, literals: &str) -> (i32, i32) {
    let edges: Vec<usize> =
        literals.char_indices().map(|(at, _)| at).chain([literals.len()]).collect();
    let first = rng.below(edges.len());
    let most = (edges.len() - 1 - first).min(2);
    let last = first + if rng.once_in(8) { 0 } else { rng.within(most.min(1), most) };
    (edges[first] as i32, (edges[last] - edges[first]) as i32)
}

fn range(rng: &mut Rng) -> [i32; 4] {
    const EDGES: [i32; 12] = [0, 65, 97, 98, 99, 122, 127, 233, 0x6F22, 0xD7FF, 0xE000, 0x10FFFF];
    let (x, y) = (rng.pick(&EDGES), rng.pick(&EDGES));
    if rng.once_in(12) {
        [3, x, y, 0]
    } else {
        [3, x.min(y), x.max(y), 0]
    }
}

fn peek(rng: &mut Rng) -> [i32; 4] {
    const INDEXES: [i32; 10] = [0, 0, 0, 1, -1, 2, -2, 3, i32::MIN, i32::MAX];
    let c = rng.below(4) as i32;
    let b = if c < 2 { rng.pick(&INDEXES) } else { 0 };
    [16, rng.pick(&INDEXES), b, c]
}

fn combinator(rng: &mut Rng, a: i32, b: i32) -> [i32; 4] {
    match rng.below(32) {
        0..=7 => [6, a, b, 0],
        8..=12 => [7, a, b, 0],
        13..=16 => [8, rng.pick(&RULES), a, 0],
        17..=19 => [9, a, 0, 0],
        20..=21 => [10, a, 0, 0],
        22..=23 => [11, a, 0, 0],
        24..=25 => [12, a, rng.below(2) as i32, 0],
        26..=27 => [13, a, rng.below(3) as i32, 0],
        28..=30 => [14, a, 0, 0],
        _ => [18, a, 0, 0],
    }
}
