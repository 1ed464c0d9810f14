//! Root lines: 18 and its place in the order of the tests, and lines of every kind as roots.

use crate::case::Case;
use crate::rng::Rng;

pub fn is_line(root: u32, lines: usize) -> bool {
    1 <= root && root as usize <= lines
}

/// The last line in a third of the draws, else any line, and once in a while none.
pub fn draw(rng: &mut Rng, lines: usize) -> u32 {
    match rng.below(32) {
        0 => rng.pick(&[0, lines as u32 + 1, u32::MAX]),
        1..=10 => lines as u32,
        _ => rng.within(1, lines) as u32,
    }
}

/// A drawn case, from a root that is drawn too.
pub fn rooted(rng: &mut Rng, draw_case: fn(&mut Rng) -> Case) -> Case {
    let case = draw_case(rng);
    Case { root: draw(rng, case.lines()), ..case }
}

/// Each with the number that the documents give it.
pub fn cases() -> Vec<(Case, u32)> {
    let mut all = Vec::new();
    all.extend(no_lines());
    all.extend(order_of_tests());
    all.extend(long_sheets());
    all.extend(kinds());
    all.extend(nested());
    all
}

/// Document 01's M1, whose last line is line 4.
fn m1(root: u32) -> Case {
    let nodes = [[1, 0, 1, 0], [8, 7, 1, 0], [19, 3, 0, 0], [6, 2, 3, 0]];
    Case { root, ..Case::new(&nodes, "abc", "a") }
}

/// None, one past the sheet, the count of its node numbers, and some whose low bits are a line.
fn no_lines() -> Vec<(Case, u32)> {
    let roots = [0, 5, 16, 0x104, 0x1_0004, 0x8000_0004, u32::MAX];
    roots.map(|root| (m1(root), 18)).to_vec()
}

type Change = fn(&mut Case);

/// No line for a root, and one more reason for a refusal: 4, 5 and 6 come before 18, the others
/// behind it.
fn order_of_tests() -> Vec<(Case, u32)> {
    let reasons: [(Change, u32); 11] = [
        (|case| case.literals = vec![0xFF], 4),
        (|case| case.nodes.clear(), 5),
        (|case| case.nodes.truncate(15), 5),
        (|case| case.nodes[4] = 0, 5),
        // A repeat of the empty text.
        (|case| case.nodes[..8].copy_from_slice(&[4, 0, 0, 0, 10, 1, 0, 0]), 6),
        (|case| case.text = vec![0xFF], 18),
        (|case| case.depth_limit = 0, 18),
        (|case| case.depth_limit = oracle::DEEPEST + 1, 18),
        (|case| case.report = oracle::REPORT - 1, 18),
        (|case| case.scratch = oracle::SCRATCH - 1, 18),
        (|case| case.tokens = 0, 18),
    ];
    let with = |root, (change, number): (Change, u32)| {
        let mut case = m1(root);
        change(&mut case);
        (case, number)
    };
    [0, 5, u32::MAX].into_iter().flat_map(|root| reasons.map(|reason| with(root, reason))).collect()
}

fn long_sheets() -> Vec<(Case, u32)> {
    let ends = |lines, root| Case { root, ..Case::new(&vec![[5, 0, 0, 0]; lines], "", "") };
    vec![
        (ends(4_096, 1), 0),
        (ends(4_096, 4_096), 0),
        (ends(4_096, 4_097), 18),
        (ends(4_096, 0), 18),
        (ends(4_097, 1), 5),
        (ends(4_097, 4_097), 5),
    ]
}

/// A line of each kind, whose number is its kind. What stands behind them ends as but one of them does.
pub const KINDS: [[i32; 4]; 21] = [
    [1, 0, 1, 0],
    [2, 0, 1, 0],
    [3, 97, 98, 0],
    [4, 1, 0, 0],
    [5, 0, 0, 0],
    [6, 1, 1, 0],
    [7, 5, 1, 0],
    [8, 7, 1, 0],
    [9, 6, 0, 0],
    [10, 1, 0, 0],
    [11, 9, 0, 0],
    [12, 8, 0, 0],
    [13, 8, 0, 0],
    [14, 1, 0, 0],
    [15, 0, 0, 0],
    [16, 0, 0, 2],
    [17, 0, 0, 0],
    [18, 8, 0, 0],
    [19, 3, 0, 0],
    [20, 8, 0, 0],
    [8, 9, 15, 0], // pops the empty stack
];

/// Each line of `KINDS` as the root, on three texts.
fn kinds() -> Vec<(Case, u32)> {
    let on = |text: &'static str, numbers: [u32; 21]| {
        let case = move |root| Case { root, ..Case::new(&KINDS, "A", text) };
        (1..).zip(numbers).map(move |(root, number)| (case(root), number))
    };
    let empty = [10, 10, 10, 10, 0, 10, 0, 10, 10, 0, 0, 0, 10, 10, 13, 0, 0, 10, 0, 10, 13];
    let capital = [0, 0, 10, 0, 10, 10, 0, 0, 10, 0, 0, 10, 0, 0, 13, 0, 0, 0, 0, 0, 13];
    let two = [0, 0, 10, 0, 10, 0, 0, 0, 0, 0, 0, 10, 0, 0, 13, 0, 0, 0, 0, 0, 13];
    on("", empty).chain(on("A", capital)).chain(on("AA", two)).collect()
}

/// The lines of a rule that calls itself once a letter, each as the root: from line 2 the run goes up
/// to the last one. Each depth limit is the least that is enough, or one less.
fn nested() -> Vec<(Case, u32)> {
    let nodes = [[1, 0, 1, 0], [20, 5, 0, 0], [11, 2, 0, 0], [6, 1, 3, 0], [8, 9, 4, 0]];
    let of = |root, depth_limit| {
        let case = Case::new(&nodes, "a", "aaa");
        Case { root, depth_limit, ..case }
    };
    let roots = [(2, 7), (3, 8), (4, 6), (5, 7)];
    let enough = roots.map(|(root, depth_limit)| (of(root, depth_limit), 0));
    let short = roots.map(|(root, depth_limit)| (of(root, depth_limit - 1), 12));
    enough.into_iter().chain(short).collect()
}
