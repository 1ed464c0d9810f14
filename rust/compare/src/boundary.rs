//! Cases that stand exactly on a limit, and one past it.

use oracle::Outcome;

use crate::case::Case;
use crate::roots;

/// What the documents give a case: its number, and its counted calls if it is about them.
#[derive(Clone, Copy, Debug)]
pub struct Expected {
    pub number: u32,
    pub calls: Option<u64>,
}

impl Expected {
    pub fn is(self, outcome: Outcome) -> bool {
        outcome.number == self.number && self.calls.is_none_or(|calls| calls == outcome.calls)
    }
}

/// All of them.
pub fn expected() -> Vec<(Case, Expected)> {
    let of = |number, calls| Expected { number, calls };
    let cases = cases().into_iter().chain(roots::cases());
    let cases = cases.map(|(case, number)| (case, of(number, None)));
    let counted =
        counted().into_iter().map(|(case, number, calls)| (case, of(number, Some(calls))));
    cases.chain(counted).collect()
}

/// Each with the number that document 01 gives it.
pub fn cases() -> Vec<(Case, u32)> {
    let mut all = Vec::new();
    all.extend(m_cases());
    all.extend(texts());
    all.extend(sheets());
    all.extend(depths());
    all.extend(capacities());
    all
}

/// Document 01's cases M1 to M10 and those beside them.
fn m_cases() -> Vec<(Case, u32)> {
    let m1 = [[1, 0, 1, 0], [8, 7, 1, 0], [19, 3, 0, 0], [6, 2, 3, 0]];
    let a_then_b = [[1, 0, 1, 0], [1, 1, 1, 0], [6, 1, 2, 0]];
    let m3 = [&a_then_b[..], &[[1, 2, 1, 0], [7, 3, 4, 0]]].concat();
    let m4 = [&a_then_b[..], &[[9, 3, 0, 0], [1, 2, 1, 0], [7, 4, 5, 0]]].concat();
    let m5 = [[1, 0, 1, 0], [9, 1, 0, 0], [9, 2, 0, 0]];
    let m6 = [
        [1, 0, 1, 0],
        [8, 7, 1, 0],
        [19, 3, 0, 0],
        [1, 1, 1, 0],
        [6, 3, 4, 0],
        [9, 5, 0, 0],
        [11, 6, 0, 0],
        [6, 2, 7, 0],
    ];
    let m7 = [[1, 0, 1, 0], [8, 7, 1, 0], [12, 2, 0, 0]];
    let m8 = [&m7[..], &[[12, 3, 0, 0]]].concat();
    let abc = |nodes: &[[i32; 4]], text: &str| Case::new(nodes, "abc", text);
    vec![
        (abc(&m1, "a"), 0),
        (abc(&m1, "b"), 10),
        (abc(&m3, "ac"), 0),
        (abc(&m4, "ac"), 10),
        (Case { depth_limit: 1, ..abc(&m5, "a") }, 12),
        (Case { depth_limit: 2, ..abc(&m5, "a") }, 0),
        (Case { depth_limit: 1, call_limit: 1, ..abc(&m5, "a") }, 11),
        (abc(&m6, "a"), 0),
        (abc(&m7, "a"), 10),
        (abc(&m8, "a"), 0),
        (abc(&[[16, 0, 0, 2]], ""), 0),
        (abc(&[[16, 1, 0, 2]], ""), 10),
        (abc(&[[16, -1, 0, 2]], ""), 10),
        (abc(&[[15, 0, 0, 0]], ""), 13),
        (abc(&[[1, 0, 0, 0], [10, 1, 0, 0]], ""), 6),
        (abc(&[[3, 97, 98, 0]], "b"), 0),
        (abc(&[[3, 97, 98, 0]], "c"), 10),
    ]
}

fn texts() -> Vec<(Case, u32)> {
    let all_of = [[4, 1, 0, 0], [10, 1, 0, 0], [5, 0, 0, 0], [6, 2, 3, 0]];
    let long = "a".repeat(65_535);
    let longer = "a".repeat(65_536);
    let wide = "漢".repeat(21_845); // 65,535 bytes
    let literal = [[1, 0, 65_535, 0], [8, 1, 1, 0]];
    vec![
        (Case::new(&all_of, "", &long), 0),
        (Case::new(&all_of, "", &wide), 0),
        (Case::new(&all_of, "", &longer), 7),
        (Case::new(&literal, &long, &long), 0),
        (Case::new(&literal, &longer, &long), 4),
        (Case::new(&[[4, 65_535, 0, 0]], "", &long), 0),
        (Case::new(&[[4, i32::MAX, 0, 0]], "", &long), 10),
    ]
}

fn sheets() -> Vec<(Case, u32)> {
    let ends = |count: usize| vec![[5, 0, 0, 0]; count];
    // A chain of and_then as deep as a sheet can name it.
    let chain: Vec<[i32; 4]> =
        (0..4_096).map(|line| if line == 0 { [4, 0, 0, 0] } else { [6, line, 1, 0] }).collect();
    vec![
        (Case::new(&ends(4_096), "", ""), 0),
        (Case::new(&ends(4_097), "", ""), 5),
        (Case::new(&[], "", ""), 5),
        (Case::new(&chain, "", ""), 0),
    ]
}

/// A rule that calls itself once a letter, and runs of calls that end just at the limit.
fn depths() -> Vec<(Case, u32)> {
    let nested = [[1, 0, 1, 0], [20, 5, 0, 0], [11, 2, 0, 0], [6, 1, 3, 0], [8, 9, 4, 0]];
    let of = |letters: usize, depth_limit: u32| Case {
        depth_limit,
        tokens: 5 * 4 * letters,
        ..Case::new(&nested, "a", &"a".repeat(letters))
    };
    // The rule and the optional: two calls a letter, and one more rule that fails.
    vec![
        (of(511, 1_024), 0),
        (of(512, 1_024), 12),
        (of(3, 7), 0),
        (of(3, 6), 12),
        (Case { call_limit: 7, ..of(3, 1_024) }, 0),
        (Case { call_limit: 6, ..of(3, 1_024) }, 11),
        (Case { call_limit: u32::MAX, ..of(3, 1_024) }, 0),
        (Case { depth_limit: 0, ..of(3, 1) }, 8),
        (Case { depth_limit: 1_025, ..of(3, 1) }, 8),
    ]
}

/// Full, and one more, of each list.
fn capacities() -> Vec<(Case, u32)> {
    let pair = [[4, 0, 0, 0], [8, 7, 1, 0]];
    let tokens =
        |nodes: &[[i32; 4]], area: usize| Case { tokens: area, ..Case::new(nodes, "", "") };
    // 65,534 tokens fit; two pairs more do not, however long the area is.
    let many = doubled(&pair, 6, 15);
    let too_many = [many.clone(), vec![[6, 17, 17, 0]]].concat();
    let most = 5 * 65_536;
    let failing = [[1, 0, 1, 0], [8, 7, 1, 0]];
    let attempts = doubled(&failing, 7, 8);
    let attempts_and_one = [attempts.clone(), vec![[7, 10, 2, 0]]].concat();
    let pushes = doubled(&[[4, 0, 0, 0], [14, 1, 0, 0]], 6, 7);
    let pushes_and_one = [pushes.clone(), vec![[6, 9, 2, 0]]].concat();
    vec![
        (tokens(&pair, 10), 0),
        (tokens(&pair, 9), 14),
        (tokens(&pair, 4), 14),
        (tokens(&many, most), 14),
        (tokens(&too_many, most), 14),
        (tokens(&doubled(&pair, 6, 14), most), 0),
        (Case::new(&attempts, "a", ""), 10),
        (Case::new(&attempts_and_one, "a", ""), 16),
        (Case::new(&pushes, "", ""), 0),
        (Case::new(&pushes_and_one, "", ""), 15),
        (debt(8), 0),
        (debt(9), 15),
        (debt_taken_over(8, 9), 0),
        (debt_taken_over(9, 9), 15),
        (debt_taken_over(8, 18), 0),
        (debt_taken_over(9, 18), 15),
        (debt_restored(10, 9), 0),
        (debt_restored(10, 12), 0),
        (debt_restored(10, 18), 0),
        (debt_and_one(7), 0),
        (debt_and_one(8), 15),
    ]
}

/// The last line, twice over and over by kind 6 or 7: two to the `times`.
fn doubled(start: &[[i32; 4]], kind: i32, times: usize) -> Vec<[i32; 4]> {
    let mut nodes = start.to_vec();
    for _ in 0..times {
        let last = nodes.len() as i32;
        nodes.push([kind, last, last, 0]);
    }
    nodes
}

// Counted calls. Each case with its number and its calls.

pub fn counted() -> Vec<(Case, u32, u64)> {
    let mut all = Vec::new();
    all.extend(counted_kinds());
    all.extend(counted_rounds());
    all.extend(counted_refusals());
    all.extend(counted_limits());
    all.extend(counted_stops());
    all
}

const A: [i32; 4] = [1, 0, 1, 0];

fn on_a(nodes: &[[i32; 4]]) -> Case {
    Case::new(nodes, "a", "a")
}

/// Kinds 8 to 14 count, 18 and all others do not; what was undone stays counted.
fn counted_kinds() -> Vec<(Case, u32, u64)> {
    let over_a = |kind: i32| match kind {
        8 => [8, 7, 1, 0],
        _ => [kind, 1, i32::from(kind == 12), 0],
    };
    let once = (8..=14).map(|kind| (on_a(&[A, over_a(kind)]), 0, 1));
    let undone = [A, [9, 1, 0, 0], [1, 1, 1, 0], [6, 2, 3, 0], [9, 4, 0, 0], [7, 5, 2, 0]];
    let others = [
        (on_a(&[A, over_a(18)]), 0, 0),
        (on_a(&[A, over_a(18), [9, 2, 0, 0]]), 0, 1),
        (on_a(&[A, over_a(9), [18, 2, 0, 0]]), 0, 1),
        (on_a(&[A, over_a(8), [20, 2, 0, 0], [11, 3, 0, 0], [6, 2, 4, 0]]), 0, 3),
        (on_a(&[A, [12, 1, 0, 0]]), 10, 1),
        (Case::new(&undone, "ab", "ac"), 0, 3),
    ];
    once.chain(others).collect()
}

/// A repeat counts once, however many rounds it has, beside what its body enters in each.
fn counted_rounds() -> Vec<(Case, u32, u64)> {
    let rounds = |body: [i32; 4], count: usize| {
        Case::new(&[A, body, [10, 2, 0, 0]], "a", &"a".repeat(count))
    };
    let (letter, rule, sequence, restoring) = (A, [8, 7, 1, 0], [9, 1, 0, 0], [18, 1, 0, 0]);
    vec![
        (rounds(letter, 0), 0, 1),
        (rounds(letter, 39), 0, 1),
        (rounds(letter, 65_535), 0, 1),
        (rounds(restoring, 39), 0, 1),
        // The round that ends it enters, too.
        (rounds(rule, 9), 0, 11),
        (rounds(sequence, 39), 0, 41),
        // More than 16 bits hold.
        (rounds(sequence, 65_535), 0, 65_537),
        (Case { call_limit: 1, ..rounds(letter, 39) }, 0, 1),
        (Case { call_limit: 40, ..rounds(sequence, 39) }, 11, 40),
    ]
}

/// A refused entry is not counted: by either limit, nor after one; a refused run has no calls.
fn counted_refusals() -> Vec<(Case, u32, u64)> {
    let nested = on_a(&[A, [9, 1, 0, 0], [9, 2, 0, 0]]);
    let then_another = on_a(&[A, [9, 1, 0, 0], [9, 2, 0, 0], [7, 3, 2, 0]]);
    let restoring = on_a(&[A, [18, 1, 0, 0], [9, 2, 0, 0], [9, 3, 0, 0]]);
    let of =
        |case: &Case, depth_limit, call_limit| Case { depth_limit, call_limit, ..case.clone() };
    vec![
        (of(&nested, 2, 1), 11, 1),
        (of(&nested, 1, 0), 12, 1),
        (of(&nested, 1, 9), 12, 1),
        (of(&nested, 1, 1), 11, 1),
        (of(&then_another, 2, 1), 11, 1),
        (of(&then_another, 1, 0), 12, 1),
        (of(&restoring, 2, 0), 12, 2),
        (of(&restoring, 1_024, 2), 0, 2),
        (of(&nested, 0, 0), 8, 0),
        (Case { literals: vec![0xFF], ..nested.clone() }, 4, 0),
        (Case { nodes: Vec::new(), ..nested.clone() }.from_last_line(), 5, 0),
        (on_a(&[A, [11, 1, 0, 0], [10, 2, 0, 0]]), 6, 0),
        (Case { text: vec![0xFF], ..nested.clone() }, 7, 0),
        (Case { report: oracle::REPORT - 1, ..nested }, 9, 0),
    ]
}

/// Limits at the count, one below, one above, and none; of a run that matches and of one that fails.
fn counted_limits() -> Vec<(Case, u32, u64)> {
    let nested = [A, [9, 1, 0, 0], [8, 7, 2, 0], [11, 3, 0, 0], [14, 4, 0, 0], [5, 0, 0, 0]];
    let matches = on_a(&[&nested[..], &[[6, 5, 6, 0]]].concat());
    let fails = Case { text: b"aa".to_vec(), ..matches.clone() };
    let mut all = Vec::new();
    for (case, number) in [(matches, 0), (fails, 10)] {
        let of = |call_limit| Case { call_limit, ..case.clone() };
        for call_limit in [0, 4, 5, u32::MAX] {
            all.push((of(call_limit), number, 4));
        }
        for call_limit in 1..4 {
            all.push((of(call_limit), 11, call_limit.into()));
        }
    }
    all
}

/// Each stop, with the calls until then.
fn counted_stops() -> Vec<(Case, u32, u64)> {
    let pop = [15, 0, 0, 0];
    let two_pairs = doubled(&[[4, 0, 0, 0], [8, 7, 1, 0]], 6, 1);
    let tokens = |area: usize| Case { tokens: area, ..Case::new(&two_pairs, "", "") };
    let pushes = doubled(&[[4, 0, 0, 0], [14, 1, 0, 0]], 6, 8);
    let attempts = doubled(&[A, [8, 7, 1, 0]], 7, 9);
    let case = |nodes: &[[i32; 4]]| Case::new(nodes, "a", "");
    vec![
        (case(&[pop]), 13, 0),
        (case(&[pop, [8, 7, 1, 0], [9, 2, 0, 0]]), 13, 2),
        (Case { call_limit: 2, ..case(&[pop, [8, 7, 1, 0], [9, 2, 0, 0]]) }, 13, 2),
        // The refused call sets its cause, and the pop comes behind it.
        (
            Case { call_limit: 1, ..case(&[A, [9, 1, 0, 0], [9, 2, 0, 0], pop, [7, 3, 4, 0]]) },
            13,
            1,
        ),
        (tokens(4), 14, 1),
        (tokens(9), 14, 1),
        (tokens(14), 14, 2),
        (tokens(19), 14, 2),
        (tokens(20), 0, 2),
        (case(&pushes), 15, 129),
        // A letter's rule, 128 pushes, sequence and optional, eight times; in the ninth no optional.
        (debt(9), 15, 8 * 131 + 130),
        (case(&attempts), 16, 257),
    ]
}

// Debts. Each sheet begins with a line 9 that pushes 128 entries, a line 10 that pops all there
// are, a line 11 that matches a letter and a line 12 that matches none.

fn owing(letters: usize, rest: &[[i32; 4]]) -> Case {
    let mut nodes = doubled(&[[4, 0, 0, 0], [14, 1, 0, 0]], 6, 7);
    nodes.extend([[17, 0, 0, 0], [1, 0, 1, 0], [1, 1, 1, 0]]);
    nodes.extend(rest);
    Case::new(&nodes, "ab", &"a".repeat(letters))
}

/// `letters` checkpoints inside one another, each owing 128 entries.
pub fn debt(letters: usize) -> Case {
    owing(
        letters,
        &[
            [20, 19, 0, 0], // 13: the rule once more
            [11, 13, 0, 0],
            [6, 10, 14, 0],
            [9, 15, 0, 0], // 16: the checkpoint
            [6, 9, 16, 0],
            [6, 11, 17, 0],
            [8, 7, 18, 0], // 19: a letter, 128 pushes, 16
        ],
    )
}

/// The same, but popped inside an inner checkpoint, which is dropped: the outer one owes it.
pub fn debt_taken_over(letters: usize, kind: i32) -> Case {
    owing(
        letters,
        &[
            [kind, 10, 0, 0], // 13: the inner checkpoint
            [20, 20, 0, 0],   // 14: the rule once more
            [11, 14, 0, 0],
            [6, 13, 15, 0],
            [9, 16, 0, 0], // 17: the outer checkpoint
            [6, 9, 17, 0],
            [6, 11, 18, 0],
            [8, 7, 19, 0], // 20: a letter, 128 pushes, 17
        ],
    )
}

/// The same 128 entries, popped in an inner checkpoint and restored: nobody owes them.
pub fn debt_restored(letters: usize, kind: i32) -> Case {
    owing(
        letters,
        &[
            [6, 10, 12, 0],                       // 13: pops, then fails
            [kind, 13, i32::from(kind == 12), 0], // 14: the inner checkpoint
            [20, 20, 0, 0],                       // 15: the rule once more
            [11, 15, 0, 0],
            [7, 14, 16, 0],
            [9, 17, 0, 0], // 18: the outer checkpoint
            [6, 11, 18, 0],
            [8, 7, 19, 0], // 20: a letter, 18
            [6, 9, 20, 0], // 128 pushes, 20
        ],
    )
}

/// `letters` times 128 entries are owed, and one more.
pub fn debt_and_one(letters: usize) -> Case {
    owing(
        letters,
        &[
            [20, 22, 0, 0], // 13: the rule once more
            [15, 0, 0, 0],
            [9, 14, 0, 0],  // 15: the last checkpoint, for one entry
            [6, 2, 15, 0],  // 16: one push, 15
            [7, 13, 16, 0], // 17: where no letter is left, 16
            [6, 10, 17, 0],
            [9, 18, 0, 0], // 19: the checkpoint
            [6, 9, 19, 0],
            [6, 11, 20, 0],
            [8, 7, 21, 0], // 22: a letter, 128 pushes, 19
        ],
    )
}
