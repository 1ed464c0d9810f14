//! Document 01's cases M1 to M10, word for word, of pest and of the oracle.

use compare::case::Case;
use compare::judge::{laid_out, pest};
use oracle::Outcome;

/// Number, place, count, counted calls, and what stands in the tokens area and in the report before
/// zeros.
type Answer = ((u32, u32, u32, u64), Vec<u32>, Vec<u32>);

fn by_oracle(case: &Case) -> Answer {
    let mut tokens = vec![9; case.tokens];
    let mut report = vec![9; case.report];
    let outcome = oracle::run(case.input(), &mut tokens, &mut report, case.scratch);
    (numbers(outcome), without_zeros(tokens, 5), without_zeros(report, 1))
}

fn by_pest(case: &Case) -> Answer {
    let (ending, calls) = pest(case);
    let (outcome, tokens, report) = laid_out(&ending, calls.driven);
    (numbers(outcome), without_zeros(tokens, 5), without_zeros(report, 1))
}

fn numbers(outcome: Outcome) -> (u32, u32, u32, u64) {
    (outcome.number, outcome.place, outcome.count, outcome.calls)
}

/// The area without the groups of zeros at its end.
fn without_zeros(mut area: Vec<u32>, group: usize) -> Vec<u32> {
    while area.len() >= group && area[area.len() - group..].iter().all(|number| *number == 0) {
        area.truncate(area.len() - group);
    }
    area
}

fn expect(nodes: &[[i32; 4]], text: &str, answer: Answer) {
    let case = Case::new(nodes, "abc", text);
    assert_eq!(by_oracle(&case), answer);
    assert_eq!(by_pest(&case), answer);
}

const A: [i32; 4] = [1, 0, 1, 0];
const B: [i32; 4] = [1, 1, 1, 0];
const C: [i32; 4] = [1, 2, 1, 0];
const RULE_7: [i32; 4] = [8, 7, 1, 0];
const NOT_2: [i32; 4] = [12, 2, 0, 0];

#[test]
fn m1_and_m2() {
    let nodes = [A, RULE_7, [19, 3, 0, 0], [6, 2, 3, 0]];
    expect(&nodes, "a", ((0, 0, 2, 1), vec![1, 1, 0, 0, 0, 2, 0, 1, 7, 3], vec![]));
    expect(&nodes, "b", ((10, 0, 1, 1), vec![], vec![0, 1, 0, 7]));
}

#[test]
fn m3_and_m4() {
    expect(&[A, B, [6, 1, 2, 0], C, [7, 3, 4, 0]], "ac", ((0, 0, 0, 0), vec![], vec![]));
    let in_sequence = [A, B, [6, 1, 2, 0], [9, 3, 0, 0], C, [7, 4, 5, 0]];
    expect(&in_sequence, "ac", ((10, 0, 0, 1), vec![], vec![]));
}

#[test]
fn m5() {
    let case = Case::new(&[A, [9, 1, 0, 0], [9, 2, 0, 0]], "abc", "a");
    for (depth_limit, call_limit, number, calls) in [(1, 0, 12, 1), (2, 0, 0, 2), (1, 1, 11, 1)] {
        let case = Case { depth_limit, call_limit, ..case.clone() };
        assert_eq!(by_oracle(&case).0, (number, 0, 0, calls));
        assert_eq!(by_pest(&case).0, (number, 0, 0, calls));
    }
}

#[test]
fn m6() {
    let nodes =
        [A, RULE_7, [19, 3, 0, 0], B, [6, 3, 4, 0], [9, 5, 0, 0], [11, 6, 0, 0], [6, 2, 7, 0]];
    expect(&nodes, "a", ((0, 0, 2, 3), vec![1, 1, 0, 0, 0, 2, 0, 1, 7, 3], vec![]));
}

#[test]
fn m7_and_m8() {
    expect(&[A, RULE_7, NOT_2], "a", ((10, 0, 1, 2), vec![], vec![0, 0, 1, 7]));
    expect(&[A, RULE_7, NOT_2, [12, 3, 0, 0]], "a", ((0, 0, 0, 3), vec![], vec![]));
}

#[test]
fn m9_and_m10() {
    expect(&[[16, 0, 0, 2]], "", ((0, 0, 0, 0), vec![], vec![]));
    for start in [1, -1] {
        expect(&[[16, start, 0, 2]], "", ((10, 0, 0, 0), vec![], vec![]));
    }
    let pop = Case::new(&[[15, 0, 0, 0]], "", "");
    assert_eq!(by_oracle(&pop).0, (13, 1, 0, 0));
}
