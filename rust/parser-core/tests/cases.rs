//! The wrapper passes each slice with its own length: every refusal by number, and the areas.

use parser_core::{on_large_stack, read_sheet, run, Outcome, RunOutcome, DEEPEST, REPORT, SCRATCH};

const FILL: u32 = 9;
/// Document 01's M1: rule 7 over `a`, then tag 3.
const M1: [i32; 16] = [1, 0, 1, 0, 8, 7, 1, 0, 19, 3, 0, 0, 6, 2, 3, 0];

struct Lengths {
    tokens: usize,
    report: usize,
    scratch: usize,
}

const ENOUGH: Lengths = Lengths { tokens: 12, report: REPORT + 1, scratch: SCRATCH };

fn of(number: u32, place: u32, count: u32) -> Outcome {
    Outcome { number, place, count }
}

fn ran(number: u32, place: u32, count: u32, calls: u64) -> RunOutcome {
    RunOutcome { number, place, count, calls }
}

/// What was returned, and tokens, report and scratch afterwards.
type Answer = (RunOutcome, [Vec<u32>; 3]);

/// From the last line.
fn answer(
    nodes: &[i32],
    literals: &[u8],
    text: &[u8],
    depth_limit: u32,
    lengths: Lengths,
) -> Answer {
    rooted(nodes, literals, text, nodes.len() as u32 / 4, depth_limit, lengths)
}

fn rooted(
    nodes: &[i32],
    literals: &[u8],
    text: &[u8],
    root: u32,
    depth_limit: u32,
    lengths: Lengths,
) -> Answer {
    let [mut tokens, mut report, mut scratch] =
        [lengths.tokens, lengths.report, lengths.scratch].map(|length| vec![FILL; length]);
    let [t, r, s] = [&mut tokens, &mut report, &mut scratch];
    let outcome = run(nodes, literals, text, root, depth_limit, 0, t, r, s);
    (outcome, [tokens, report, scratch])
}

/// All areas of a refused run are as they were, and nothing was counted.
fn refused(Outcome { number, place, count }: Outcome, given: Answer) {
    assert_eq!(given.0, ran(number, place, count, 0));
    assert!(given.1.iter().flatten().all(|number| *number == FILL));
}

#[test]
fn m1_and_m2() {
    let (outcome, [tokens, report, _]) = answer(&M1, b"abc", b"a", DEEPEST, ENOUGH);
    assert_eq!(outcome, ran(0, 0, 2, 1));
    assert_eq!(tokens, [1, 1, 0, 0, 0, 2, 0, 1, 7, 3, 0, 0]);
    assert_eq!(report, [0; REPORT + 1]);

    let (outcome, [tokens, report, _]) = answer(&M1, b"abc", b"b", DEEPEST, ENOUGH);
    assert_eq!(outcome, ran(10, 0, 1, 1));
    assert_eq!(tokens, [0; 12]);
    assert_eq!(report[..4], [0, 1, 0, 7]);
    assert_eq!(report[4..], [0; REPORT - 3]);
}

#[test]
fn refusals_leave_the_areas() {
    refused(of(4, 0, 0), answer(&M1, b"\xff", b"a", DEEPEST, ENOUGH));
    refused(of(5, 0, 0), answer(&[], b"abc", b"a", DEEPEST, ENOUGH));
    refused(of(5, 2, 0), answer(&[5, 0, 0, 0, 8, 7, 2, 0], b"abc", b"a", DEEPEST, ENOUGH));
    refused(of(6, 2, 0), answer(&[5, 0, 0, 0, 10, 1, 0, 0], b"abc", b"a", DEEPEST, ENOUGH));
    refused(of(7, 0, 0), answer(&M1, b"abc", b"\xff", DEEPEST, ENOUGH));
    refused(of(7, 0, 0), answer(&M1, b"abc", &[b'a'; 65_536], DEEPEST, ENOUGH));
    refused(of(8, 0, 0), answer(&M1, b"abc", b"a", DEEPEST + 1, ENOUGH));
    let report = Lengths { report: REPORT - 1, ..ENOUGH };
    refused(of(9, 0, 0), answer(&M1, b"abc", b"a", DEEPEST, report));
    let scratch = Lengths { scratch: SCRATCH - 1, ..ENOUGH };
    refused(of(9, 0, 0), answer(&M1, b"abc", b"a", DEEPEST, scratch));
}

/// 18, behind 4 to 6 and before 7 to 9.
#[test]
fn a_root_that_is_no_line_is_refused() {
    for root in [0, 5, 16, 0x1_0004, u32::MAX] {
        refused(of(18, 0, 0), rooted(&M1, b"abc", b"a", root, DEEPEST, ENOUGH));
        refused(of(4, 0, 0), rooted(&M1, b"\xff", b"a", root, DEEPEST, ENOUGH));
        refused(of(5, 1, 0), rooted(&[0; 16], b"abc", b"a", root, DEEPEST, ENOUGH));
        refused(of(18, 0, 0), rooted(&M1, b"abc", b"\xff", root, DEEPEST, ENOUGH));
        let short = Lengths { scratch: 0, report: 0, ..ENOUGH };
        refused(of(18, 0, 0), rooted(&M1, b"abc", b"a", root, 0, short));
    }
    refused(of(6, 2, 0), rooted(&[5, 0, 0, 0, 10, 1, 0, 0], b"", b"a", 0, DEEPEST, ENOUGH));
}

/// A letter is rule 1, a digit rule 2. Line 3 repeats letters, line 6 takes a letter or a digit.
#[test]
fn two_roots_of_one_sheet() {
    let letters = [3, 97, 122, 0, 8, 1, 1, 0, 10, 2, 0, 0];
    let either = [3, 48, 57, 0, 8, 2, 4, 0, 7, 2, 5, 0];
    let sheet = [letters, either].concat();
    let from = |sheet: &[i32], root: u32, text: &[u8]| {
        let lengths = Lengths { tokens: 15, ..ENOUGH };
        let (outcome, [tokens, report, _]) = rooted(sheet, b"", text, root, DEEPEST, lengths);
        assert_eq!(report, [0; REPORT + 1]);
        (outcome, tokens)
    };
    let pair = |rule: u32| vec![1, 1, 0, 0, 0, 2, 0, 1, rule, 0, 0, 0, 0, 0, 0];
    assert_eq!(from(&sheet, 3, b"a1"), (ran(0, 0, 2, 3), pair(1)));
    assert_eq!(from(&sheet, 3, b"1"), (ran(0, 0, 0, 2), vec![0; 15]));
    assert_eq!(from(&sheet, 6, b"a1"), (ran(0, 0, 2, 1), pair(1)));
    assert_eq!(from(&sheet, 6, b"1"), (ran(0, 0, 2, 2), pair(2)));

    // Line 3 reaches none of these lines, line 6 all but the last.
    let others = [3, 48, 57, 0, 8, 9, 4, 0, 7, 2, 5, 0, 5, 0, 0, 0];
    let changed = [&letters[..], &others].concat();
    for text in [b"a1", b"1a"] {
        assert_eq!(from(&changed, 3, text), from(&sheet, 3, text));
    }
    assert_eq!(from(&changed, 6, b"1"), (ran(0, 0, 2, 2), pair(9)));
}

#[test]
fn no_room_for_a_token_is_14() {
    let tokens = Lengths { tokens: 9, ..ENOUGH };
    let (outcome, [tokens, report, _]) = answer(&M1, b"abc", b"a", DEEPEST, tokens);
    assert_eq!(outcome, ran(14, 2, 0, 1));
    assert_eq!(tokens, [0; 9]);
    assert_eq!(report, [0; REPORT + 1]);
}

/// An optional rule 7 over the end of the text, which fails on `a`: no token is left, but the rule's
/// Start is held while its body is tried.
#[test]
fn a_rule_that_fails_needs_room_for_its_start() {
    let nodes = [5, 0, 0, 0, 8, 7, 1, 0, 11, 2, 0, 0];
    for (tokens, outcome) in [(4, ran(14, 2, 0, 2)), (5, ran(0, 0, 0, 2))] {
        let lengths = Lengths { tokens, ..ENOUGH };
        assert_eq!(answer(&nodes, b"", b"a", DEEPEST, lengths).0, outcome);
    }
}

/// A repeat over a sequence over `a`, on `aaa`: one call, and one for each of four rounds.
#[test]
fn calls_are_counted_with_and_without_a_limit() {
    let nodes = [1, 0, 1, 0, 9, 1, 0, 0, 10, 2, 0, 0];
    let limited = |depth_limit: u32, call_limit: u32| {
        let (mut tokens, mut report, mut scratch) = ([0; 0], [0; REPORT], [0; SCRATCH]);
        let [t, r, s] = [&mut tokens[..], &mut report, &mut scratch];
        run(&nodes, b"a", b"aaa", 3, depth_limit, call_limit, t, r, s)
    };
    for call_limit in [0, 5, 6, u32::MAX] {
        assert_eq!(limited(2, call_limit), ran(0, 0, 0, 5));
        assert_eq!(limited(DEEPEST, call_limit), ran(0, 0, 0, 5));
    }
    for call_limit in 1..5 {
        assert_eq!(limited(2, call_limit), ran(11, 0, 0, call_limit.into()));
    }
    assert_eq!(limited(1, 0), ran(12, 0, 0, 1));
    assert_eq!(limited(0, 5), ran(8, 0, 0, 0));
}

#[test]
fn sheets_are_refused_by_number() {
    let line = b"   1           0           1           0\n";
    let mut nodes = [7; 4];
    assert_eq!(read_sheet(b"", &mut nodes), of(1, 0, 0));
    assert_eq!(read_sheet(&line[1..], &mut nodes), of(1, 0, 0));
    assert_eq!(read_sheet(&line.map(|byte| byte.max(b'/')), &mut nodes), of(1, 0, 0));
    assert_eq!(
        read_sheet(&line.map(|byte| if byte == b'1' { b'x' } else { byte }), &mut nodes),
        of(2, 1, 0)
    );
    assert_eq!(read_sheet(line, &mut nodes[..3]), of(3, 0, 0));
    assert_eq!(nodes, [7; 4]);
    assert_eq!(read_sheet(line, &mut nodes), of(0, 0, 1));
    assert_eq!(nodes, [1, 0, 1, 0]);
}

/// A rule that calls itself below lines of kind 6, each on the right of one that is on the left of
/// the next: no call opens between them.
fn nested(pairs: i32) -> Vec<i32> {
    let rule = 2 * pairs + 3;
    let mut nodes = vec![19, 1, 0, 0, 20, rule, 0, 0];
    for last in (2..).step_by(2).take(pairs as usize) {
        nodes.extend([6, 1, last, 0, 6, last + 1, 1, 0]);
    }
    nodes.extend([8, 7, rule - 1, 0]);
    nodes
}

/// Takes some 160 MB of stack.
#[test]
fn a_deep_nest_fits_the_large_stack() {
    let nodes = nested(200);
    let lengths = Lengths { tokens: 5 * 1_024, ..ENOUGH };
    let (outcome, _) = on_large_stack(|| answer(&nodes, b"", b"", DEEPEST, lengths));
    assert_eq!(outcome, ran(12, 0, 0, DEEPEST.into()));
}
