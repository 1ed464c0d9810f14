//! Document 01's `run`, from the root line of document 02, written from the documents with lists and
//! forests, not from pest's text: a second opinion. Plain before fast.

pub mod ford;
mod forest;
mod reading;
mod still;
mod table;
mod utf8;

pub use forest::{tokens_of, Forest, Pair};
pub use reading::{read, Capacities, Cause, Final, Limits, Reading, Stop};
pub use still::may_stand_still;
pub use table::{first_bad_line, Node};
pub use utf8::is_utf8;

/// Largest text and literal text, in bytes.
pub const LONGEST_TEXT: usize = 65_535;
/// Most lines of a sheet.
pub const MOST_LINES: usize = 4_096;
/// Most tokens, whatever the area's length.
pub const MOST_TOKENS: usize = 65_535;
pub const DEEPEST: u32 = 1_024;
pub const REPORT: usize = 515;
pub const SCRATCH: usize = 4_864;

/// What a run is given besides its areas.
#[derive(Clone, Copy, Debug)]
pub struct Input<'a> {
    pub nodes: &'a [i32],
    pub literals: &'a [u8],
    pub text: &'a [u8],
    /// The line that the reading starts at, from 1.
    pub root: u32,
    pub depth_limit: u32,
    pub call_limit: u32,
}

/// What a run gives back.
#[derive(Clone, Copy, Debug, Eq, PartialEq)]
pub struct Outcome {
    pub number: u32,
    pub place: u32,
    pub count: u32,
    /// Counted calls entered, up to a stop too; stays at its largest once there.
    pub calls: u64,
}

impl Outcome {
    /// With no call entered, as in a refused run.
    fn new(number: u32, place: usize, count: usize) -> Outcome {
        Outcome { number, place: place as u32, count: count as u32, calls: 0 }
    }

    /// Is it that of a run that was never started?
    pub fn is_refusal(self) -> bool {
        matches!(self.number, 4..=9 | 18)
    }
}

/// A run. Of scratch nothing but its length matters, and nothing is written to it.
pub fn run(input: Input<'_>, tokens: &mut [u32], report: &mut [u32], scratch: usize) -> Outcome {
    run_within(u64::MAX, input, tokens, report, scratch).expect("so many steps are never used up")
}

/// The same, given up with `None` and unwritten areas after so many evaluated lines.
pub fn run_within(
    steps: u64,
    input: Input<'_>,
    tokens: &mut [u32],
    report: &mut [u32],
    scratch: usize,
) -> Option<Outcome> {
    if let Some(refused) = refusal(input, report.len(), scratch) {
        return Some(refused);
    }
    let capacities = Capacities::of(tokens.len());
    let reading = read(&nodes_of(input), input, capacities, steps);
    if reading.ending == Err(Stop::OutOfSteps) {
        return None;
    }
    Some(Outcome { calls: reading.last.calls, ..lay_out(&reading, tokens, report) })
}

/// Tests 4, 5, 6, 18, 7, 8 and 9, in that order.
pub fn refusal(input: Input<'_>, report: usize, scratch: usize) -> Option<Outcome> {
    if input.literals.len() > LONGEST_TEXT || !is_utf8(input.literals) {
        return Some(Outcome::new(4, 0, 0));
    }
    let count = input.nodes.len();
    if count == 0 || !count.is_multiple_of(4) || count / 4 > MOST_LINES {
        return Some(Outcome::new(5, 0, 0));
    }
    let nodes = nodes_of(input);
    if let Some(line) = first_bad_line(&nodes, input.literals) {
        return Some(Outcome::new(5, line, 0));
    }
    if let Some(line) = still::first_still_repeat(&nodes) {
        return Some(Outcome::new(6, line, 0));
    }
    if !is_line(input.root, &nodes) {
        return Some(Outcome::new(18, 0, 0));
    }
    if input.text.len() > LONGEST_TEXT || !is_utf8(input.text) {
        return Some(Outcome::new(7, 0, 0));
    }
    if input.depth_limit < 1 || input.depth_limit > DEEPEST {
        return Some(Outcome::new(8, 0, 0));
    }
    if report < REPORT || scratch < SCRATCH {
        return Some(Outcome::new(9, 0, 0));
    }
    None
}

fn is_line(number: u32, nodes: &[Node]) -> bool {
    1 <= number && number as usize <= nodes.len()
}

pub fn nodes_of(input: Input<'_>) -> Vec<Node> {
    input.nodes.chunks_exact(4).map(Node::new).collect()
}

/// The table's row for a started run: number, place and count, and what stands in both areas.
fn lay_out(reading: &Reading, tokens: &mut [u32], report: &mut [u32]) -> Outcome {
    tokens.fill(0);
    report.fill(0);
    let last = &reading.last;
    let ok = match reading.ending {
        Ok(ok) => ok,
        Err(stop) => {
            let (number, line) = stop.number_and_line();
            return Outcome::new(number, line, 0);
        }
    };
    match (last.cause, ok) {
        (Some(Cause::CallLimit), _) => Outcome::new(11, last.furthest, 0),
        (Some(Cause::StackLimit), _) => Outcome::new(12, last.furthest, 0),
        (None, true) => {
            let list = tokens_of(&reading.forest);
            write(tokens, list.iter().flatten().copied());
            Outcome::new(0, 0, list.len())
        }
        (None, false) => {
            let positives = ascending(&last.positives);
            let negatives = ascending(&last.negatives);
            let head = [last.furthest as u32, positives.len() as u32, negatives.len() as u32];
            let rules = positives.iter().chain(&negatives).copied();
            write(report, head.into_iter().chain(rules));
            Outcome::new(10, last.furthest, positives.len() + negatives.len())
        }
    }
}

fn write(area: &mut [u32], numbers: impl Iterator<Item = u32>) {
    for (at, number) in numbers.enumerate() {
        area[at] = number;
    }
}

/// Reported rules ascend without duplicates.
fn ascending(rules: &[u32]) -> Vec<u32> {
    let set: std::collections::BTreeSet<u32> = rules.iter().copied().collect();
    set.into_iter().collect()
}
