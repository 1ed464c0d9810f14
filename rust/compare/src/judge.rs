//! What is compared on a case.
//!
//! The oracle answers each case. Where a run was started, pest is asked:
//! - after 0, 10, 11 and 12: outcome, queue, sorted rules, limit, furthest position, counted calls;
//! - after 13 to 16: the run is repeated in pest with its state looked at, and has to be stopped
//!   at the same line for the same reason after the same calls; after 14 to 16 pest's own end is
//!   also compared with the reading without capacities.
//!
//! A started case is run again with other limits (`limits.rs`), and each such run is compared as a
//! case of its own.
//!
//! Two sheets that agree on what their root reaches (`pairs.rs`) are compared each as a case, and have
//! to give the same.
//!
//! A plain grammar's 0 and 10 are also held against Ford's relation.
//!
//! A watched case is read once more with small capacities, on both sides, and pest's whole
//! private state at the end is compared too.

use std::{fmt, mem};

use oracle::{ford, Cause, Outcome};
use reference::count::{counted_state, Calls};
use reference::watch::{self, state_within};
use reference::{Ending, Limit, Sheet};

use crate::case::{Areas, Case, FILL};
use crate::contender::Contender;
use crate::limits::{self, Law};
use crate::pairs::Pair;
use crate::roots;

/// Lines evaluated before a case is given up: backtracking may be exponential.
pub const STEPS: u64 = 20_000;

/// The same where pest's state is looked at, which takes long: by the way, and to check a stop.
const WATCHED_STEPS: u64 = 400;
const STOPPED_STEPS: u64 = 5_000;
/// Longest tokens area with which pest's state is looked at: each look shows the whole queue.
const MOST_WATCHED: usize = 5_000;

/// The numbers that a run returns are below this.
pub const NUMBERS: usize = 19;

#[derive(Debug)]
pub struct Difference(pub String);

impl fmt::Display for Difference {
    fn fmt(&self, f: &mut fmt::Formatter<'_>) -> fmt::Result {
        f.write_str(&self.0)
    }
}

/// What pest comes to within capacities.
type Within = Result<(Ending, watch::Final), watch::Stop>;

/// How often each number came, and cases given up.
#[derive(Clone, Default)]
pub struct Tally {
    pub numbers: [u64; NUMBERS],
    pub given_up: u64,
    /// Runs of pest that were compared: plain, and with its state looked at.
    pub pest: u64,
    pub watched: u64,
    /// Stops for which pest's state was not looked at, since that would take too long.
    pub unseen: u64,
    /// Plain grammars held against Ford's relation.
    pub ford: u64,
    /// Runs with other limits, which are no cases.
    pub again: u64,
}

impl Tally {
    pub fn cases(&self) -> u64 {
        self.numbers.iter().sum::<u64>() + self.given_up
    }

    pub fn add(&mut self, other: &Tally) {
        for (sum, more) in self.numbers.iter_mut().zip(other.numbers) {
            *sum += more;
        }
        self.given_up += other.given_up;
        self.pest += other.pest;
        self.watched += other.watched;
        self.unseen += other.unseen;
        self.ford += other.ford;
        self.again += other.again;
    }
}

impl fmt::Display for Tally {
    fn fmt(&self, f: &mut fmt::Formatter<'_>) -> fmt::Result {
        write!(f, "{} cases;", self.cases())?;
        for (number, count) in self.numbers.iter().enumerate().filter(|(_, count)| **count > 0) {
            write!(f, " {number}: {count}")?;
        }
        write!(f, "; given up: {}; ", self.given_up)?;
        write!(f, "runs of pest compared: {}, of these watched: {}; ", self.pest, self.watched)?;
        write!(f, "stops not looked at in pest: {}; ", self.unseen)?;
        write!(f, "plain ones held against Ford: {}; ", self.ford)?;
        write!(f, "runs with other limits: {}", self.again)
    }
}

pub struct Judge {
    contenders: Vec<Box<dyn Contender>>,
    /// The oracle's, of the last run and of the case's first.
    areas: Areas,
    first: Areas,
    /// A contender's.
    others: Areas,
    pub steps: u64,
    pub tally: Tally,
}

impl Judge {
    pub fn new(contenders: Vec<Box<dyn Contender>>) -> Judge {
        Judge {
            contenders,
            areas: Areas::default(),
            first: Areas::default(),
            others: Areas::default(),
            steps: STEPS,
            tally: Tally::default(),
        }
    }

    /// Compares everyone on the case; with `small`, also pest and the reading within it.
    pub fn judge(
        &mut self,
        case: &Case,
        small: Option<oracle::Capacities>,
    ) -> Result<Option<Outcome>, Difference> {
        let Some(outcome) = self.answer(case) else {
            self.tally.given_up += 1;
            return Ok(None);
        };
        self.tally.numbers[outcome.number as usize] += 1;
        self.check(case, outcome)?;
        if !outcome.is_refusal() {
            self.check_started(case, outcome, small)?;
        }
        Ok(Some(outcome))
    }

    /// Compares everyone on both cases of a pair, and the one with the other: what request 4 promises.
    pub fn judge_pair(&mut self, pair: &Pair) -> Result<Option<Outcome>, Difference> {
        let Some(outcome) = self.answer(&pair.one) else {
            self.tally.given_up += 1;
            return Ok(None);
        };
        self.tally.numbers[outcome.number as usize] += 1;
        self.check(&pair.one, outcome)?;
        mem::swap(&mut self.areas, &mut self.first);
        self.check_again(&pair.other, outcome, Law::Same)
            .map_err(|Difference(what)| Difference(format!("of the other sheet: {what}")))?;
        Ok(Some(outcome))
    }

    /// What is seen of a started run besides.
    fn check_started(
        &mut self,
        case: &Case,
        outcome: Outcome,
        small: Option<oracle::Capacities>,
    ) -> Result<(), Difference> {
        if limits::is_promised(outcome) {
            self.check_ford(case, outcome)?;
        }
        self.check_limits(case, outcome)?;
        if let Some(small) = small {
            self.check_within(case, small, WATCHED_STEPS)?;
        }
        Ok(())
    }

    /// The oracle's answer, its areas in `areas`.
    fn answer(&mut self, case: &Case) -> Option<Outcome> {
        self.areas.prepare(case);
        let Areas { tokens, report } = &mut self.areas;
        oracle::run_within(self.steps, case.input(), tokens, report, case.scratch)
    }

    /// pest's and every contender's answer is the oracle's.
    fn check(&mut self, case: &Case, outcome: Outcome) -> Result<(), Difference> {
        if !limits::bounds_calls(case, outcome) {
            return different("calls and their limit", &outcome, &case.call_limit);
        }
        if !outcome.is_refusal() && !roots::is_line(case.root, case.lines()) {
            return different("started from no line", &outcome, &case.root);
        }
        match outcome.number {
            _ if outcome.is_refusal() => check_refused(outcome, &self.areas)?,
            0 | 10..=12 => self.check_plain(case, outcome)?,
            _ => self.check_stopped(case, outcome)?,
        }
        self.check_contenders(case, outcome)
    }

    /// pest's answer is the oracle's, outcome and areas.
    fn check_plain(&mut self, case: &Case, outcome: Outcome) -> Result<(), Difference> {
        self.tally.pest += 1;
        let (ending, calls) = pest(case);
        check_calls(calls, outcome.calls, case.call_limit)?;
        check_answer(&ending, outcome, &self.areas)
    }

    /// What other limits leave as it is, and what they do not.
    fn check_limits(&mut self, case: &Case, outcome: Outcome) -> Result<(), Difference> {
        mem::swap(&mut self.areas, &mut self.first);
        let mut again = case.clone();
        for (limits, law) in limits::others(case, outcome) {
            self.tally.again += 1;
            (again.depth_limit, again.call_limit) = (limits.depth, limits.call);
            self.check_again(&again, outcome, law)
                .map_err(|Difference(what)| Difference(format!("with {limits:?}: {what}")))?;
        }
        Ok(())
    }

    /// The case with other limits or another sheet: the law first, then everyone.
    fn check_again(&mut self, again: &Case, first: Outcome, law: Law) -> Result<(), Difference> {
        let Some(other) = self.answer(again) else {
            return match law {
                Law::Same => different("given up, and not before", &law, &first),
                Law::OneShort | Law::Free => Ok(()),
            };
        };
        if !law.allows(first, other) {
            return different(&format!("{law:?}"), &other, &first);
        }
        if law == Law::Same && self.areas != self.first {
            return different(&format!("{law:?}"), &self.areas, &self.first);
        }
        self.check(again, other)
    }

    /// 0 where Ford's relation consumes just the prefix before the final position, 10 where it
    /// fails.
    fn check_ford(&mut self, case: &Case, outcome: Outcome) -> Result<(), Difference> {
        let nodes = oracle::nodes_of(case.input());
        if !ford::is_plain(&nodes) {
            return Ok(());
        }
        self.tally.ford += 1;
        let reading = read(case, oracle::Capacities::of(case.tokens), self.steps);
        let prefix = (outcome.number == 0).then_some(reading.last.position);
        let consumed = ford::consume(&nodes, &case.literals, &case.text, case.root);
        if consumed != prefix {
            return different("Ford's relation and the reading", &consumed, &prefix);
        }
        Ok(())
    }

    fn check_stopped(&mut self, case: &Case, outcome: Outcome) -> Result<(), Difference> {
        check_zeroed(&self.areas)?;
        self.check_stop(case, outcome)?;
        if outcome.number == 13 {
            return Ok(());
        }
        self.check_unbounded(case)
    }

    /// pest within the document's capacities stops as the outcome says.
    fn check_stop(&mut self, case: &Case, outcome: Outcome) -> Result<(), Difference> {
        let within = oracle::Capacities::of(case.tokens);
        let steps = self.steps.min(STOPPED_STEPS);
        let pest = match case.tokens {
            0..=MOST_WATCHED => self.check_within(case, within, steps)?,
            _ => None,
        };
        let Some(pest) = pest else {
            self.tally.unseen += 1;
            return Ok(());
        };
        match &pest {
            Err(stop) if is_outcome(stop, outcome) => Ok(()),
            _ => different("stop: pest and the oracle", &pest, &outcome),
        }
    }

    /// The reading without capacities is pest, also where the run itself had to stop.
    fn check_unbounded(&mut self, case: &Case) -> Result<(), Difference> {
        let reading = read(case, oracle::Capacities::UNBOUNDED, self.steps);
        if reading.ending.is_err() {
            return Ok(());
        }
        self.tally.pest += 1;
        let (ending, calls) = pest(case);
        if ending != ending_of(&reading) {
            return different("without capacities", &ending, &ending_of(&reading));
        }
        check_calls(calls, reading.last.calls, case.call_limit)
    }

    /// Stops at the same line for the same reason after the same calls, or else the whole end state
    /// is the same: what pest came to. None where that takes too long, and nothing was compared.
    fn check_within(
        &mut self,
        case: &Case,
        capacities: oracle::Capacities,
        steps: u64,
    ) -> Result<Option<Within>, Difference> {
        let reading = read(case, capacities, steps);
        if reading.ending == Err(oracle::Stop::OutOfSteps) {
            return Ok(None);
        }
        self.tally.pest += 1;
        self.tally.watched += 1;
        let sheet = Sheet::new(&case.nodes, literals(case));
        let within = watch::Capacities {
            tokens: capacities.tokens,
            entries: capacities.entries,
            debt: capacities.debt,
            attempts: capacities.attempts,
        };
        let Case { root, depth_limit, call_limit, .. } = *case;
        let pest = state_within(&sheet, text(case), root, depth_limit, call_limit, within);
        let ours = match reading.ending {
            Err(stop) => {
                let (number, line) = stop.number_and_line();
                let calls = Calls::both(reading.last.calls, call_limit);
                Err(watch::Stop { number, line: line as u32, calls })
            }
            Ok(ok) => Ok((ending_of(&reading), final_of(ok, &reading.last, call_limit))),
        };
        if pest != ours {
            return different(&format!("within {capacities:?}"), &pest, &ours);
        }
        Ok(Some(pest))
    }

    fn check_contenders(&mut self, case: &Case, outcome: Outcome) -> Result<(), Difference> {
        for contender in &mut self.contenders {
            self.others.prepare(case);
            let other = contender.run(case, &mut self.others);
            if other != outcome {
                return different(contender.name(), &other, &outcome);
            }
            if self.others != self.areas {
                return different(contender.name(), &self.others, &self.areas);
            }
            if outcome.is_refusal() && !contender.left_scratch() {
                return different(contender.name(), &"wrote scratch", &"a refused run leaves it");
            }
        }
        Ok(())
    }
}

fn read(case: &Case, capacities: oracle::Capacities, steps: u64) -> oracle::Reading {
    let input = case.input();
    oracle::read(&oracle::nodes_of(input), input, capacities, steps)
}

/// pest's own end, and its counted calls.
pub fn pest(case: &Case) -> (Ending, Calls) {
    let sheet = Sheet::new(&case.nodes, literals(case));
    counted_state(&sheet, text(case), case.root, case.depth_limit, case.call_limit)
}

// A started run's texts are UTF-8: it passed tests 4 and 7.

fn literals(case: &Case) -> &str {
    std::str::from_utf8(&case.literals).expect("test 4")
}

fn text(case: &Case) -> &str {
    std::str::from_utf8(&case.text).expect("test 7")
}

/// Nothing but a refused line is a place, nothing is counted, and all areas are as they were.
fn check_refused(outcome: Outcome, areas: &Areas) -> Result<(), Difference> {
    let names_a_line = matches!(outcome.number, 5 | 6);
    if outcome.count != 0 || (outcome.place != 0 && !names_a_line) {
        return Err(Difference(format!("no refusal is like that: {outcome:?}")));
    }
    if areas.tokens.iter().chain(&areas.report).any(|number| *number != FILL) {
        return Err(Difference("a refusal wrote to an area".into()));
    }
    Ok(())
}

fn check_zeroed(areas: &Areas) -> Result<(), Difference> {
    if areas.tokens.iter().chain(&areas.report).any(|number| *number != 0) {
        return Err(Difference("a stop left something in an area".into()));
    }
    Ok(())
}

fn is_outcome(stop: &watch::Stop, outcome: Outcome) -> bool {
    let Outcome { number, place, count, calls } = outcome;
    (stop.number, stop.line, 0, stop.calls.driven) == (number, place, count, calls)
}

fn check_calls(calls: Calls, ours: u64, call_limit: u32) -> Result<(), Difference> {
    if calls != Calls::both(ours, call_limit) {
        return different("counted calls: pest and the oracle", &calls, &ours);
    }
    Ok(())
}

/// Outcome and areas, laid out here a second time from what pest gave.
fn check_answer(ending: &Ending, outcome: Outcome, areas: &Areas) -> Result<(), Difference> {
    let (expected, tokens, report) = laid_out(ending, outcome.calls);
    if expected != outcome {
        return different("outcome: pest and the oracle", ending, &outcome);
    }
    if !holds(&areas.tokens, &tokens) {
        return different("tokens: pest and the oracle", ending, &areas.tokens);
    }
    if !holds(&areas.report, &report) {
        return different("report: pest and the oracle", ending, &areas.report);
    }
    Ok(())
}

/// The outcome of a run with so many calls; what the tokens area holds; what the report area holds.
pub fn laid_out(ending: &Ending, calls: u64) -> (Outcome, Vec<u32>, Vec<u32>) {
    let outcome = |number, place, count| Outcome { number, place, count, calls };
    match ending {
        Ending::Parsed { tokens } => {
            (outcome(0, 0, tokens.len() as u32), tokens.concat(), Vec::new())
        }
        Ending::Failed { furthest, positives, negatives } => {
            let (p, n) = (positives.len() as u32, negatives.len() as u32);
            let report = [&[*furthest, p, n][..], positives, negatives].concat();
            (outcome(10, *furthest, p + n), Vec::new(), report)
        }
        Ending::Limited { limit, furthest } => {
            let number = match limit {
                Limit::Call => 11,
                Limit::Stack => 12,
            };
            (outcome(number, *furthest, 0), Vec::new(), Vec::new())
        }
    }
}

/// These numbers, then zeros.
fn holds(area: &[u32], numbers: &[u32]) -> bool {
    area.len() >= numbers.len()
        && area[..numbers.len()] == *numbers
        && area[numbers.len()..].iter().all(|number| *number == 0)
}

/// The reading's end in the words of pest's.
fn ending_of(reading: &oracle::Reading) -> Ending {
    let last = &reading.last;
    let furthest = last.furthest as u32;
    let limited = |limit| Ending::Limited { limit, furthest };
    match (last.cause, reading.ending) {
        (Some(Cause::CallLimit), _) => limited(Limit::Call),
        (Some(Cause::StackLimit), _) => limited(Limit::Stack),
        (None, Ok(true)) => Ending::Parsed { tokens: oracle::tokens_of(&reading.forest) },
        (None, _) => Ending::Failed {
            furthest,
            positives: ascending(&last.positives),
            negatives: ascending(&last.negatives),
        },
    }
}

fn ascending(rules: &[u32]) -> Vec<u32> {
    let mut rules = rules.to_vec();
    rules.sort_unstable();
    rules.dedup();
    rules
}

/// The reading's last state in the words of pest's; no checkpoint is open any more.
fn final_of(ok: bool, last: &oracle::Final, call_limit: u32) -> watch::Final {
    watch::Final {
        ok,
        position: last.position as u32,
        stack: last.stack.iter().map(|(start, end)| (*start as u32, *end as u32)).collect(),
        positives: last.positives.clone(),
        negatives: last.negatives.clone(),
        furthest: last.furthest as u32,
        calls: Calls::both(last.calls, call_limit),
        lookahead_none: true,
        non_atomic: true,
        checkpoints: 0,
        popped: 0,
    }
}

fn different<T>(what: &str, one: &dyn fmt::Debug, other: &dyn fmt::Debug) -> Result<T, Difference> {
    Err(Difference(format!("{what}:\n  {one:?}\n  {other:?}")))
}

#[cfg(test)]
mod tests {
    use super::*;
    use crate::rng::Rng;
    use crate::{boundary, random, stack};

    #[test]
    fn boundary_cases_give_the_documents_numbers() {
        stack::with_large_stack(|| {
            let mut judge = Judge::new(Vec::new());
            judge.steps = 100_000_000;
            for (case, expected) in boundary::expected() {
                let outcome = judge.judge(&case, None).unwrap_or_else(|e| panic!("{e}\n{case}"));
                let outcome = outcome.expect("there is patience for each");
                assert!(expected.is(outcome), "{expected:?}, not {outcome:?}:\n{case}");
            }
        });
    }

    #[test]
    fn random_cases_show_no_difference() {
        stack::with_large_stack(|| {
            let mut judge = Judge::new(Vec::new());
            let mut rng = Rng::new(7);
            for _ in 0..5_000 {
                let case = random::rooted_case(&mut rng, 24);
                judge.judge(&case, None).unwrap_or_else(|e| panic!("{e}\n{case}"));
            }
        });
    }
}
