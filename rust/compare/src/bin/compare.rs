//! Compares pest with the oracle, and both with every contender that is linked in.
//!
//! compare [--seed N] [--random N] [--damaged N] [--lines N] [--letters N] [--length N]
//!         [--settings N] [--watch N] [--pairs N]
//!
//! Ends with status 1 at the first difference, after printing it: a case minimised, a pair as it is.

use std::process::ExitCode;
use std::time::Instant;

use compare::case::Case;
use compare::contender::contenders;
use compare::exhaustive::{Setting, SETTINGS};
use compare::judge::{Difference, Judge, Tally};
use compare::pairs::{Differing, Pair};
use compare::rng::Rng;
use compare::{boundary, damage, exhaustive, minimise, probe, random, roots, stack, tight};

struct Options {
    seed: u64,
    random: u64,
    damaged: u64,
    lines: usize,
    letters: usize,
    length: usize,
    /// So many of the exhaustive comparison's settings.
    settings: usize,
    /// One case in so many is also watched within small capacities; 0 means none.
    watch: usize,
    /// Pairs of sheets that agree on what their root reaches.
    pairs: u64,
}

impl Options {
    fn read() -> Options {
        let mut options = Options {
            seed: 1,
            random: 1_000_000,
            damaged: 1_000_000,
            lines: 3,
            letters: 3,
            length: 3,
            settings: SETTINGS.len(),
            watch: 16,
            pairs: 400_000,
        };
        let mut arguments = std::env::args().skip(1);
        while let Some(name) = arguments.next() {
            let value: u64 = arguments
                .next()
                .and_then(|value| value.parse().ok())
                .unwrap_or_else(|| panic!("{name} takes a number"));
            match name.as_str() {
                "--seed" => options.seed = value,
                "--random" => options.random = value,
                "--damaged" => options.damaged = value,
                "--lines" => options.lines = value as usize,
                "--letters" => options.letters = value as usize,
                "--length" => options.length = value as usize,
                "--settings" => options.settings = value as usize,
                "--watch" => options.watch = value as usize,
                "--pairs" => options.pairs = value,
                other => panic!("no such option: {other}"),
            }
        }
        options
    }
}

fn main() -> ExitCode {
    let options = Options::read();
    stack::with_large_stack(move || match compare_all(&options) {
        Ok(total) => {
            println!("no difference: {total}");
            ExitCode::SUCCESS
        }
        Err(()) => ExitCode::FAILURE,
    })
}

fn compare_all(options: &Options) -> Result<Tally, ()> {
    let names: Vec<_> = contenders().iter().map(|contender| contender.name()).collect();
    println!("seed {}; pest and the oracle; contenders: {names:?}", options.seed);
    let mut total = Tally::default();
    let mut stage = |name: &str, work: &mut dyn FnMut(&mut Judge) -> Result<(), ()>| {
        let mut judge = Judge::new(contenders());
        let start = Instant::now();
        let result = work(&mut judge);
        println!("{name}: {} ({:.1} s)", judge.tally, start.elapsed().as_secs_f64());
        total.add(&judge.tally);
        result
    };
    stage("boundary", &mut |judge| boundary_cases(judge))?;
    for lines in 1..=options.lines {
        let name = format!("exhaustive, sheets of {lines} lines");
        stage(&name, &mut |judge| exhaustive_cases(judge, options, lines))?;
    }
    stage("random", &mut |judge| random_cases(judge, options))?;
    stage("damaged", &mut |judge| damaged_cases(judge, options))?;
    stage("pairs", &mut |judge| pairs(judge, options))?;
    Ok(total)
}

fn boundary_cases(judge: &mut Judge) -> Result<(), ()> {
    judge.steps = 100_000_000;
    for (case, expected) in boundary::expected() {
        match judge.judge(&case, None) {
            Ok(Some(outcome)) if expected.is(outcome) => {}
            Ok(outcome) => {
                println!("{expected:?}, not {outcome:?}:\n{case}");
                return Err(());
            }
            Err(difference) => return report(judge, &case, None, difference),
        }
    }
    Ok(())
}

fn exhaustive_cases(judge: &mut Judge, options: &Options, lines: usize) -> Result<(), ()> {
    let inputs = inputs(options);
    let mut rng = Rng::new(options.seed);
    exhaustive::sheets(lines as i32, &mut |nodes| {
        // From each line, and from none: 0, and one past the sheet.
        for root in 0..=lines as u32 + 1 {
            for (text, setting) in &inputs {
                let case = Case { root, ..exhaustive::case(nodes, text, *setting) };
                let small = small(&mut rng, options.watch);
                match check(judge, &case, small)? {
                    // Refused for the sheet or for its root: on every text and setting alike.
                    5 | 6 => return Ok(()),
                    18 => break,
                    _ => {}
                }
            }
        }
        Ok(())
    })
}

/// Each text under each setting.
fn inputs(options: &Options) -> Vec<(String, Setting)> {
    let mut all = Vec::new();
    for text in exhaustive::texts(options.letters, options.length) {
        let settings = SETTINGS.into_iter().take(options.settings);
        all.extend(settings.map(|setting| (text.clone(), setting)));
    }
    all
}

fn random_cases(judge: &mut Judge, options: &Options) -> Result<(), ()> {
    let mut rng = Rng::new(options.seed);
    for at in 0..options.random {
        let mut case = match at % 8 {
            0 => random::rooted_case(&mut rng, 48),
            1 | 2 => roots::rooted(&mut rng, probe::case),
            _ => random::rooted_case(&mut rng, 24),
        };
        if rng.once_in(8) {
            tight::tighten(&mut rng, &mut case);
        }
        let small = small(&mut rng, options.watch);
        check(judge, &case, small)?;
    }
    Ok(())
}

fn damaged_cases(judge: &mut Judge, options: &Options) -> Result<(), ()> {
    let mut rng = Rng::new(options.seed ^ 0xDA);
    for _ in 0..options.damaged {
        let case = random::rooted_case(&mut rng, 16);
        let case = damage::damage(&mut rng, case);
        let small = small(&mut rng, options.watch);
        check(judge, &case, small)?;
    }
    Ok(())
}

/// Both cases of each pair, and what request 4 promises of them.
fn pairs(judge: &mut Judge, options: &Options) -> Result<(), ()> {
    let mut rng = Rng::new(options.seed ^ 0x4);
    let mut differing = Differing::default();
    for _ in 0..options.pairs {
        let pair = Pair::draw(&mut rng);
        match judge.judge_pair(&pair) {
            Ok(Some(_)) => differing.add(&pair),
            Ok(None) => {}
            Err(difference) => {
                println!("DIFFERENCE {difference}\non\n{}\nand\n{}", pair.one, pair.other);
                return Err(());
            }
        }
    }
    println!("{differing}");
    Ok(())
}

/// Small capacities, once in `times`.
fn small(rng: &mut Rng, times: usize) -> Option<oracle::Capacities> {
    if times == 0 || !rng.once_in(times) {
        return None;
    }
    let mut capacity = |most: usize| match rng.once_in(3) {
        true => usize::MAX,
        false => rng.within(0, most),
    };
    Some(oracle::Capacities {
        tokens: capacity(8),
        entries: capacity(4),
        debt: capacity(3),
        attempts: capacity(3),
    })
}

/// The case's number, or 0 if it was given up.
fn check(judge: &mut Judge, case: &Case, small: Option<oracle::Capacities>) -> Result<u32, ()> {
    match judge.judge(case, small) {
        Ok(outcome) => Ok(outcome.map_or(0, |outcome| outcome.number)),
        Err(difference) => report(judge, case, small, difference),
    }
}

fn report<T>(
    judge: &mut Judge,
    case: &Case,
    small: Option<oracle::Capacities>,
    difference: Difference,
) -> Result<T, ()> {
    println!("DIFFERENCE {difference}\nfirst seen on\n{case}");
    let least = minimise::minimise(case, &mut |case| judge.judge(case, small).is_err());
    if let Err(difference) = judge.judge(&least, small) {
        println!("minimised: {difference}\non\n{least}");
    }
    Err(())
}
