//! Times pest, and every contender that is linked in, on the same node lines and texts, in one
//! process and by turns.
//!
//! bench [--runs N] [--bytes N]

use std::hint::black_box;
use std::time::Instant;

use compare::case::{Areas, Case};
use compare::contender::contenders;
use compare::grammars::{examples, Example};
use compare::stack;
use reference::Sheet;

const BYTES: [usize; 3] = [1_000, 8_000, 60_000];
const SEED: u64 = 1;

fn main() {
    let mut runs = 31;
    let mut only = None;
    let mut arguments = std::env::args().skip(1);
    while let Some(name) = arguments.next() {
        let value: usize =
            arguments.next().and_then(|value| value.parse().ok()).expect("options take a number");
        match name.as_str() {
            "--runs" => runs = value,
            "--bytes" => only = Some(value),
            other => panic!("no such option: {other}"),
        }
    }
    stack::with_large_stack(move || {
        println!("medians of {runs} runs by turns, processor time; texts from seed {SEED}");
        println!(
            "{:<12}{:>7}{:>7}{:>8}{:>9}  who            median us   ns/byte   ns/call  pest/who",
            "grammar", "lines", "bytes", "tokens", "calls"
        );
        for example in examples() {
            for bytes in BYTES.into_iter().filter(|bytes| only.is_none_or(|only| only == *bytes)) {
                time(&example, bytes, runs);
            }
        }
    });
}

fn time(example: &Example, bytes: usize, runs: usize) {
    let text = (example.text)(bytes, SEED);
    let grammar = &example.grammar;
    let mut case = Case::new(&grammar.nodes, &grammar.literals, &text);
    let sheet = Sheet::new(&case.nodes, &grammar.literals);
    let Case { root, depth_limit, .. } = case;
    let tokens = reference::queue_length(&sheet, &text, root, depth_limit, 0)
        .unwrap_or_else(|| panic!("{} does not match its text", example.name));
    // Room for twice the tokens: a run writes its area to the end.
    case.tokens = 5 * oracle::MOST_TOKENS.min(2 * tokens);
    let calls = counted_calls(&case);

    let mut others = contenders();
    let mut areas = Areas::default();
    areas.prepare(&case);
    for other in &mut others {
        let outcome = other.run(&case, &mut areas);
        let (number, count) = (outcome.number, outcome.count as usize);
        assert_eq!((number, count, outcome.calls), (0, tokens, calls), "{}", other.name());
    }
    let mut times = vec![Vec::with_capacity(runs); 1 + others.len()];
    warm_up(|| {
        black_box(reference::queue_length(&sheet, &text, root, depth_limit, 0));
    });
    for _ in 0..runs {
        times[0].push(nanoseconds(|| {
            black_box(reference::queue_length(&sheet, black_box(&text), root, depth_limit, 0));
        }));
        for (other, times) in others.iter_mut().zip(&mut times[1..]) {
            times.push(nanoseconds(|| {
                black_box(other.run(black_box(&case), &mut areas));
            }));
        }
    }

    let medians: Vec<f64> = times.iter_mut().map(|times| median(times)).collect();
    let names = ["pest"].into_iter().chain(others.iter().map(|other| other.name()));
    for (name, ns) in names.zip(&medians) {
        println!(
            "{:<12}{:>7}{:>7}{:>8}{:>9}  {:<12}{:>12.1}{:>10.2}{:>10.2}{:>10.2}",
            example.name,
            case.lines(),
            bytes,
            tokens,
            calls,
            name,
            ns / 1e3,
            ns / bytes as f64,
            ns / calls as f64,
            medians[0] / ns
        );
    }
}

/// Counted calls of the run, by the oracle.
fn counted_calls(case: &Case) -> u64 {
    let input = case.input();
    let capacities = oracle::Capacities::of(case.tokens);
    oracle::read(&oracle::nodes_of(input), input, capacities, u64::MAX).last.calls
}

/// Until caches, the allocator and the processor's clock have settled.
fn warm_up(mut work: impl FnMut()) {
    let start = Instant::now();
    while start.elapsed().as_millis() < 100 {
        work();
    }
}

/// Processor time of this thread: other work on the machine takes none of it.
fn nanoseconds(work: impl FnOnce()) -> f64 {
    let start = thread_time();
    work();
    thread_time() - start
}

/// In nanoseconds, by Linux's clock.
fn thread_time() -> f64 {
    #[repr(C)]
    struct Timespec {
        seconds: i64,
        nanoseconds: i64,
    }
    extern "C" {
        fn clock_gettime(clock: i32, time: *mut Timespec) -> i32;
    }
    const CLOCK_THREAD_CPUTIME_ID: i32 = 3;
    let mut time = Timespec { seconds: 0, nanoseconds: 0 };
    // SAFETY: `time` is laid out as C's on 64-bit Linux, and lent for the call alone.
    let status = unsafe { clock_gettime(CLOCK_THREAD_CPUTIME_ID, &mut time) };
    assert_eq!(status, 0, "the thread's clock");
    time.seconds as f64 * 1e9 + time.nanoseconds as f64
}

fn median(times: &mut [f64]) -> f64 {
    times.sort_by(f64::total_cmp);
    times[times.len() / 2]
}
