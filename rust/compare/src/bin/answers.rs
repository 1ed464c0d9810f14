//! Makes the fixed list of answers, or replays it.
//!
//! answers [--seed N] [--out DIR]     writes DIR/answers-NN.bin and DIR/answers-long.bin
//! answers --check DIR                replays them with the oracle and with pest
//!
//! A run that ends in 0, 10, 11 or 12 is recorded as pest ended it; any other answer is the
//! oracle's, and a stop (13 to 16) has been found in pest's own state too.

use std::collections::HashSet;
use std::fs;
use std::path::{Path, PathBuf};
use std::process::ExitCode;

use compare::answers::{Record, LONGEST_FILE};
use compare::case::{Areas, Case, FILL};
use compare::contender::contenders;
use compare::judge::{laid_out, pest, Judge, NUMBERS};
use compare::rng::Rng;
use compare::{boundary, damage, exhaustive, probe, random, roots, stack, tight};

const LONGEST_TEXT: usize = 40;
const MOST_LINES: usize = 22;
const MOST_TOKEN_NUMBERS: usize = 100;
/// Boundary cases may be longer, but have to stay below what one file holds.
const MOST_BOUNDARY_NUMBERS: usize = 20_000;

/// How many answers of each number are wanted beside the fixed cases.
const WANTED: [(u32, usize); 13] = [
    (0, 400),
    (4, 20),
    (5, 60),
    (6, 60),
    (7, 20),
    (8, 10),
    (9, 20),
    (10, 400),
    (11, 80),
    (12, 80),
    (13, 80),
    (14, 80),
    (15, 40),
];

fn main() -> ExitCode {
    let mut seed = 1;
    let mut out = PathBuf::from("answers-out");
    let mut check = None;
    let mut arguments = std::env::args().skip(1);
    while let Some(name) = arguments.next() {
        let value = arguments.next().unwrap_or_else(|| panic!("{name} takes a value"));
        match name.as_str() {
            "--seed" => seed = value.parse().expect("a seed"),
            "--out" => out = value.into(),
            "--check" => check = Some(PathBuf::from(value)),
            other => panic!("no such option: {other}"),
        }
    }
    stack::with_large_stack(move || match check {
        Some(folder) => replay(&folder),
        None => {
            make(seed, &out);
            replay(&out)
        }
    })
}

// Making.

struct List {
    judge: Judge,
    seen: HashSet<Vec<u8>>,
    records: Vec<Record>,
}

fn make(seed: u64, out: &Path) {
    let mut list =
        List { judge: Judge::new(contenders()), seen: HashSet::new(), records: Vec::new() };
    list.judge.steps = 200_000_000;
    let fits = |case: &Case| case.tokens <= MOST_BOUNDARY_NUMBERS && is_plain(&case.text);
    let boundary = boundary::cases().into_iter().map(|(case, _)| case).filter(fits);
    boundary.for_each(|case| list.take(case));
    let counted = boundary::counted().into_iter().map(|(case, ..)| case).filter(fits);
    list.judge.steps = 100_000;
    table_cases().into_iter().for_each(|case| list.take(case));
    attempts_cases().into_iter().for_each(|case| list.take(case));
    still_cases().into_iter().for_each(|case| list.take(case));
    limit_cases().into_iter().for_each(|case| list.take(case));
    let mut rng = Rng::new(seed);
    for (number, wanted) in WANTED {
        fill(&mut rng, &mut list, number, wanted);
    }
    // Last, so that the answers before them keep their running numbers.
    list.judge.steps = 200_000_000;
    counted.for_each(|case| list.take(case));
    roots::cases().into_iter().for_each(|(case, _)| list.take(case));
    fs::create_dir_all(out).expect("the folder");
    write_files(out, &list.records);
    println!("seed {seed}: {} answers", list.records.len());
    println!("{}", list.judge.tally);
}

/// A long text is given by its length, so it can hold but one letter.
fn is_plain(text: &[u8]) -> bool {
    text.len() < LONGEST_TEXT || text.iter().all(|byte| *byte == b'a')
}

impl List {
    /// Records the case with its answer, unless it was there before.
    fn take(&mut self, case: Case) {
        let record = record(&mut self.judge, case);
        if self.seen.insert(record.encode(0)) {
            self.records.push(record);
        }
    }
}

fn record(judge: &mut Judge, case: Case) -> Record {
    let outcome = match judge.judge(&case, None) {
        Ok(outcome) => outcome.expect("small cases end soon"),
        Err(difference) => panic!("DIFFERENCE {difference}\n{case}"),
    };
    if !matches!(outcome.number, 0 | 10 | 11 | 12) {
        let (tokens, positives, negatives) = Default::default();
        return Record { case, outcome, tokens, positives, negatives };
    }
    let (ending, calls) = pest(&case);
    let (outcome, tokens, _) = laid_out(&ending, calls.driven);
    let (positives, negatives) = match ending {
        reference::Ending::Failed { positives, negatives, .. } => (positives, negatives),
        _ => Default::default(),
    };
    Record { case, outcome, tokens, positives, negatives }
}

/// Each kind with good fields, and each field with every edge of what it may hold.
fn table_cases() -> Vec<Case> {
    const GOOD: [[i32; 4]; 20] = [
        [1, 1, 2, 0],
        [2, 0, 1, 0],
        [3, 97, 98, 0],
        [4, 1, 0, 0],
        [5, 0, 0, 0],
        [6, 1, 3, 0],
        [7, 3, 1, 0],
        [8, 7, 3, 0],
        [9, 1, 0, 0],
        [10, 1, 0, 0],
        [11, 1, 0, 0],
        [12, 1, 1, 0],
        [13, 2, 0, 0],
        [14, 1, 0, 0],
        [15, 0, 0, 0],
        [16, 0, 0, 0],
        [17, 0, 0, 0],
        [18, 1, 0, 0],
        [19, 3, 0, 0],
        [20, 2, 0, 0],
    ];
    const EDGES: [i32; 19] = [
        -1,
        0,
        1,
        2,
        3,
        4,
        5,
        6,
        7,
        65_535,
        65_536,
        0xD7FF,
        0xD800,
        0xDFFF,
        0xE000,
        0x10FFFF,
        0x110000,
        i32::MIN,
        i32::MAX,
    ];
    let sheet = |node: [i32; 4]| {
        let nodes = [[1, 0, 1, 0], [8, 7, 1, 0], [1, 1, 2, 0], node, [6, 2, 4, 0]];
        Case::new(&nodes, "aé漢", "aéab")
    };
    let mut cases = Vec::new();
    for good in GOOD {
        cases.push(sheet(good));
        for field in 1..4 {
            for edge in EDGES {
                let mut node = good;
                node[field] = edge;
                cases.push(sheet(node));
            }
        }
    }
    for kind in [-1, 0, 21, 256, 257, i32::MIN, i32::MAX] {
        cases.push(sheet([kind, 0, 0, 0]));
    }
    cases
}

/// A repeat of each kind of line, over lines that may stand still (2) and that move (1), and of
/// rules that call themselves.
fn still_cases() -> Vec<Case> {
    const MOVES: [i32; 4] = [4, 1, 0, 0];
    const STAYS: [i32; 4] = [4, 0, 0, 0];
    let mut cases = Vec::new();
    let mut repeat = |lines: &[[i32; 4]]| {
        let mut nodes = [&[MOVES, STAYS], lines].concat();
        nodes.push([10, nodes.len() as i32, 0, 0]);
        cases.push(Case::new(&nodes, "a", "aa"));
    };
    for leaf in [[1, 0, 0, 0], [1, 0, 1, 0], [2, 0, 0, 0], [2, 0, 1, 0], [3, 97, 97, 0], MOVES] {
        repeat(&[leaf]);
    }
    for kind in [4, 5, 15, 16, 17] {
        repeat(&[[kind, 0, 0, 0]]);
    }
    repeat(&[[19, 3, 0, 0]]);
    for (a, b) in [(1, 1), (1, 2), (2, 1), (2, 2)] {
        repeat(&[[6, a, b, 0]]);
        repeat(&[[7, a, b, 0]]);
    }
    for body in [1, 2] {
        for kind in [9, 10, 11, 12, 13, 14, 18] {
            repeat(&[[kind, body, 0, 0]]);
        }
        repeat(&[[12, body, 1, 0]]);
        repeat(&[[8, 7, body, 0]]);
        repeat(&[[8, 7, body, 0], [20, 3, 0, 0]]);
        // The rule is the call of itself beside `body`.
        repeat(&[[20, 5, 0, 0], [7, 3, body, 0], [8, 7, 4, 0]]);
        repeat(&[[20, 5, 0, 0], [6, 3, body, 0], [8, 7, 4, 0]]);
        repeat(&[[20, 5, 0, 0], [7, body, 3, 0], [8, 7, 4, 0]]);
        repeat(&[[20, 5, 0, 0], [6, body, 3, 0], [8, 7, 4, 0]]);
    }
    // A rule that is only the call of itself is not in the least set.
    repeat(&[[20, 4, 0, 0], [8, 7, 3, 0]]);
    cases
}

/// A limit inside each kind of entering line, and then a pop of the empty stack: whether it comes
/// to that shows how the line answered.
fn limit_cases() -> Vec<Case> {
    let entering = [8, 9, 10, 11, 12, 13, 14, 18].map(|kind| match kind {
        8 => [8, 7, 2, 0],
        _ => [kind, 2, 0, 0],
    });
    let mut cases = Vec::new();
    for node in entering.into_iter().chain([[12, 2, 1, 0]]) {
        for chain in [6, 7] {
            let nodes = [[1, 0, 1, 0], [9, 1, 0, 0], node, [15, 0, 0, 0], [chain, 3, 4, 0]];
            let case = Case::new(&nodes, "a", "a");
            cases.push(Case { depth_limit: 1, ..case.clone() });
            cases.push(Case { call_limit: 1, ..case });
        }
    }
    cases
}

/// Lists of attempts up to their end, in both lists, of equal and of ascending rules.
fn attempts_cases() -> Vec<Case> {
    let mut cases = Vec::new();
    for negative in [false, true] {
        for times in [1, 5, 7, 8, 9] {
            let mut nodes = vec![[1, 0, 1, 0], [8, 7, 1, 0]];
            if negative {
                nodes.push([12, 2, 0, 0]);
            }
            for _ in 0..times {
                let last = nodes.len() as i32;
                nodes.push([7, last, last, 0]);
            }
            let text = if negative { "a" } else { "" };
            cases.push(Case::new(&nodes, "a", text));
            let last = nodes.len() as i32;
            cases.push(Case::new(&[nodes.clone(), vec![[8, 9, last, 0]]].concat(), "a", text));
            cases.push(Case::new(&[nodes, vec![[7, last, 2, 0]]].concat(), "a", text));
        }
    }
    cases
}

/// Draws cases until so many more of the number are in the list.
fn fill(rng: &mut Rng, list: &mut List, number: u32, wanted: usize) {
    let target = list.records.len() + wanted;
    while list.records.len() < target {
        let Some(case) = draw(rng, number) else { continue };
        let Some(outcome) = number_of(&case) else { continue };
        // Runs that say something: tokens after 0, rules after 10.
        let mute = outcome.count == 0 && matches!(number, 0 | 10);
        if outcome.number == number && (!mute || rng.once_in(8)) {
            list.take(case);
        }
    }
}

fn draw(rng: &mut Rng, number: u32) -> Option<Case> {
    let mut case = match rng.below(4) {
        0 => small(rng),
        1 => random::case(rng, 14),
        _ => probe::case(rng),
    };
    match number {
        // A damaged sheet may have another last line.
        4..=9 => case = damage::damage(rng, case).from_last_line(),
        15 => case = full_stack(rng),
        13 => {}
        _ if rng.once_in(3) => tight::tighten(rng, &mut case),
        _ => {}
    }
    if case.tokens > MOST_TOKEN_NUMBERS {
        case.tokens = rng.within(80, MOST_TOKEN_NUMBERS);
    }
    let fits = case.text.len() <= LONGEST_TEXT && case.lines() <= MOST_LINES;
    fits.then_some(case)
}

/// Three lines of the exhaustive comparison's field set.
fn small(rng: &mut Rng) -> Case {
    let nodes: Vec<i32> = (1..=3).flat_map(|line| rng.pick(&exhaustive::fields(line, 3))).collect();
    let texts = exhaustive::texts(3, 3);
    let text = &texts[rng.below(texts.len())];
    exhaustive::case(&nodes, text, rng.pick(&exhaustive::SETTINGS))
}

/// Entry 129 or debt 1,025, with a line or a letter changed at random.
fn full_stack(rng: &mut Rng) -> Case {
    let mut case = boundary::debt(rng.within(1, 12));
    let line = rng.below(case.lines());
    match rng.below(4) {
        0 => case.nodes[4 * line] = rng.pick(&[6, 9, 11, 14, 18]),
        1 => {
            let checkpoint = case.nodes.chunks(4).position(|node| node[0] == 9).expect("line 16");
            case.nodes[4 * checkpoint] = rng.pick(&[12, 18]);
            case.nodes[4 * checkpoint + 2] = 0;
        }
        2 => {
            let at = rng.below(case.text.len());
            case.text[at] = b'b';
        }
        _ => case.call_limit = rng.within(1, 2_000) as u32,
    }
    case
}

fn number_of(case: &Case) -> Option<oracle::Outcome> {
    let mut areas = Areas::default();
    areas.prepare(case);
    let Areas { tokens, report } = &mut areas;
    oracle::run_within(20_000, case.input(), tokens, report, case.scratch)
}

// Writing and replaying.

/// Records whose inputs are long stand in a file of their own.
fn write_files(out: &Path, records: &[Record]) {
    for old in files(out) {
        fs::remove_file(old).expect("an older list goes");
    }
    let mut long = Vec::new();
    let mut pieces = vec![Vec::new()];
    for (at, record) in records.iter().enumerate() {
        let bytes = record.encode((at + 1) as u16);
        let Case { nodes, literals, text, tokens, .. } = &record.case;
        if nodes.len().max(literals.len()).max(text.len()).max(*tokens) > 1_000 {
            long.extend(bytes);
            continue;
        }
        if pieces.last().is_some_and(|piece: &Vec<u8>| piece.len() + bytes.len() > LONGEST_FILE) {
            pieces.push(Vec::new());
        }
        pieces.last_mut().expect("one at least").extend(bytes);
    }
    assert!(long.len() <= LONGEST_FILE);
    for (at, piece) in pieces.iter().enumerate() {
        fs::write(out.join(format!("answers-{:02}.bin", at + 1)), piece).expect("a file");
    }
    fs::write(out.join("answers-long.bin"), long).expect("a file");
}

fn files(folder: &Path) -> Vec<PathBuf> {
    let mut files: Vec<PathBuf> = fs::read_dir(folder)
        .expect("the folder")
        .map(|entry| entry.expect("an entry").path())
        .filter(|path| path.extension().is_some_and(|extension| extension == "bin"))
        .collect();
    files.sort();
    files
}

fn replay(folder: &Path) -> ExitCode {
    let mut numbers = [0; NUMBERS];
    let mut kinds = [0; 21];
    let mut wrong = 0;
    for path in files(folder) {
        let file = fs::read(&path).expect("a file");
        let records = Record::decode_all(&file);
        println!("{}: {} bytes, {} answers", path.display(), file.len(), records.len());
        println!("  {}", longest(&records));
        for record in records {
            numbers[record.outcome.number as usize] += 1;
            count_kinds(&record.case, &mut kinds);
            if !agrees(&record) {
                println!("WRONG: {:?}\n{}", record.outcome, record.case);
                wrong += 1;
            }
        }
    }
    println!("answers of each number, 0 to {}: {numbers:?}", NUMBERS - 1);
    println!("answers that hold each kind, 1 to 20: {:?}", &kinds[1..]);
    println!("{} passed, {wrong} failed", numbers.iter().sum::<u32>() - wrong);
    match wrong {
        0 => ExitCode::SUCCESS,
        _ => ExitCode::FAILURE,
    }
}

/// What a program that replays the file has to have room for.
fn longest(records: &[Record]) -> String {
    let most = |length: fn(&Case) -> usize| {
        records.iter().map(|record| length(&record.case)).max().unwrap_or(0)
    };
    format!(
        "longest: {} node numbers, {} literal bytes, {} text bytes; tokens {}, report {}, scratch {}",
        most(|case| case.nodes.len()),
        most(|case| case.literals.len()),
        most(|case| case.text.len()),
        most(|case| case.tokens),
        most(|case| case.report),
        most(|case| case.scratch),
    )
}

fn count_kinds(case: &Case, kinds: &mut [u32; 21]) {
    let held: HashSet<i32> = case.nodes.chunks(4).map(|node| node[0]).collect();
    held.into_iter()
        .filter(|kind| (1..=20).contains(kind))
        .for_each(|kind| kinds[kind as usize] += 1);
}

/// The oracle answers so, areas included; and pest does, where it can be asked.
fn agrees(record: &Record) -> bool {
    let case = &record.case;
    let mut areas = Areas::default();
    areas.prepare(case);
    let outcome = oracle::run(case.input(), &mut areas.tokens, &mut areas.report, case.scratch);
    outcome == record.outcome
        && (areas.tokens, areas.report) == record.areas(FILL)
        && pest_agrees(record)
}

fn pest_agrees(record: &Record) -> bool {
    if !matches!(record.outcome.number, 0 | 10 | 11 | 12) {
        return true;
    }
    let (ending, calls) = pest(&record.case);
    let (outcome, tokens, mut report) = laid_out(&ending, calls.driven);
    report.resize(record.case.report, 0);
    outcome == record.outcome && tokens == record.tokens && report == record.areas(FILL).1
}
