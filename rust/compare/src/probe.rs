//! Cases built to show what a failure leaves behind: something with an effect, inside one or two
//! combinators, then something that sees position, stack, pairs, tags or attempts.

use crate::case::Case;
use crate::rng::Rng;
use crate::tight::tighten_tokens;

const LITERALS: &str = "abz";

/// Lines so far; the last one is the newest.
struct Sheet<'r> {
    rng: &'r mut Rng,
    nodes: Vec<[i32; 4]>,
}

pub fn case(rng: &mut Rng) -> Case {
    match rng.below(8) {
        0 | 1 => attempts(rng),
        2 => pairs(rng),
        3 => checkpoints(rng),
        4 => limited(rng),
        _ => trace(rng),
    }
}

/// Pushes and pops of nothing, inside checkpoints that are dropped or restored.
fn checkpoints(rng: &mut Rng) -> Case {
    let mut sheet = Sheet { rng, nodes: Vec::new() };
    let nothing = sheet.line([4, 0, 0, 0]);
    let push = sheet.line([14, nothing, 0, 0]);
    let two = sheet.line([6, push, push, 0]);
    let four = sheet.line([6, two, two, 0]);
    let rest = sheet.checkpoints(push, 3);
    sheet.line([6, four, rest, 0]);
    let nodes = sheet.nodes;
    Case::new(&nodes, LITERALS, "")
}

/// What goes on after a limit: terminals match, pops pop, and nothing is entered any more.
fn limited(rng: &mut Rng) -> Case {
    let mut sheet = Sheet { rng, nodes: Vec::new() };
    let before = sheet.before();
    let letter = sheet.letter();
    let entered = sheet.wrapped(letter);
    let entered = sheet.wrapped(entered);
    let pop = [15, 17, 4][sheet.rng.below(3)];
    let pop = sheet.line([pop, 0, 0, 0]);
    let a = sheet.line([1, 0, 1, 0]);
    let instead = sheet.line([6, a, pop, 0]);
    let either = sheet.line([7, entered, instead, 0]);
    let kind = sheet.rng.pick(&[10, 10, 11, 9]);
    let again = sheet.line([kind, either, 0, 0]);
    let then = match sheet.rng.below(3) {
        0 => sheet.line([15, 0, 0, 0]),
        1 => sheet.line([17, 0, 0, 0]),
        _ => sheet.observer(),
    };
    let chain = 6 + sheet.rng.below(2) as i32;
    let rest = sheet.line([chain, again, then, 0]);
    sheet.line([6, before, rest, 0]);
    let nodes = sheet.nodes;
    let text = "ab".chars().chain((0..rng.below(6)).map(|_| 'a')).collect::<String>();
    let mut case = Case::new(&nodes, LITERALS, &text);
    if rng.once_in(2) {
        case.depth_limit = rng.within(1, 3) as u32;
    } else {
        case.call_limit = rng.within(1, 9) as u32;
    }
    case
}

/// Pairs that are made and cut again, in a tokens area that they just fit in, or just do not.
fn pairs(rng: &mut Rng) -> Case {
    let mut sheet = Sheet { rng, nodes: Vec::new() };
    let root = sheet.pairs(3);
    if sheet.rng.once_in(3) {
        sheet.line([8, 6, root, 0]);
    }
    let nodes = sheet.nodes;
    let text = text(rng);
    let mut case = Case::new(&nodes, LITERALS, &text);
    tighten_tokens(rng, &mut case);
    case
}

/// Rules within and beside one another, under lookaheads of both signs, before a failure that
/// reports what was tried.
fn attempts(rng: &mut Rng) -> Case {
    let mut sheet = Sheet { rng, nodes: Vec::new() };
    let mut tried = sheet.rules(2);
    for _ in 0..sheet.rng.within(1, 3) {
        tried = match sheet.rng.below(8) {
            0..=4 => {
                let is_positive = sheet.rng.below(2) as i32;
                sheet.line([12, tried, is_positive, 0])
            }
            _ => sheet.wrapped(tried),
        };
        if sheet.rng.once_in(4) {
            let rule = sheet.rng.within(1, 3) as i32;
            tried = sheet.line([8, rule, tried, 0]);
        }
    }
    if sheet.rng.once_in(2) {
        tried = sheet.line([11, tried, 0, 0]);
    }
    if sheet.rng.once_in(2) {
        let other = sheet.rules(1);
        let kind = 6 + sheet.rng.below(2) as i32;
        tried = sheet.line([kind, tried, other, 0]);
    }
    let z = sheet.line([1, 2, 1, 0]);
    sheet.line([6, tried, z, 0]);
    let nodes = sheet.nodes;
    let text = rng.pick(&["", "a", "b", "aa", "ab", "ba", "aab", "aaa"]);
    Case::new(&nodes, LITERALS, text)
}

fn trace(rng: &mut Rng) -> Case {
    let mut sheet = Sheet { rng, nodes: Vec::new() };
    let before = sheet.before();
    let effect = sheet.effect();
    let mut wrapped = effect;
    for _ in 0..sheet.rng.within(0, 2) {
        wrapped = sheet.wrapped(wrapped);
    }
    let seen = sheet.observer();
    let after = match sheet.rng.below(4) {
        0 => sheet.line([6, wrapped, seen, 0]),
        1 => sheet.line([7, wrapped, seen, 0]),
        _ => {
            // On either ending, to the observer.
            let nothing = sheet.line([4, 0, 0, 0]);
            let either = sheet.line([7, wrapped, nothing, 0]);
            sheet.line([6, either, seen, 0])
        }
    };
    let whole = sheet.line([6, before, after, 0]);
    if sheet.rng.once_in(4) {
        sheet.line([8, 6, whole, 0]);
    }
    let nodes = sheet.nodes;
    let text = text(rng);
    let mut case = Case::new(&nodes, LITERALS, &text);
    if rng.once_in(6) {
        case.depth_limit = rng.within(1, 6) as u32;
    }
    if rng.once_in(6) {
        case.call_limit = rng.within(1, 12) as u32;
    }
    if rng.once_in(8) {
        case.tokens = rng.within(0, 40);
    }
    case
}

/// Long enough for what comes before, and most often for the rest.
fn text(rng: &mut Rng) -> String {
    let tail = rng.within(0, 6);
    "ab".chars().chain((0..tail).map(|_| rng.pick(&['a', 'a', 'b']))).collect()
}

impl Sheet<'_> {
    fn line(&mut self, node: [i32; 4]) -> i32 {
        self.nodes.push(node);
        self.nodes.len() as i32
    }

    fn letter(&mut self) -> i32 {
        let offset = i32::from(self.rng.once_in(3));
        self.line([1, offset, 1, 0])
    }

    /// A rule over a letter, over another rule, or beside one.
    fn rules(&mut self, depth: usize) -> i32 {
        let rule = self.rng.within(7, 9) as i32;
        let body = match self.rng.below(if depth == 0 { 2 } else { 5 }) {
            0 | 1 => self.letter(),
            2 => self.rules(depth - 1),
            _ => {
                let (a, b) = (self.rules(depth - 1), self.rules(depth - 1));
                let kind = 6 + self.rng.below(2) as i32;
                self.line([kind, a, b, 0])
            }
        };
        self.line([8, rule, body, 0])
    }

    /// Pairs beside, within and instead of one another.
    fn pairs(&mut self, depth: usize) -> i32 {
        let rule = self.rng.within(1, 3) as i32;
        let node = match self.rng.below(if depth == 0 { 1 } else { 6 }) {
            0 | 1 => [8, rule, self.leaf(), 0],
            2 => [8, rule, self.pairs(depth - 1), 0],
            3 => [6, self.pairs(depth - 1), self.pairs(depth - 1), 0],
            _ => {
                let cut = self.pairs(depth - 1);
                let z = self.line([1, 2, 1, 0]);
                let failing = self.line([6, cut, z, 0]);
                let kind = self.rng.pick(&[6, 8, 9, 9, 9, 13]);
                let failing = match kind {
                    6 => failing,
                    8 => self.line([8, 4, failing, 0]),
                    _ => self.line([kind, failing, 0, 0]),
                };
                [7, failing, self.pairs(depth - 1), 0]
            }
        };
        self.line(node)
    }

    fn checkpoints(&mut self, push: i32, depth: usize) -> i32 {
        let node = match self.rng.below(if depth == 0 { 4 } else { 12 }) {
            0 => return push,
            1 | 2 => [15, 0, 0, 0],
            3 => [[15, 17][self.rng.below(2)], 0, 0, 0],
            4..=6 => [6, self.checkpoints(push, depth - 1), self.checkpoints(push, depth - 1), 0],
            7..=9 => {
                let kind = self.rng.pick(&[9, 9, 18, 12]);
                [kind, self.checkpoints(push, depth - 1), i32::from(kind == 12), 0]
            }
            _ => {
                // Restored, then on from there.
                let inner = self.checkpoints(push, depth - 1);
                let z = self.line([1, 2, 1, 0]);
                let failing = self.line([6, inner, z, 0]);
                let kind = self.rng.pick(&[9, 12, 18]);
                let restored = self.line([kind, failing, 0, 0]);
                [7, restored, self.checkpoints(push, depth - 1), 0]
            }
        };
        self.line(node)
    }

    /// A letter, or nothing.
    fn leaf(&mut self) -> i32 {
        if self.rng.once_in(2) {
            self.letter()
        } else {
            self.line([4, 0, 0, 0])
        }
    }

    /// A pair and one or two entries, of "ab".
    fn before(&mut self) -> i32 {
        let a = self.line([1, 0, 1, 0]);
        let push = self.line([14, a, 0, 0]);
        let rule = self.line([8, 5, push, 0]);
        let b = self.line([1, 1, 1, 0]);
        let second = if self.rng.once_in(2) { self.line([14, b, 0, 0]) } else { b };
        self.line([6, rule, second, 0])
    }

    /// Something that leaves a trace, and then fails half of the time.
    fn effect(&mut self) -> i32 {
        let trace = match self.rng.below(9) {
            0 => self.letter(),
            1 | 2 => {
                let letter = self.letter();
                self.line([8, 7, letter, 0])
            }
            3 => {
                let letter = self.letter();
                self.line([14, letter, 0, 0])
            }
            4 => self.line([15, 0, 0, 0]),
            5 => self.line([17, 0, 0, 0]),
            6 => self.line([19, 3, 0, 0]),
            7 => {
                // Two attempts at one place.
                let z = self.line([1, 2, 1, 0]);
                let first = self.line([8, 9, z, 0]);
                let second = self.line([8, 8, z, 0]);
                self.line([7, first, second, 0])
            }
            _ => {
                let pop = self.line([15, 0, 0, 0]);
                let letter = self.letter();
                let push = self.line([14, letter, 0, 0]);
                self.line([6, pop, push, 0])
            }
        };
        match self.rng.below(4) {
            0 | 1 => {
                let z = self.line([1, 2, 1, 0]);
                self.line([6, trace, z, 0])
            }
            2 => self.line([6, trace, trace, 0]),
            _ => trace,
        }
    }

    fn wrapped(&mut self, body: i32) -> i32 {
        let node = match self.rng.below(12) {
            0..=2 => [9, body, 0, 0],
            3 => [8, 4, body, 0],
            4 => [11, body, 0, 0],
            5 => [12, body, 0, 0],
            6 => [12, body, 1, 0],
            7 => [13, body, 0, 0],
            8 => [13, body, self.rng.within(1, 2) as i32, 0],
            9 => [14, body, 0, 0],
            10 => [18, body, 0, 0],
            _ => [6, body, body, 0],
        };
        self.line(node)
    }

    fn observer(&mut self) -> i32 {
        let sight = match self.rng.below(8) {
            0 | 1 => self.line([4, 0, 0, 0]),
            2 => self.line([17, 0, 0, 0]),
            3 => self.line([16, 0, 0, 2]),
            4 => self.line([16, -1, 0, 3]),
            5 => self.line([15, 0, 0, 0]),
            6 => self.line([1, 2, 1, 0]),
            _ => {
                // The end of the text behind all entries, from the top: nothing else matches.
                let all = self.line([16, 0, 0, 3]);
                let end = self.line([5, 0, 0, 0]);
                self.line([6, all, end, 0])
            }
        };
        self.line([8, 2, sight, 0])
    }
}
