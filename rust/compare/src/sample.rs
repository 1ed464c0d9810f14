//! A text that a grammar is likely to match: its lines are followed at random.

use crate::rng::Rng;

/// Longest sample, in bytes; recursion ends soon after.
const LONGEST: usize = 40;
const DEEPEST: usize = 24;

/// Mostly a sample from that line as it is, at times changed or followed by something.
pub fn text(rng: &mut Rng, nodes: &[[i32; 4]], literals: &str, line: usize) -> String {
    let mut sampler = Sampler { nodes, literals, out: String::new(), stack: Vec::new() };
    sampler.line(rng, line, 0);
    let mut text = sampler.out;
    truncate(&mut text, LONGEST);
    match rng.below(8) {
        0 => change(rng, &mut text, literals),
        1 => {
            let shorter = rng.below(text.len() + 1);
            truncate(&mut text, shorter);
        }
        2 => text.push(letter(rng, literals)),
        _ => {}
    }
    text
}

fn truncate(text: &mut String, mut length: usize) {
    while length < text.len() && !text.is_char_boundary(length) {
        length -= 1;
    }
    text.truncate(length);
}

fn change(rng: &mut Rng, text: &mut String, literals: &str) {
    let count = text.chars().count();
    if count > 0 {
        let at = rng.below(count);
        let other = letter(rng, literals);
        *text = text.chars().enumerate().map(|(i, c)| if i == at { other } else { c }).collect();
    }
}

fn letter(rng: &mut Rng, literals: &str) -> char {
    let letters: Vec<char> = literals.chars().chain(['q']).collect();
    rng.pick(&letters)
}

struct Sampler<'a> {
    nodes: &'a [[i32; 4]],
    literals: &'a str,
    out: String,
    stack: Vec<String>,
}

impl Sampler<'_> {
    fn line(&mut self, rng: &mut Rng, line: usize, depth: usize) {
        if self.out.len() > LONGEST || depth > DEEPEST {
            return;
        }
        let [kind, a, b, c] = self.nodes[line - 1];
        let (line_a, line_b) = (a as usize, b as usize);
        let deeper = depth + 1;
        match kind {
            1 => self.out += &self.literals[line_a..][..line_b],
            2 => {
                let upper = rng.once_in(2);
                let literal = &self.literals[line_a..][..line_b];
                self.out += &if upper {
                    literal.to_ascii_uppercase()
                } else {
                    literal.to_ascii_lowercase()
                };
            }
            3 => self.range(rng, a as u32, b as u32),
            4 => (0..a.min(3)).for_each(|_| self.out.push(letter(rng, self.literals))),
            6 => {
                self.line(rng, line_a, deeper);
                self.line(rng, line_b, deeper);
            }
            7 => {
                let either = if rng.once_in(2) { line_a } else { line_b };
                self.line(rng, either, deeper);
            }
            8 => self.line(rng, line_b, deeper),
            10 => (0..rng.below(4)).for_each(|_| self.line(rng, line_a, deeper)),
            11 if rng.once_in(2) => {}
            9 | 11 | 13 | 18 | 20 => self.line(rng, line_a, deeper),
            14 => {
                let start = self.out.len();
                self.line(rng, line_a, deeper);
                self.stack.push(self.out[start..].to_owned());
            }
            15 => {
                let top = self.stack.pop().unwrap_or_default();
                self.out += &top;
            }
            16 => self.peek(c),
            17 => {
                while let Some(top) = self.stack.pop() {
                    self.out += &top;
                }
            }
            _ => {}
        }
    }

    fn range(&mut self, rng: &mut Rng, low: u32, high: u32) {
        let span = high.saturating_sub(low).min(3) as usize;
        let scalar = low + rng.within(0, span) as u32;
        self.out.push(char::from_u32(scalar).unwrap_or('a'));
    }

    /// The whole stack: what a slice takes of it is left to chance.
    fn peek(&mut self, c: i32) {
        let mut entries = self.stack.clone();
        if c % 2 == 1 {
            entries.reverse();
        }
        self.out += &entries.concat();
    }
}
