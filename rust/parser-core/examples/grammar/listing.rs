//! What `planread` prints of a run.

use super::grammar::Answer;

fn fields(numbers: &[u32]) -> String {
    numbers.iter().map(|n| format!("{n:6}")).collect::<String>() + "\n"
}

fn token(tokens: &[u32], index: u32) -> String {
    fields(&[&[index], &tokens[5 * index as usize..][..5]].concat())
}

/// 1 for a positive rule, 2 for a negative one.
fn rule(report: &[u32], index: u32) -> String {
    fields(&[if index < report[1] { 1 } else { 2 }, report[3 + index as usize]])
}

pub fn listing((outcome, tokens, report): &Answer) -> String {
    let head = fields(&[outcome.number, outcome.place, outcome.count]);
    let rows: String = match outcome.number {
        0 => (0..outcome.count).map(|i| token(tokens, i)).collect(),
        10 => (0..outcome.count).map(|i| rule(report, i)).collect(),
        _ => String::new(),
    };
    head + &rows
}
