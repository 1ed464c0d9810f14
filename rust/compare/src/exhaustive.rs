//! All sheets of so many lines over a reduced field set, on all texts of so many letters.

use crate::case::Case;

/// "a" 0..1, "ab" 0..2, "A" 2..3, "é" 3..5.
pub const LITERALS: &str = "abAé";
const LETTERS: [&str; 3] = ["a", "b", "é"];

/// Depth limit, call limit, tokens area.
pub type Setting = (u32, u32, usize);

pub const SETTINGS: [Setting; 8] = [
    (1_024, 0, 100),
    (1, 0, 100),
    (2, 0, 100),
    (1_024, 1, 100),
    (1_024, 2, 100),
    (1, 1, 100),
    (1_024, 0, 9),
    (1_024, 0, 14),
];

/// The reduced field set for a line of that number in a sheet of `lines` lines.
pub fn fields(line: i32, lines: i32) -> Vec<[i32; 4]> {
    let mut all = vec![
        [1, 0, 1, 0],
        [1, 0, 2, 0],
        [1, 3, 2, 0],
        [1, 0, 0, 0],
        [2, 2, 1, 0],
        [3, 97, 98, 0],
        [3, 98, 233, 0],
        [4, 0, 0, 0],
        [4, 1, 0, 0],
        [4, 2, 0, 0],
        [5, 0, 0, 0],
        [15, 0, 0, 0],
        [16, 0, 0, 2],
        [16, 0, 0, 3],
        [16, -1, 0, 2],
        [16, 1, 0, 2],
        [16, 0, 1, 0],
        [16, 0, -1, 1],
        [17, 0, 0, 0],
        [19, 3, 0, 0],
    ];
    all.extend((1..=lines).map(|called| [20, called, 0, 0]));
    for a in 1..line {
        for b in 1..line {
            all.push([6, a, b, 0]);
            all.push([7, a, b, 0]);
        }
        all.extend([[8, 7, a, 0], [8, 9, a, 0]]);
        all.extend([[9, a, 0, 0], [10, a, 0, 0], [11, a, 0, 0]]);
        all.extend([[12, a, 0, 0], [12, a, 1, 0]]);
        all.extend([[13, a, 0, 0], [13, a, 1, 0], [13, a, 2, 0]]);
        all.extend([[14, a, 0, 0], [18, a, 0, 0]]);
    }
    all
}

/// Hands every sheet of `lines` lines to `visit`, until it is content with none.
pub fn sheets<E>(lines: i32, visit: &mut dyn FnMut(&[i32]) -> Result<(), E>) -> Result<(), E> {
    let choices: Vec<_> = (1..=lines).map(|line| fields(line, lines)).collect();
    let mut nodes = Vec::new();
    extend(&choices, &mut nodes, visit)
}

fn extend<E>(
    choices: &[Vec<[i32; 4]>],
    nodes: &mut Vec<i32>,
    visit: &mut dyn FnMut(&[i32]) -> Result<(), E>,
) -> Result<(), E> {
    let Some((first, rest)) = choices.split_first() else { return visit(nodes) };
    let before = nodes.len();
    for node in first {
        nodes.extend(node);
        extend(rest, nodes, visit)?;
        nodes.truncate(before);
    }
    Ok(())
}

/// All texts of up to `length` of the first `letters` letters.
pub fn texts(letters: usize, length: usize) -> Vec<String> {
    let mut all = vec![String::new()];
    let mut last = 0;
    for _ in 0..length {
        let next = all.len();
        for at in last..next {
            for letter in &LETTERS[..letters] {
                all.push(format!("{}{letter}", all[at]));
            }
        }
        last = next;
    }
    all
}

/// From the last line.
pub fn case(nodes: &[i32], text: &str, setting: Setting) -> Case {
    let (depth_limit, call_limit, tokens) = setting;
    let case = Case::new(&[], LITERALS, text);
    Case { nodes: nodes.to_vec(), depth_limit, call_limit, tokens, ..case }.from_last_line()
}
