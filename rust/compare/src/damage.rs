//! Damaged copies of good cases: most are refused, for every reason from 4 to 9.

use crate::case::Case;
use crate::rng::Rng;

const FIELDS: [i32; 16] =
    [0, 1, 2, 3, 8, 20, 21, -1, -2, 0xD800, 0xDFFF, 0x110000, 65_535, 65_536, i32::MIN, i32::MAX];
const BYTES: [u8; 8] = [0x80, 0xBF, 0xC0, 0xC3, 0xE0, 0xED, 0xF4, 0xFF];

pub fn damage(rng: &mut Rng, mut case: Case) -> Case {
    let times = if rng.once_in(4) { 2 } else { 1 };
    for _ in 0..times {
        match rng.below(16) {
            0..=5 => field(rng, &mut case.nodes),
            6 => {
                let cut = rng.below(case.nodes.len() + 1);
                case.nodes.truncate(cut);
            }
            7 => spoil(rng, &mut case.literals),
            8 => {
                let cut = rng.below(case.literals.len() + 1);
                case.literals.truncate(cut);
            }
            9 => spoil(rng, &mut case.text),
            10 => case.depth_limit = rng.pick(&[0, 1_025, 1 << 16, u32::MAX]),
            11 => case.report = rng.pick(&[0, 1, 514]),
            12 => case.scratch = rng.pick(&[0, 1, 4_863]),
            13 => case.tokens = rng.below(12),
            14 => swap_lines(rng, &mut case.nodes),
            _ => still_repeat(rng, &mut case.nodes),
        }
    }
    case
}

fn field(rng: &mut Rng, nodes: &mut [i32]) {
    if !nodes.is_empty() {
        let at = rng.below(nodes.len());
        nodes[at] = match rng.below(3) {
            0 => (at / 4 + 1) as i32,
            1 => nodes[at].wrapping_add(1),
            _ => rng.pick(&FIELDS),
        };
    }
}

fn spoil(rng: &mut Rng, bytes: &mut Vec<u8>) {
    let at = rng.below(bytes.len() + 1);
    if rng.once_in(2) || at == bytes.len() {
        bytes.insert(at, rng.pick(&BYTES));
    } else {
        bytes.remove(at);
    }
}

fn swap_lines(rng: &mut Rng, nodes: &mut [i32]) {
    let lines = nodes.len() / 4;
    if lines > 1 {
        let (x, y) = (rng.below(lines), rng.below(lines));
        (0..4).for_each(|at| nodes.swap(4 * x + at, 4 * y + at));
    }
}

/// A repeat of any line: of one that may stand still, often enough.
fn still_repeat(rng: &mut Rng, nodes: &mut Vec<i32>) {
    let lines = nodes.len() / 4;
    if lines > 0 && nodes.len().is_multiple_of(4) {
        nodes.extend([10, rng.within(1, lines) as i32, 0, 0]);
    }
}
