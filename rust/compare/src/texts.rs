//! Texts for the grammars that are timed: of an exact number of bytes, the same from one seed.

use crate::rng::Rng;

/// Items until no more fit, then `filler` up to the length.
fn fill(
    bytes: usize,
    mut text: String,
    mut item: impl FnMut() -> String,
    close: &str,
    filler: char,
) -> String {
    loop {
        let next = item();
        if text.len() + next.len() + close.len() > bytes {
            break;
        }
        text += &next;
    }
    text += close;
    text.extend(std::iter::repeat_n(filler, bytes - text.len()));
    text
}

fn word(rng: &mut Rng, letters: &str, least: usize, most: usize) -> String {
    let letters: Vec<char> = letters.chars().collect();
    (0..rng.within(least, most)).map(|_| rng.pick(&letters)).collect()
}

const LOWER: &str = "abcdefghijklmnopqrstuvwxyz";

pub fn json(bytes: usize, seed: u64) -> String {
    let mut rng = Rng::new(seed);
    let mut first = true;
    let item = || {
        let comma = if first { "" } else { ",\n " };
        first = false;
        format!("{comma}{}", json_object(&mut rng, 3))
    };
    fill(bytes, "[".into(), item, "]", '\n')
}

fn json_object(rng: &mut Rng, depth: usize) -> String {
    let pairs: Vec<String> = (0..rng.within(1, 5))
        .map(|_| format!("\"{}\": {}", word(rng, LOWER, 2, 9), json_value(rng, depth)))
        .collect();
    format!("{{{}}}", pairs.join(", "))
}

fn json_value(rng: &mut Rng, depth: usize) -> String {
    match rng.below(if depth == 0 { 6 } else { 8 }) {
        0 => rng.pick(&["true", "false", "null"]).into(),
        1 => format!("{}", rng.below(100_000)),
        2 => format!("-{}.{:03}e{}", rng.below(1_000), rng.below(1_000), rng.below(30)),
        3 => format!("\"{}\\n\\u00e9é漢\"", word(rng, LOWER, 0, 12)),
        4 | 5 => format!("\"{} {}\"", word(rng, LOWER, 1, 9), word(rng, LOWER, 1, 9)),
        6 => json_object(rng, depth - 1),
        _ => {
            let values: Vec<String> =
                (0..rng.within(0, 4)).map(|_| json_value(rng, depth - 1)).collect();
            format!("[{}]", values.join(", "))
        }
    }
}

pub fn channels(bytes: usize, seed: u64) -> String {
    let mut rng = Rng::new(seed);
    fill(bytes, String::new(), || channel(&mut rng), "", '\n')
}

fn channel(rng: &mut Rng) -> String {
    if rng.once_in(10) {
        return format!("# {} {}\n", word(rng, LOWER, 3, 9), word(rng, LOWER, 3, 9));
    }
    let name = word(rng, "ABCDEFGHIKLMNOPRSTUVWZäöüé0123456789-", 3, 10);
    let kilohertz =
        format!("{}.{}", rng.within(144_000, 174_000), rng.pick(&["0", "5", "25", "125"]));
    let sign = rng.pick(&["+", "-"]);
    let offset = rng.pick(&[0, 600_000, 1_600_000, 4_600_000]);
    let comment = match rng.once_in(3) {
        true => format!(" # {}", word(rng, LOWER, 4, 20)),
        false => String::new(),
    };
    format!("{name} {kilohertz} {sign}{offset}{comment}\n")
}

pub fn notes(bytes: usize, seed: u64) -> String {
    let mut rng = Rng::new(seed);
    fill(bytes, String::new(), || note(&mut rng), "", '\n')
}

fn note(rng: &mut Rng) -> String {
    let end = word(rng, "ABCDEFGH", 2, 6);
    let lines: String = (0..rng.within(0, 6))
        .map(|_| match rng.below(4) {
            // A line that begins as the last one does.
            0 => format!("{end} {}\n", word(rng, LOWER, 0, 8)),
            1 => format!("{} {}\n", word(rng, LOWER, 1, 9), word(rng, "éüä漢 ", 0, 9)),
            _ => format!("{} {}\n", word(rng, LOWER, 1, 20), word(rng, LOWER, 1, 20)),
        })
        .collect();
    format!("<<{end}\n{lines}{end}\n")
}

pub fn arithmetic(bytes: usize, seed: u64) -> String {
    let mut rng = Rng::new(seed);
    let item = || format!("{}{}", rng.pick(&["+", "-", "*", "/"]), operand(&mut rng, 30));
    fill(bytes, "1".into(), item, "", ' ')
}

fn operand(rng: &mut Rng, depth: usize) -> String {
    if depth == 0 || !rng.once_in(3) {
        return word(rng, "0123456789", 1, 8);
    }
    let mut inner = operand(rng, depth - 1);
    for _ in 0..rng.below(3) {
        inner += rng.pick(&["+", "-", "*", "/"]);
        inner += &operand(rng, depth - 1);
    }
    format!("({inner})")
}
