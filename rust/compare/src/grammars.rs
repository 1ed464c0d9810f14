//! The grammars that are timed.

use crate::builder::{Builder, Grammar, Line};
use crate::texts;

/// A grammar and the texts it is for: of that many bytes, from that seed.
pub struct Example {
    pub name: &'static str,
    pub grammar: Grammar,
    pub text: fn(usize, u64) -> String,
}

pub fn examples() -> Vec<Example> {
    vec![
        Example { name: "json", grammar: json(), text: texts::json },
        Example { name: "channels", grammar: channels(), text: texts::channels },
        Example { name: "notes", grammar: notes(), text: texts::notes },
        Example { name: "arithmetic", grammar: arithmetic(), text: texts::arithmetic },
    ]
}

fn digits(g: &mut Builder) -> Line {
    let digit = g.range('0', '9');
    g.repeat_once(digit)
}

/// RFC 8259, with whitespace as it stands there.
pub fn json() -> Grammar {
    let mut g = Builder::new();
    let space = {
        let blanks = [" ", "\n", "\t", "\r"].map(|blank| g.string(blank));
        let blank = g.or_else(&blanks);
        g.repeat(blank)
    };
    json_string(&mut g);
    json_number(&mut g);
    let value = {
        let boolean = {
            let words = ["true", "false"].map(|word| g.string(word));
            let word = g.or_else(&words);
            g.rule("boolean", word)
        };
        let null = {
            let word = g.string("null");
            g.rule("null", word)
        };
        let (object, array) = (g.call("object"), g.call("array"));
        let (string, number) = (g.call("string"), g.call("number"));
        g.or_else(&[object, array, string, number, boolean, null])
    };
    let array = json_list(&mut g, "[", value, "]", space);
    g.rule("array", array);
    let pair = {
        let (key, colon) = (g.call("string"), g.string(":"));
        let pair = g.sequence(&[key, space, colon, space, value]);
        g.rule("pair", pair)
    };
    let object = json_list(&mut g, "{", pair, "}", space);
    g.rule("object", object);
    let end = g.end_of_input();
    let whole = g.sequence(&[space, value, space, end]);
    g.rule("json", whole);
    g.finish()
}

fn json_list(g: &mut Builder, open: &str, item: Line, close: &str, space: Line) -> Line {
    let (open, comma, close) = (g.string(open), g.string(","), g.string(close));
    let more = g.sequence(&[comma, space, item, space]);
    let more = g.repeat(more);
    let items = g.sequence(&[item, space, more]);
    let items = g.optional(items);
    g.sequence(&[open, space, items, close])
}

fn json_string(g: &mut Builder) {
    let (quote, backslash) = (g.string("\""), g.string("\\"));
    let special = g.or_else(&[quote, backslash]);
    let plain = g.any_but(special);
    let escape = {
        let letters = ["\"", "\\", "/", "b", "f", "n", "r", "t"].map(|letter| g.string(letter));
        let letter = g.or_else(&letters);
        g.sequence(&[backslash, letter])
    };
    let unicode = {
        let (u, digit) = (g.string("\\u"), [('0', '9'), ('a', 'f'), ('A', 'F')]);
        let digits = digit.map(|(from, to)| g.range(from, to));
        let digit = g.or_else(&digits);
        g.sequence(&[u, digit, digit, digit, digit])
    };
    let character = g.or_else(&[plain, escape, unicode]);
    let characters = g.repeat(character);
    let string = g.sequence(&[quote, characters, quote]);
    g.atomic_rule("string", string);
}

fn json_number(g: &mut Builder) {
    let minus = g.string("-");
    let minus_maybe = g.optional(minus);
    let some = digits(g);
    let integer = {
        let (zero, digit, other) = (g.string("0"), g.range('0', '9'), g.range('1', '9'));
        let more = g.repeat(digit);
        let positive = g.sequence(&[other, more]);
        g.or_else(&[zero, positive])
    };
    let fraction = {
        let point = g.string(".");
        let fraction = g.sequence(&[point, some]);
        g.optional(fraction)
    };
    let exponent = {
        let (e, plus) = (g.insensitive("e"), g.string("+"));
        let sign = g.or_else(&[plus, minus]);
        let sign = g.optional(sign);
        let exponent = g.sequence(&[e, sign, some]);
        g.optional(exponent)
    };
    let number = g.sequence(&[minus_maybe, integer, fraction, exponent]);
    g.atomic_rule("number", number);
}

/// One channel a line: name, kilohertz with a decimal point, offset in hertz with its sign, and
/// a comment at will.
pub fn channels() -> Grammar {
    let mut g = Builder::new();
    let space = g.string(" ");
    let spaces = g.repeat_once(space);
    let newline = g.string("\n");
    let some = digits(&mut g);
    let name = {
        let letters = [('A', 'Z'), ('a', 'z'), ('0', '9'), ('-', '-'), ('À', 'ÿ')]
            .map(|(from, to)| g.range(from, to));
        let letter = g.or_else(&letters);
        let name = g.repeat_once(letter);
        g.atomic_rule("name", name)
    };
    let kilohertz = {
        let point = g.string(".");
        let kilohertz = g.sequence(&[some, point, some]);
        g.atomic_rule("kilohertz", kilohertz)
    };
    let offset = {
        let (plus, minus) = (g.string("+"), g.string("-"));
        let sign = g.or_else(&[plus, minus]);
        let offset = g.sequence(&[sign, some]);
        g.atomic_rule("offset", offset)
    };
    let comment = {
        let hash = g.string("#");
        let character = g.any_but(newline);
        let characters = g.repeat(character);
        let comment = g.sequence(&[hash, characters]);
        g.atomic_rule("comment", comment)
    };
    let channel = {
        let remark = g.sequence(&[spaces, comment]);
        let remark = g.optional(remark);
        let channel = g.sequence(&[name, spaces, kilohertz, spaces, offset, remark]);
        g.rule("channel", channel)
    };
    let content = g.or_else(&[channel, comment]);
    let content = g.optional(content);
    let line = g.sequence(&[content, newline]);
    let lines = g.repeat(line);
    let end = g.end_of_input();
    let whole = g.sequence(&[lines, end]);
    g.rule("channels", whole);
    g.finish()
}

/// `<<WORD`, lines, `WORD`: the word is pushed, peeked at each line and popped.
pub fn notes() -> Grammar {
    let mut g = Builder::new();
    let newline = g.string("\n");
    let open = g.string("<<");
    let word = {
        let letter = g.range('A', 'Z');
        let word = g.repeat_once(letter);
        g.atomic_rule("word", word)
    };
    let line = {
        let character = g.any_but(newline);
        let characters = g.repeat(character);
        let line = g.sequence(&[characters, newline]);
        g.atomic_rule("line", line)
    };
    let body = {
        let top = g.stack_match_top();
        let last = g.sequence(&[top, newline]);
        let not_last = g.lookahead(false, last);
        let line = g.sequence(&[not_last, line]);
        g.repeat(line)
    };
    let note = {
        let push = g.stack_push(word);
        let pop = g.stack_pop();
        let note = g.sequence(&[open, push, newline, body, pop, newline]);
        g.rule("note", note)
    };
    let item = g.or_else(&[note, newline]);
    let items = g.repeat(item);
    let end = g.end_of_input();
    let whole = g.sequence(&[items, end]);
    g.rule("notes", whole);
    g.finish()
}

/// Sums of products of numbers and bracketed sums.
pub fn arithmetic() -> Grammar {
    let mut g = Builder::new();
    let number = {
        let some = digits(&mut g);
        g.atomic_rule("number", some)
    };
    let bracketed = {
        let (open, sum, close) = (g.string("("), g.call("sum"), g.string(")"));
        g.sequence(&[open, sum, close])
    };
    let factor = g.or_else(&[number, bracketed]);
    let product = {
        let list = separated(&mut g, factor, ["*", "/"]);
        g.rule("product", list)
    };
    let list = separated(&mut g, product, ["+", "-"]);
    g.rule("sum", list);
    let (sum, end, space) = (g.call("sum"), g.end_of_input(), g.string(" "));
    let spaces = g.repeat(space);
    let whole = g.sequence(&[sum, spaces, end]);
    g.rule("arithmetic", whole);
    g.finish()
}

fn separated(g: &mut Builder, item: Line, signs: [&str; 2]) -> Line {
    let signs = signs.map(|sign| g.string(sign));
    let sign = g.or_else(&signs);
    let more = g.sequence(&[sign, item]);
    let more = g.repeat(more);
    g.sequence(&[item, more])
}

#[cfg(test)]
mod tests {
    use super::*;
    use crate::case::Case;

    /// Accepted sheets, and texts of the wanted length that match with 65,535 tokens at most.
    #[test]
    fn every_text_parses() {
        for example in examples() {
            for bytes in [1_000, 8_000, 60_000] {
                let text = (example.text)(bytes, 1);
                assert_eq!(text.len(), bytes, "{}", example.name);
                let case = Case::new(&example.grammar.nodes, &example.grammar.literals, &text);
                let mut tokens = vec![0; 5 * 65_535];
                let mut report = vec![0; oracle::REPORT];
                let outcome = oracle::run(case.input(), &mut tokens, &mut report, oracle::SCRATCH);
                assert_eq!(outcome.number, 0, "{} {bytes}: {outcome:?}", example.name);
                if bytes == 8_000 && example.name == "channels" {
                    assert!(outcome.count <= 3_276, "planread's token capacity");
                }
            }
        }
    }
}
