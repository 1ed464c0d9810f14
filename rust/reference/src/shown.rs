//! pest's state is private; `ParserState` derives `Debug`, which shows all of it. This reads what
//! is shown, part by part.

/// A value in the form that `#[derive(Debug)]` gives it.
#[derive(Clone, Copy, Debug, Eq, PartialEq)]
pub struct Shown<'s>(&'s str);

impl<'s> Shown<'s> {
    pub fn new(shown: &'s str) -> Shown<'s> {
        Shown(shown)
    }

    /// The field of that name. Panics if there is none: then pest is not the pest we know.
    pub fn field(self, name: &str) -> Shown<'s> {
        self.inside(" { ", " }")
            .find_map(|part| part.strip_prefix(name)?.strip_prefix(": "))
            .map(Shown)
            .unwrap_or_else(|| panic!("no field {name} in {self:?}"))
    }

    /// The items of a list, or of a tuple, named or not.
    pub fn items(self) -> impl Iterator<Item = Shown<'s>> {
        let (open, close) = if self.0.starts_with('[') { ("[", "]") } else { ("(", ")") };
        self.inside(open, close).map(Shown)
    }

    pub fn first(self) -> Shown<'s> {
        self.items().next().unwrap_or_else(|| panic!("no item in {self:?}"))
    }

    pub fn count(self) -> usize {
        self.items().count()
    }

    /// As it stands.
    pub fn word(self) -> &'s str {
        self.0
    }

    pub fn number(self) -> u32 {
        self.0.parse().unwrap_or_else(|_| panic!("no number: {self:?}"))
    }

    pub fn numbers(self) -> Vec<u32> {
        self.items().map(Shown::number).collect()
    }

    /// What stands between the first `open` and the last `close`, cut at its commas.
    fn inside(self, open: &str, close: &str) -> Parts<'s> {
        let rest = self
            .0
            .split_once(open)
            .and_then(|(_, rest)| rest.strip_suffix(close))
            .unwrap_or_else(|| panic!("no {open}..{close}: {self:?}"));
        Parts { rest }
    }
}

/// Cuts at each comma that no bracket and no text holds.
struct Parts<'s> {
    rest: &'s str,
}

impl<'s> Iterator for Parts<'s> {
    type Item = &'s str;

    fn next(&mut self) -> Option<&'s str> {
        if self.rest.is_empty() {
            return None;
        }
        let end = first_comma(self.rest.as_bytes()).unwrap_or(self.rest.len());
        let (part, rest) = self.rest.split_at(end);
        self.rest = rest.strip_prefix(", ").unwrap_or(rest);
        Some(part)
    }
}

fn first_comma(shown: &[u8]) -> Option<usize> {
    let mut depth = 0;
    let mut in_text = false;
    let mut at = 0;
    while at < shown.len() {
        match shown[at] {
            b'\\' if in_text => at += 1,
            b'"' => in_text = !in_text,
            _ if in_text => {}
            b'[' | b'(' | b'{' => depth += 1,
            b']' | b')' | b'}' => depth -= 1,
            b',' if depth == 0 => return Some(at),
            _ => {}
        }
        at += 1;
    }
    None
}

#[cfg(test)]
mod tests {
    use super::Shown;

    #[test]
    fn reads_what_debug_shows() {
        #[derive(Debug)]
        #[allow(dead_code)]
        struct S<'a> {
            list: Vec<(u32, Option<&'a str>)>,
            range: std::ops::Range<u32>,
            empty: Vec<u32>,
        }
        let text = "\"}], [\\";
        let s = S { list: vec![(1, Some(text)), (2, None)], range: 3..4, empty: vec![] };
        let shown = format!("{s:?}");
        let shown = Shown::new(&shown);
        assert_eq!(shown.field("list").count(), 2);
        let second: Vec<_> = shown.field("list").items().nth(1).unwrap().items().collect();
        assert_eq!(second[0].number(), 2);
        assert_eq!(second[1].word(), "None");
        assert_eq!(shown.field("range").word(), "3..4");
        assert_eq!(shown.field("empty").numbers(), []);
        let tag = shown.field("list").first().items().nth(1).unwrap().first();
        assert_eq!(tag.word(), format!("{text:?}"));
    }
}
