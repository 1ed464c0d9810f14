//! A case: what a run is given, with the areas as lengths.

use std::fmt;

use oracle::{Input, Outcome};

#[derive(Clone, Debug, Eq, PartialEq)]
pub struct Case {
    pub nodes: Vec<i32>,
    pub literals: Vec<u8>,
    pub text: Vec<u8>,
    pub root: u32,
    pub depth_limit: u32,
    pub call_limit: u32,
    pub tokens: usize,
    pub report: usize,
    pub scratch: usize,
}

impl Case {
    /// From the last line, with areas that are long enough, and no limit that small cases meet.
    pub fn new(nodes: &[[i32; 4]], literals: &str, text: &str) -> Case {
        Case {
            nodes: nodes.concat(),
            literals: literals.into(),
            text: text.into(),
            root: nodes.len() as u32,
            depth_limit: oracle::DEEPEST,
            call_limit: 0,
            tokens: 100,
            report: oracle::REPORT,
            scratch: oracle::SCRATCH,
        }
    }

    pub fn input(&self) -> Input<'_> {
        Input {
            nodes: &self.nodes,
            literals: &self.literals,
            text: &self.text,
            root: self.root,
            depth_limit: self.depth_limit,
            call_limit: self.call_limit,
        }
    }

    pub fn lines(&self) -> usize {
        self.nodes.len() / 4
    }

    /// The case from its last line, whichever its root was.
    pub fn from_last_line(self) -> Case {
        Case { root: self.lines() as u32, ..self }
    }
}

impl fmt::Display for Case {
    fn fmt(&self, f: &mut fmt::Formatter<'_>) -> fmt::Result {
        for (line, node) in self.nodes.chunks(4).enumerate().take(64) {
            writeln!(f, "  line {:4}: {node:?}", line + 1)?;
        }
        writeln!(f, "  node numbers: {}", self.nodes.len())?;
        writeln!(f, "  literals: {}", shown(&self.literals))?;
        writeln!(f, "  text: {}", shown(&self.text))?;
        write!(f, "  root {}, ", self.root)?;
        writeln!(f, "depth limit {}, call limit {}", self.depth_limit, self.call_limit)?;
        write!(
            f,
            "  areas: tokens {}, report {}, scratch {}",
            self.tokens, self.report, self.scratch
        )
    }
}

/// Which fields of a kind name lines.
pub fn line_fields(kind: i32) -> &'static [usize] {
    match kind {
        6 | 7 => &[1, 2],
        8 => &[2],
        9..=14 | 18 | 20 => &[1],
        _ => &[],
    }
}

fn shown(bytes: &[u8]) -> String {
    if bytes.len() > 300 {
        return format!("{} bytes, from {}", bytes.len(), shown(&bytes[..40]));
    }
    match std::str::from_utf8(bytes) {
        Ok(text) => format!("{text:?}"),
        Err(_) => format!("{bytes:02x?}, not UTF-8"),
    }
}

/// The areas that a run writes, filled so that what is left as it was can be seen.
#[derive(Clone, Debug, Default, Eq, PartialEq)]
pub struct Areas {
    pub tokens: Vec<u32>,
    pub report: Vec<u32>,
}

/// No run writes this number.
pub const FILL: u32 = 0xA5A5_A5A5;

impl Areas {
    pub fn prepare(&mut self, case: &Case) {
        refill(&mut self.tokens, case.tokens);
        refill(&mut self.report, case.report);
    }
}

fn refill(area: &mut Vec<u32>, length: usize) {
    area.clear();
    area.resize(length, FILL);
}

/// All that a run gives back.
#[derive(Clone, Debug, Eq, PartialEq)]
pub struct Answer {
    pub outcome: Outcome,
    pub areas: Areas,
}
