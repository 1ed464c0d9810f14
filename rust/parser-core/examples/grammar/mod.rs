//! A grammar and a text from a folder of examples/, and its runs, with `planread`'s areas.

use std::fs;
use std::path::Path;

use parser_core::{read_sheet, run, RunOutcome, DEEPEST, REPORT, SCRATCH};

pub struct Grammar {
    nodes: Vec<i32>,
    literals: Vec<u8>,
    text: Vec<u8>,
}

/// What a run gave, and its tokens and report.
pub type Answer = (RunOutcome, Vec<u32>, Vec<u32>);

impl Grammar {
    /// The sheet's refusal, where it has one.
    pub fn read(folder: &Path) -> Result<Grammar, String> {
        let file = |name: &str| fs::read(folder.join(name)).map_err(|why| format!("{name}: {why}"));
        let mut nodes = vec![0; 4 * 4_096];
        let sheet = read_sheet(&file("sheet.txt")?, &mut nodes);
        if sheet.number != 0 {
            return Err(format!("sheet.txt is refused by {}, place {}", sheet.number, sheet.place));
        }
        nodes.truncate(4 * sheet.count as usize);
        Ok(Grammar { nodes, literals: file("literals.txt")?, text: file("plan.txt")? })
    }

    /// The line that `planread` starts at.
    pub fn last(&self) -> u32 {
        self.nodes.len() as u32 / 4
    }

    pub fn run(&self, root: u32, call_limit: u32) -> Answer {
        let (mut tokens, mut report) = (vec![0; 16_380], vec![0; REPORT]);
        let mut scratch = vec![0; SCRATCH];
        let [t, r, s] = [&mut tokens[..], &mut report, &mut scratch];
        let Grammar { nodes, literals, text } = self;
        let outcome = run(nodes, literals, text, root, DEEPEST, call_limit, t, r, s);
        (outcome, tokens, report)
    }
}
