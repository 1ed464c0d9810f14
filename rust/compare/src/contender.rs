//! Programs that promise document 01's whole `run`, areas included, and are held against the
//! oracle on every case.

use oracle::Outcome;

use crate::case::{Areas, Case};

pub trait Contender {
    fn name(&self) -> &'static str;
    /// The areas come prepared; scratch is the contender's own, of the case's length.
    fn run(&mut self, case: &Case, areas: &mut Areas) -> Outcome;
    /// Whether the last run left its scratch as it was, as a refused one must.
    fn left_scratch(&self) -> bool;
}

/// Those linked into this build.
pub fn contenders() -> Vec<Box<dyn Contender>> {
    vec![
        #[cfg(feature = "library")]
        Box::new(library::Library::default()),
    ]
}

#[cfg(feature = "library")]
mod library {
    use super::*;
    use crate::case::FILL;

    /// The Rattle library. Scratch keeps what the last run left: nothing may depend on it.
    #[derive(Default)]
    pub struct Library {
        scratch: Vec<u32>,
        before: Vec<u32>,
    }

    impl Contender for Library {
        fn name(&self) -> &'static str {
            "library"
        }

        fn run(&mut self, case: &Case, areas: &mut Areas) -> Outcome {
            self.scratch.resize(case.scratch, FILL);
            self.before.clone_from(&self.scratch);
            let parser_core::RunOutcome { number, place, count, calls } = parser_core::run(
                &case.nodes,
                &case.literals,
                &case.text,
                case.root,
                case.depth_limit,
                case.call_limit,
                &mut areas.tokens,
                &mut areas.report,
                &mut self.scratch,
            );
            Outcome { number, place, count, calls }
        }

        fn left_scratch(&self) -> bool {
            self.scratch == self.before
        }
    }
}
