//! pest 2.9.5's published files, unchanged (`build.rs` names them where they stand).
//!
//! `lib.rs` itself cannot be the crate's root, as it names modules that are not at hand; the few
//! items below are its own. Left out with it: `Parser`, the macros, `unicode`, `pratt_parser`,
//! `prec_climber`. Written anew, as small as pest's files let them be: `iterators::line_index`,
//! `iterators::pair`, `iterators::tokens`.
#![no_std]
#![allow(dead_code, clippy::all)] // Unchanged files are not to be tidied.

extern crate alloc;
#[cfg(feature = "std")]
extern crate std;

use core::fmt::Debug;
use core::hash::Hash;

include!(concat!(env!("OUT_DIR"), "/modules.rs"));

pub use crate::parser_state::{
    set_call_limit, set_error_detail, state, Atomicity, Lookahead, MatchDir, ParseResult,
    ParserState,
};
pub use crate::position::Position;
pub use crate::span::{merge_spans, Lines, LinesSpan, Span};
pub use crate::stack::Stack;
pub use crate::token::Token;

pub trait RuleType: Copy + Debug + Eq + Hash + Ord {}

impl<T: Copy + Debug + Eq + Hash + Ord> RuleType for T {}
