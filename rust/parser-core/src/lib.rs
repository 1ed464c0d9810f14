//! The proved parser core: document 01's `run` and `read_sheet`, on slices.
//!
//! Both are Rattle functions with no `requires`: whatever the slices, root and limits, number, place,
//! count and what stands in the areas are those of document 01, and the root and the counted calls
//! those of document 02. Nothing is checked on this side.
//!
//! Document 01's M1: rule 7 over `a`, then tag 3, on the text `a`, from its last line, 4. The rule is
//! its one counted call.
//!
//! ```
//! use parser_core::{run, RunOutcome, DEEPEST, REPORT, SCRATCH};
//!
//! let nodes = [1, 0, 1, 0, 8, 7, 1, 0, 19, 3, 0, 0, 6, 2, 3, 0];
//! let (mut tokens, mut report, mut scratch) = ([9; 15], [9; REPORT], [9; SCRATCH]);
//! let outcome =
//!     run(&nodes, b"abc", b"a", 4, DEEPEST, 0, &mut tokens, &mut report, &mut scratch);
//!
//! assert_eq!(outcome, RunOutcome { number: 0, place: 0, count: 2, calls: 1 });
//! assert_eq!(tokens, [1, 1, 0, 0, 0, 2, 0, 1, 7, 3, 0, 0, 0, 0, 0]);
//! assert_eq!(report, [0; REPORT]);
//! ```

use std::panic;
use std::thread;

/// The largest depth limit that a run takes.
pub const DEEPEST: u32 = 1_024;
/// The fewest numbers of a report area.
pub const REPORT: usize = 515;
/// The fewest numbers of a scratch area.
pub const SCRATCH: usize = 4_864;

/// What a sheet reading returns.
#[repr(C)]
#[derive(Clone, Copy, Debug, Eq, PartialEq)]
pub struct Outcome {
    pub number: u32,
    pub place: u32,
    pub count: u32,
}

/// What a run returns.
#[repr(C)]
#[derive(Clone, Copy, Debug, Eq, PartialEq)]
pub struct RunOutcome {
    pub number: u32,
    pub place: u32,
    pub count: u32,
    /// Counted calls that the run entered: lines of kinds 8 to 14, each time one is evaluated and no
    /// limit refuses it; a repeat (10) once, however many rounds it has; kind 18 never. They are
    /// counted with call limit 0 too, and up to the moment of a stop; 0 where the run was refused.
    /// The number stays at its largest once there.
    pub calls: u64,
}

extern "C" {
    fn parser_core_run(
        nodes: *const i32,
        nodes_len: usize,
        literals: *const u8,
        literals_len: usize,
        text: *const u8,
        text_len: usize,
        root: u32,
        depth_limit: u32,
        call_limit: u32,
        tokens: *mut u32,
        tokens_len: usize,
        report: *mut u32,
        report_len: usize,
        scratch: *mut u32,
        scratch_len: usize,
    ) -> RunOutcome;

    fn parser_core_read_sheet(
        sheet: *const u8,
        sheet_len: usize,
        nodes: *mut i32,
        nodes_len: usize,
    ) -> Outcome;
}

/// Runs the grammar of `nodes`, four numbers a line, on `text`, from line `root`.
///
/// Lines are numbered from 1, and a line of any kind may be the root: 18 where it is no line of the
/// sheet. What stands in lines that the root does not reach, by naming or calling, changes nothing
/// where the sheet is accepted.
///
/// A token takes five numbers of `tokens`. It needs room for the most tokens that are held at once,
/// which can be more than the count that is returned: 14 else.
///
/// A run that gave 0 or 10 gives the same with a larger depth limit, with call limit 0 and with every
/// call limit from its `calls` on; with a smaller one above 0 it gives neither.
///
/// The run recurses natively: see [`on_large_stack`].
#[allow(clippy::too_many_arguments)]
pub fn run(
    nodes: &[i32],
    literals: &[u8],
    text: &[u8],
    root: u32,
    depth_limit: u32,
    call_limit: u32,
    tokens: &mut [u32],
    report: &mut [u32],
    scratch: &mut [u32],
) -> RunOutcome {
    // SAFETY: each pointer comes with the length of its own slice, and slices that are written
    // overlap no other.
    unsafe {
        parser_core_run(
            nodes.as_ptr(),
            nodes.len(),
            literals.as_ptr(),
            literals.len(),
            text.as_ptr(),
            text.len(),
            root,
            depth_limit,
            call_limit,
            tokens.as_mut_ptr(),
            tokens.len(),
            report.as_mut_ptr(),
            report.len(),
            scratch.as_mut_ptr(),
            scratch.len(),
        )
    }
}

/// Reads a sheet, lines of 41 bytes, into `nodes`.
///
/// ```
/// use parser_core::{read_sheet, Outcome};
///
/// let mut nodes = [9; 5];
/// let outcome = read_sheet(b"   8           7          -1           0\n", &mut nodes);
/// assert_eq!(outcome, Outcome { number: 0, place: 0, count: 1 });
/// assert_eq!(nodes, [8, 7, -1, 0, 9]);
/// ```
pub fn read_sheet(sheet: &[u8], nodes: &mut [i32]) -> Outcome {
    // SAFETY: as in `run`.
    unsafe { parser_core_read_sheet(sheet.as_ptr(), sheet.len(), nodes.as_mut_ptr(), nodes.len()) }
}

/// Address space for the deepest run, 2 GiB; pages are taken when they are touched.
///
/// Measured: a level of depth takes less than 500 bytes, and as many again for each line of kind 6
/// or 7 on the right of one that is itself on the left of another, since those open no call that the
/// depth limit would bound. 2,044 such pairs of lines in each of 1,024 levels need less than 1 GB.
pub const STACK: usize = 1 << 31;

/// Does `work` on a thread of its own with a stack of [`STACK`] bytes, and passes its panic on.
pub fn on_large_stack<T: Send>(work: impl FnOnce() -> T + Send) -> T {
    thread::scope(|scope| {
        let thread = thread::Builder::new().stack_size(STACK).spawn_scoped(scope, work);
        match thread.expect("a thread").join() {
            Ok(result) => result,
            Err(cause) => panic::resume_unwind(cause),
        }
    })
}
