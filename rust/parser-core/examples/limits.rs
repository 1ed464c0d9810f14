//! How large a call limit a text needs, tried on a folder of examples/:
//!
//! ```text
//! cargo run --release -p parser-core --example limits -- ../examples/channels
//! ```
//!
//! Runs from the last line, as `planread` does: without a call limit, with one at the counted calls, and
//! with one that is one short.

mod grammar;

use std::path::Path;
use std::{env, process};

use grammar::Grammar;
use parser_core::{on_large_stack, RunOutcome};

fn tell(call_limit: u32, o: RunOutcome) {
    let (number, place, count, calls) = (o.number, o.place, o.count, o.calls);
    println!("call limit {call_limit}: {number}, place {place}, count {count}, calls {calls}");
}

fn limits(grammar: &Grammar) -> Result<(), String> {
    let first = grammar.run(grammar.last(), 0);
    tell(0, first.0);
    if !matches!(first.0.number, 0 | 10) {
        return Err("nothing is promised of other limits after a refusal or a stop".to_string());
    }
    let calls = u32::try_from(first.0.calls).map_err(|_| "no limit is as large as that")?;
    // A limit of 0 is none.
    for call_limit in [calls, calls.saturating_sub(1)].into_iter().filter(|limit| *limit > 0) {
        let again = grammar.run(grammar.last(), call_limit);
        tell(call_limit, again.0);
        assert_eq!(again == first, call_limit >= calls, "this is proved");
    }
    Ok(())
}

fn main() {
    let folder = env::args().nth(1).unwrap_or_else(|| "../examples/channels".to_string());
    let result = Grammar::read(Path::new(&folder)).and_then(|g| on_large_stack(|| limits(&g)));
    if let Err(why) = result {
        eprintln!("limits: {folder}: {why}");
        process::exit(1);
    }
}
