//! The listing of a run from another line than the last, which is `planread`'s:
//!
//! ```text
//! cargo run --release -p parser-core --example root -- ../examples/two-roots 39
//! ```
//!
//! Without a number it starts at the last line, as `planread` does.

mod grammar;
#[path = "grammar/listing.rs"]
mod listing;

use std::path::Path;
use std::{env, process};

use grammar::Grammar;
use listing::listing;
use parser_core::on_large_stack;

fn list(folder: &str, root: Option<String>) -> Result<String, String> {
    let grammar = Grammar::read(Path::new(folder))?;
    let root = match root {
        None => grammar.last(),
        Some(root) => root.parse().map_err(|_| format!("{root} is no line number"))?,
    };
    Ok(on_large_stack(|| listing(&grammar.run(root, 0))))
}

fn main() {
    let mut words = env::args().skip(1);
    let folder = words.next().unwrap_or_else(|| "../examples/two-roots".to_string());
    match list(&folder, words.next()) {
        Ok(text) => print!("{text}"),
        Err(why) => {
            eprintln!("root: {folder}: {why}");
            process::exit(1);
        }
    }
}
