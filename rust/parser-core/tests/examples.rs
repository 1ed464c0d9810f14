//! Each folder of examples/ from its last line, as `planread` runs it, and two-roots from its other root too.

#[path = "../examples/grammar/mod.rs"]
mod grammar;
#[path = "../examples/grammar/listing.rs"]
mod listing;

use std::fs;
use std::path::PathBuf;

use grammar::Grammar;
use listing::listing;
use parser_core::on_large_stack;

fn holds(example: &str, root: Option<u32>, expected: &str) {
    let folder = PathBuf::from(env!("CARGO_MANIFEST_DIR")).join("../../examples").join(example);
    let grammar = Grammar::read(&folder).unwrap();
    let root = root.unwrap_or_else(|| grammar.last());
    let listed = on_large_stack(|| listing(&grammar.run(root, 0)));
    assert_eq!(
        listed,
        fs::read_to_string(folder.join(expected)).unwrap(),
        "{example}, root {root}"
    );
}

#[test]
fn each_example_from_its_last_line() {
    for example in ["first", "channels", "json", "heredoc", "two-roots"] {
        holds(example, None, "expected");
    }
}

#[test]
fn two_roots_from_the_other_root() {
    holds("two-roots", Some(39), "expected-39");
}
