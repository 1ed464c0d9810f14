//! Finds pest's published files and writes the module list that names them where they stand.

use std::env;
use std::fs;
use std::path::{Path, PathBuf};

/// Modules at the crate's root, each compiled from pest's file of that name.
const ROOT: [&str; 6] = ["error", "parser_state", "position", "span", "stack", "token"];
/// Modules of `iterators`, likewise.
const ITERATORS: [&str; 3] = ["flat_pairs", "pairs", "queueable_token"];
/// Modules of `iterators` whose files are not at hand: the stand-ins beside this file.
const STAND_INS: [&str; 3] = ["line_index", "pair", "tokens"];

fn main() {
    println!("cargo:rerun-if-env-changed=PEST_SRC");
    let here = PathBuf::from(env::var_os("CARGO_MANIFEST_DIR").unwrap());
    let pest = pest_src(&here).join("src");

    let mut list = String::new();
    for name in ROOT {
        list += &module(&pest.join(format!("{name}.rs")), name);
    }
    list += "pub mod iterators {\n";
    for name in ITERATORS {
        list += &module(&pest.join(format!("iterators/{name}.rs")), name);
    }
    for name in STAND_INS {
        list += &module(&here.join(format!("src/iterators/{name}.rs")), name);
    }
    list += "pub use self::{pair::Pair, pairs::Pairs, queueable_token::QueueableToken, tokens::Tokens};\n}\n";

    let out = PathBuf::from(env::var_os("OUT_DIR").unwrap());
    fs::write(out.join("modules.rs"), list).unwrap();
}

/// `PEST_SRC`, or the first `shared/docs/src` beside a folder that holds this one.
fn pest_src(here: &Path) -> PathBuf {
    if let Some(named) = env::var_os("PEST_SRC") {
        return PathBuf::from(named);
    }
    here.ancestors()
        .map(|folder| folder.join("shared/docs/src"))
        .find(|folder| folder.join("src/parser_state.rs").is_file())
        .expect(
            "pest's files: no shared/docs/src beside this clone; set PEST_SRC (see rust/README.md)",
        )
}

fn module(file: &Path, name: &str) -> String {
    println!("cargo:rerun-if-changed={}", file.display());
    format!("#[path = {file:?}]\npub mod {name};\n")
}
