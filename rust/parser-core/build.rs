//! Links libparser_core.a, from the folder that PARSER_CORE_LIB names or from target/staticlib of
//! the repository that holds this one.

use std::env;
use std::path::{Path, PathBuf};

const NAME: &str = "libparser_core.a";

fn main() {
    println!("cargo:rerun-if-env-changed=PARSER_CORE_LIB");
    let here = PathBuf::from(env::var_os("CARGO_MANIFEST_DIR").unwrap());
    let folder = folder(&here);
    let library = folder.join(NAME);
    if !library.is_file() {
        missing(&library);
    }
    println!("cargo:rerun-if-changed={}", library.display());
    println!("cargo:rustc-link-search=native={}", folder.display());
    println!("cargo:rustc-link-lib=static=parser_core");
}

fn folder(here: &Path) -> PathBuf {
    match env::var_os("PARSER_CORE_LIB") {
        Some(named) => PathBuf::from(named),
        None => here.join("../../target/staticlib"),
    }
}

fn missing(library: &Path) -> ! {
    eprintln!("no static library at {}", library.display());
    eprintln!("write it by `bash tools/staticlib.sh` at the repository's root, or name its folder in PARSER_CORE_LIB");
    std::process::exit(1)
}
