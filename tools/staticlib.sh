#!/usr/bin/env bash
# Makes target/staticlib/libparser_core.a, which C and Rust link: crate parser_core_c, proved and built.
set -euo pipefail
cd "$(dirname "$0")/.."
(cd crates/parser_core_c && rt lib)
mkdir -p target/staticlib
cp crates/parser_core_c/out/libparser_core_c.a target/staticlib/libparser_core.a
