#!/usr/bin/env python3
"""Wrong programs that the comparison has to refuse.

Each mutant changes one place of the oracle in a copy of this folder, builds it there, and lets
`compare` (against pest) and `answers --check` (against the list that crates/replay replays) judge
it. Slow; run it by hand: nice python3 mutants.py [folder for the copy [words of the names wanted]]
With ONLY_LIST=1 in the environment only the list judges.
"""
import os
import pathlib
import re
import shutil
import subprocess
import sys

HERE = pathlib.Path(__file__).resolve().parent
COPY = pathlib.Path(sys.argv[1] if len(sys.argv) > 1 else "/tmp/mutants")
WORDS = sys.argv[2:]
READING, LIB, FOREST = "oracle/src/reading.rs", "oracle/src/lib.rs", "oracle/src/forest.rs"
TABLE, STILL = "oracle/src/table.rs", "oracle/src/still.rs"

# name, file, text that stands there once, text in its place
MUTANTS = [
    ("0 with no tokens", LIB, "Outcome::new(0, 0, list.len())", "Outcome::new(0, 0, 0)"),
    ("count of pairs, not of tokens", LIB, "Outcome::new(0, 0, list.len())", "Outcome::new(0, 0, list.len() / 2)"),
    ("12 one call early", READING, "if self.open_calls >= self.limits.depth", "if self.open_calls + 1 >= self.limits.depth"),
    ("11 one call late", READING, "self.calls == u64::from(self.limits.call)", "self.calls > u64::from(self.limits.call)"),
    ("stack limit tested first", READING, "if counted && self.limits.call != 0", "if counted && self.open_calls < self.limits.depth && self.limits.call != 0"),
    ("kind 18 counted", READING, "if !self.enter(false)", "if !self.enter(true)"),
    ("kind 18 counted without a limit", READING, "        if counted {\n", "        if counted || self.limits.call == 0 {\n"),
    ("a call refused by the call limit counted", READING, "            self.cause = Some(Cause::CallLimit);", "            self.cause = Some(Cause::CallLimit);\n            self.calls += 1;"),
    ("a call refused by the depth limit counted", READING, "            self.cause = Some(Cause::StackLimit);", "            self.cause = Some(Cause::StackLimit);\n            self.calls += u64::from(counted);"),
    ("a call refused for an earlier cause counted", READING, "        if self.cause.is_some() {\n            return false;", "        if self.cause.is_some() {\n            self.calls += u64::from(counted);\n            return false;"),
    ("a repeat counted each round", READING, "while self.inside(body)? {}", "while self.inside(body)? {\n            self.calls += 1;\n        }"),
    ("calls counted under a limit only", READING, "        if counted {\n", "        if counted && self.limits.call != 0 {\n"),
    ("calls of 16 bits that wrap", LIB, "calls: reading.last.calls,", "calls: reading.last.calls & 0xFFFF,"),
    ("calls of 16 bits that stay", LIB, "calls: reading.last.calls,", "calls: reading.last.calls.min(0xFFFF),"),
    ("a stop forgets its calls", LIB, "calls: reading.last.calls,", "calls: if reading.ending.is_err() { 0 } else { reading.last.calls },"),
    ("a limit forgets its calls", LIB, "calls: reading.last.calls,", "calls: if reading.last.cause.is_some() { 0 } else { reading.last.calls },"),
    ("a refused run has a call", LIB, "count: count as u32, calls: 0 }", "count: count as u32, calls: 1 }"),
    ("calls undone with a sequence", READING, "            self.position = position;\n            let cut", "            self.position = position;\n            self.calls -= 1;\n            let cut"),
    ("14 one token early", READING, "if self.held >= self.capacities.tokens", "if self.held + 1 >= self.capacities.tokens"),
    ("cut tokens stay held", READING, "self.held -= 2 * size(&cut);", "let _ = size(&cut);"),
    ("a rule's Err restores the position", READING, "        if ok {\n            self.take_token(line)?;", "        if !ok {\n            self.position = start;\n        }\n        if ok {\n            self.take_token(line)?;"),
    ("sequence keeps the position on Err", READING, "            self.position = position;\n            let cut", "            let cut"),
    ("sequence keeps the stack on Err", READING, "            self.held -= 2 * size(&cut);\n            self.restore();", "            self.held -= 2 * size(&cut);\n            self.drop_checkpoint();"),
    ("tags undone with a sequence", READING, "            let cut = self.siblings.split_off(number);", "            let cut = self.siblings.split_off(number);\n            if let Some(last) = self.siblings.last_mut() {\n                last.tag = 0;\n            }"),
    ("or_else after a limit gives 0", LIB, "match (last.cause, ok) {", "match (last.cause.filter(|_| !ok), ok) {"),
    ("a pair closed one token late", FOREST, "let end = start + 1 + 2 * size(&pair.children);", "let end = start + 2 + 2 * size(&pair.children);"),
    ("positive inside Negative is Positive", READING, "(Lookahead::Negative, true) => Lookahead::Negative", "(Lookahead::Negative, true) => Lookahead::Positive"),
    ("negative inside Negative is Negative", READING, "(Lookahead::Negative, false) => Lookahead::Positive", "(Lookahead::Negative, false) => Lookahead::Negative"),
    ("lookahead keeps the stack", READING, "        self.restore();\n        self.position = position;\n        self.lookahead", "        self.drop_checkpoint();\n        self.position = position;\n        self.lookahead"),
    ("lookahead ignores a limit cause", READING, "Ok(self.cause.is_none() && ok == positive)", "Ok(ok == positive)"),
    ("c for c + 1 in tracking", READING, "noted.0 + noted.1 + 1", "noted.0 + noted.1"),
    ("lists not cut when p is furthest", READING, "            self.positives.truncate(noted.0);\n            self.negatives.truncate(noted.1);", "            let _ = noted;"),
    ("lengths of an older position noted", READING, "        if self.furthest == p {\n            (self", "        if self.furthest <= p {\n            (self"),
    ("tracked in Atomic too", READING, "if ok != negative || self.atomicity == Atomicity::Atomic", "if ok != negative"),
    ("CompoundAtomic records nothing", READING, "self.atomicity != Atomicity::Atomic;", "self.atomicity == Atomicity::NonAtomic;"),
    ("tag under a lookahead", READING, "        if self.lookahead == Lookahead::None {\n            if let Some(last)", "        {\n            if let Some(last)"),
    ("repeat ends on a limit cause", READING, "while self.inside(body)? {}", "while self.inside(body)? && self.cause.is_none() {}"),
    ("repeat swallows a limit", READING, "        Ok(self.cause.is_none())\n", "        Ok(true)\n"),
    ("optional swallows a limit", READING, "Ok(self.inside(body)? || self.cause.is_none())", "Ok(self.inside(body)? || true)"),
    ("lowest height not taken over", READING, "outer.lowest = outer.lowest.min(inner.lowest);", "let _ = (outer, inner);"),
    ("a restore lowers the outer one", READING, "        self.stack = self.checkpoints.pop().expect(\"it was opened\").content;", "        let inner = self.checkpoints.pop().expect(\"it was opened\");\n        if let Some(outer) = self.checkpoints.last_mut() {\n            outer.lowest = outer.lowest.min(inner.lowest);\n        }\n        self.stack = inner.content;"),
    ("debt tested after the match", READING, "if debt > self.capacities.debt", "if debt > self.capacities.debt.saturating_add(1)"),
    ("entry 128 refused", READING, "if self.stack.len() >= self.capacities.entries", "if self.stack.len() + 1 >= self.capacities.entries"),
    ("attempt 256 refused", READING, "if list.len() >= self.capacities.attempts", "if list.len() + 1 >= self.capacities.attempts"),
    ("a failed pop leaves the entry", READING, "        Ok(self.match_entries(&[entry]))", "        let ok = self.match_entries(&[entry]);\n        if !ok {\n            self.stack.push(entry);\n        }\n        Ok(ok)"),
    ("kind 17 fails on an empty stack", READING, "        let start = self.position;\n        while let Some(entry)", "        let start = self.position;\n        if self.stack.is_empty() {\n            return Ok(false);\n        }\n        while let Some(entry)"),
    ("kind 17 keeps what it matched", READING, "                self.position = start;\n                return Ok(false);", "                let _ = start;\n                return Ok(false);"),
    ("negative peek index from the bottom", READING, "if index < 0 { height + index }", "if index < 0 { -index }"),
    ("peek the other way round", READING, "        if !bottom_up {", "        if bottom_up {"),
    ("peek of the height fails", READING, "if index > height || index < -height", "if index >= height || index < -height"),
    ("any-case folds nothing", READING, "b'A'..=b'Z' => byte + 32,", "b'A'..=b'Z' => byte,"),
    ("root one line lower", READING, "evaluate(input.root as usize)", "evaluate((input.root as usize - 1).max(1))"),
    ("the last line for every root", READING, "evaluate(input.root as usize)", "evaluate(nodes.len())"),
    ("root 0 accepted, as line 1", LIB, "    if let Some(refused) = refusal(", "    let input = Input { root: input.root.max(1), ..input };\n    if let Some(refused) = refusal("),
    ("root past the sheet accepted, as its last line", LIB, "    if let Some(refused) = refusal(", "    let input = Input { root: input.root.min(input.nodes.len() as u32 / 4), ..input };\n    if let Some(refused) = refusal("),
    ("root cut to 16 bits", LIB, "    if let Some(refused) = refusal(", "    let input = Input { root: input.root & 0xFFFF, ..input };\n    if let Some(refused) = refusal("),
    ("root tested before 6", LIB, "    if let Some(line) = still::first_still_repeat", "    if !is_line(input.root, &nodes) {\n        return Some(Outcome::new(18, 0, 0));\n    }\n    if let Some(line) = still::first_still_repeat"),
    ("root tested after 7", LIB, "    if !is_line(input.root, &nodes) {", "    if is_utf8(input.text) && !is_line(input.root, &nodes) {"),
    ("root tested after 8", LIB, "    if !is_line(input.root, &nodes) {", "    if (1..=DEEPEST).contains(&input.depth_limit) && !is_line(input.root, &nodes) {"),
    ("root tested last", LIB, "    if !is_line(input.root, &nodes) {", "    if report >= REPORT && scratch >= SCRATCH && !is_line(input.root, &nodes) {"),
    ("a refused root is the place", LIB, "Outcome::new(18, 0, 0)", "Outcome::new(18, input.root as usize, 0)"),
    ("range without its upper end", READING, "low <= scalar && scalar <= high", "low <= scalar && scalar < high"),
    ("skip counts bytes", READING, "Some((_, length)) => position += length,", "Some((_, _)) => position += 1,"),
    ("rules reported twice", LIB, "let set: std::collections::BTreeSet<u32> = rules.iter().copied().collect();\n    set.into_iter().collect()", "let mut set = rules.to_vec();\n    set.sort();\n    set"),
    ("field c of kind 8 not looked at", TABLE, "8 => number(a) && lower(b) && c == 0", "8 => number(a) && lower(b)"),
    ("literal off its character edge", TABLE, " && is_edge(literals, end)", ""),
    ("kind 7 stands still if both do", STILL, "7 => has(node.a) || has(node.b)", "7 => has(node.a) && has(node.b)"),
    ("kind 17 never stands still", STILL, "| 16 | 17 | 19 => true", "| 16 | 19 => true"),
]

COMPARE = ["target/release/compare", "--lines", "2", "--random", "40000", "--damaged", "0", "--watch", "8", "--pairs", "10000"]
REPLAY = ["target/release/answers", "--check", str(HERE.parent / "crates/replay/data")]

BUILD = ["cargo", "build", "-j1", "--release", "--offline", "-q", "--bin", "compare", "--bin", "answers"]
QUICK = os.environ | {"CARGO_PROFILE_RELEASE_DEBUG": "0", "CARGO_PROFILE_RELEASE_OPT_LEVEL": "1"}
# The copy stands elsewhere, so it is told where pest's files are.
for folder in HERE.parents:
    if (folder / "shared/docs/src/src/parser_state.rs").is_file():
        QUICK.setdefault("PEST_SRC", str(folder / "shared/docs/src"))


def refused(command):
    try:
        done = subprocess.run(command, cwd=COPY, capture_output=True, text=True, timeout=120)
    except subprocess.TimeoutExpired:
        return "no end"
    if done.returncode == 0:
        return None
    found = re.search(r"DIFFERENCE ([^\n]*)|(\d+) failed|Expected [^\n]*, not|(panicked at [^\n]*)", done.stdout + done.stderr)
    return found.group(0)[:70] if found else "status %d" % done.returncode


def main():
    shutil.copytree(HERE, COPY, dirs_exist_ok=True, ignore=shutil.ignore_patterns("answers-out", "target"))
    survivors = 0
    wanted = [mutant for mutant in MUTANTS if not WORDS or any(word in mutant[0] for word in WORDS)]
    for name, file, old, new in wanted:
        text = (COPY / file).read_text()
        assert text.count(old) == 1, (name, text.count(old))
        (COPY / file).write_text(text.replace(old, new))
        subprocess.run(BUILD, cwd=COPY, check=True, capture_output=True, env=QUICK)
        by_pest = None if os.environ.get("ONLY_LIST") else refused(COMPARE)
        by_list = refused(REPLAY)
        survivors += not (by_pest or by_list)
        print(f"{name} | {by_pest or '-'} | {by_list or '-'}", flush=True)
        (COPY / file).write_text(text)
    print(f"{len(wanted)} mutants, {survivors} survived")


if __name__ == "__main__":
    main()
