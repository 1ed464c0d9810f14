#!/usr/bin/env python3
"""Counts, in crates/*/src of a commit, the places that docs/DESIGN-PASS.md speaks of: python3 tools/places.py [COMMIT] [--list].

It goes by the text, so that it counts alike before and after; what it finds is read by hand. Without a commit it reads the working tree."""
import collections
import glob
import re
import subprocess
import sys


def sources(commit):
    if commit is None:
        return {f: open(f).read() for f in glob.glob("crates/*/src/*.rt")}
    names = subprocess.run(["git", "ls-tree", "-r", "--name-only", commit, "crates"], capture_output=True, text=True, check=True)
    files = [f for f in names.stdout.split("\n") if re.fullmatch(r"crates/\w+/src/\w+\.rt", f)]
    return {f: subprocess.run(["git", "show", f"{commit}:{f}"], capture_output=True, text=True, check=True).stdout for f in files}


def bare(text):  # without comments
    return re.sub(r"(?m)\s*//.*$", "", text)


def functions(text):  # name, head with the clauses, body
    found, lines, at = [], text.split("\n"), 0
    while at < len(lines):
        m = re.match(r"( *)(?:pub(?:\(crate\))? )?(?:extern \"C\" )?fn (\w+)", lines[at])
        at += 1
        if not m:
            continue
        start = at - 1
        opening = next(i for i in range(start, len(lines)) if lines[i] == m.group(1) + "{" or lines[i].endswith(" {") and "ensures" not in lines[i])
        end = next(i for i in range(opening, len(lines)) if lines[i] == m.group(1) + "}")
        found.append((m.group(2), "\n".join(lines[start:opening + 1]), "\n".join(lines[opening + 1:end])))
        at = end
    return found


def enums_of_option(text):
    found = []
    for name, body in re.findall(r"(?m)^(?:pub(?:\(crate\))? )?enum (\w+) \{\n(.*?)\n\}", text, re.S):
        variants = re.findall(r"(?m)^    (\w+)(\(.*\))?,", body)
        full = [v for v in variants if v[1]]
        if full and len(variants) - len(full) <= 2 and len(variants) <= 3:
            found.append(f"enum {name}")
    return found


def flags(text):
    found = []
    for name, body in re.findall(r"(?m)^(?:pub(?:\(crate\))? )?struct (\w+)[^\n{]* \{\n(.*?)\n\}", text, re.S):
        if re.search(r": bool,", body):
            found.append(f"struct {name}")
    return found


def numbers(text):  # numbers that stand for a refusal or a stop, in the code that decides
    return [f"number {m}" for m in re.findall(r"\bBy\((\d+),|\brefusal\((\d+),", text)]


def twins(all_functions):
    shape = collections.defaultdict(list)
    words = "if|else|while|for|in|let|mut|return|match|loop|break|continue|as|true|false"
    for file, (name, _, body) in all_functions:
        if body.count("\n") < 2:
            continue
        text = re.sub(r"\b(?!(?:%s)\b)[A-Za-z_]\w*" % words, "x", body)
        shape[re.sub(r"\s+", " ", re.sub(r"\b\d\w*\b", "0", text))].append(f"{file}: {name}")
    return [" = ".join(group) for group in shape.values() if len(group) > 1]


def index_loops(body):
    found = []
    for m in re.finditer(r"(?m)^( *)(?:'\w+: )?while ([^\n{]*)\{\n(.*?)\n\1\}", body, re.S):
        counted = re.findall(r"\b(\w+) [+-]= 1;", m.group(3))
        if any(re.search(r"\b%s\b" % c, m.group(2)) for c in counted):
            found.append("while " + m.group(2).strip())
    return found


def by_hand(name, body):  # equality, order and conversion written out
    arms = re.findall(r"=> (\w+(?:::\w+)?(?:\(\w+\))?),", body)
    if arms and all(a in ("true", "false") for a in arms) and "_ =>" not in body and body.strip().startswith("match"):
        return ["equality"]
    if body.strip().startswith("match") and arms and all(re.fullmatch(r"\d+", a) for a in arms):
        return ["a number for each variant"]
    if re.fullmatch(r"\s*if (\w+) <=? (\w+) \{.*?\b\1\b.*\b\2\b\s*\}?\s*", body, re.S) and name == "least":
        return ["least"]
    if re.match(r"(put_number|put_signed|put_name|end_line|put_outcome|say|number|truth|byte)$", name) and "println" not in body:
        return ["printing"]
    return []


def main():
    words = [w for w in sys.argv[1:] if w != "--list"]
    text = {f.split("/", 1)[1]: bare(t) for f, t in sources(words[0] if words else None).items()}
    code = [(f, fn) for f, t in text.items() for fn in functions(t)]
    clauses = collections.Counter(c for _, (_, head, _) in code for c in set(re.findall(r"requires(?: \w+)? (\{.*\})", head)))
    rows = {
        "1 enums of the shape of Option or Result": [f"{f}: {x}" for f, t in text.items() for x in enums_of_option(t)],
        "1 structs with a flag": [f"{f}: {x}" for f, t in text.items() for x in flags(t)],
        "1 numbers for refusals": [f"{f}: {x}" for f, t in text.items() for x in numbers(t)],
        "2 functions of one shape": twins(code),
        "3 loops that count an index": [f"{f}: {n}: {x}" for f, (n, _, b) in code for x in index_loops(b)],
        "4 equality, order, conversion, printing by hand": [f"{f}: {n}: {x}" for f, (n, _, b) in code for x in by_hand(n, b)],
        "5 a requires of three functions or more": [f"{n} times {c}" for c, n in clauses.items() if n > 2],
        "5 functions of seven parameters or more": [f"{f}: {n}" for f, (n, h, _) in code if len(re.findall(r"\w+: ", h.split("->")[0].split("requires")[0])) > 6],
        "6 a slice with a count beside it": [f"{f}: {n}" for f, (n, h, _) in code if re.search(r": &(?:mut )?\[\w+\], (?:n|count): (?:usize|TokenIndex)", re.sub(r"\n +", " ", h))],
        "7 a switch by a number": [f"{f}: {n}" for f, (n, _, b) in code if re.search(r"match (?:n\.)?kind\b|row_of\(", b)],
    }
    for row, found in rows.items():
        print(f"{len(found):4} {row}")
        if "--list" in sys.argv:
            print("".join(f"       {x}\n" for x in sorted(found)), end="")


main()
