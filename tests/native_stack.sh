#!/usr/bin/env bash
# Measures the native stack of a run, which no proof sees: what README.md, "Native stack", and docs/DECISIONS.md, 25, say. Not part of the
# gate. Needs target/staticlib/libparser_core.a (bash tools/staticlib.sh), crates/planread/out/planread (rt run in crates/planread) and gcc.
#
# The grammar is that of rust/parser-core/c/native_stack.c: a rule that calls itself, from inside so many nests, until the depth limit
# refuses it (12, 0, 0). A nest is a line of kind 6 on the left of one of kind 7, with the rest on its right.
set -eu
cd "$(dirname "$0")/.."
root=$PWD
work=$(mktemp -d)
trap 'rm -rf "$work"' EXIT
answer=$(printf '%6d%6d%6d' 12 0 0)
gcc -O2 -I rust/parser-core/include rust/parser-core/c/native_stack.c target/staticlib/libparser_core.a -o "$work/native_stack"

# Does the C program, or planread at depth 1,024, end well on so many KB?
c_runs() { # KB DEPTH NESTS
    [ "$( (ulimit -S -s "$1" && "$work/native_stack" "$2" "$3" 0) 2>/dev/null)" = "$answer" ]
}

write_sheet() { # NESTS
    awk -v n="$1" '
        function line(kind, a, b) { printf "%4d%12d%12d%12d\n", kind, a, b, 0; return ++lines }
        BEGIN {
            nothing = line(1, 0, 0)
            body = line(20, 2 + 2 * n + 1, 0)
            for (i = 0; i < n; i++) { left = line(6, nothing, body); body = line(7, left, nothing) }
            line(8, 7, body)
        }' >"$work/sheet.txt"
}

planread_runs() { # KB NESTS
    write_sheet "$2"
    [ "$( (ulimit -S -s "$1" && cd "$work" && "$root/crates/planread/out/planread") 2>/dev/null)" = "$answer" ]
}

# The least number above LOW, up to HIGH, for which a command holds, by halves; the number goes behind the command.
least() { # LOW HIGH COMMAND...
    local low=$1 high=$2 middle
    while [ $((high - low)) -gt 1 ]; do
        middle=$(((low + high) / 2))
        if "${@:3}" "$middle"; then high=$middle; else low=$middle; fi
    done
    echo "$high"
}

c_runs_on() { c_runs "$3" "$1" "$2"; }
kb_for() { least 16 2000000 c_runs_on "$1" "$2"; } # DEPTH NESTS

c_dies() { ! c_runs 8192 1024 "$1"; }
planread_dies() { ! planread_runs 8192 "$1"; }

# Between depth 24 and 1,024 lie 1,000 calls; a limit counts in pages, so the bytes of a call are known to 4 or so.
plain=$((($(kb_for 1024 0) - $(kb_for 24 0)) * 1024 / 1000))
nested=$((($(kb_for 1024 400) - $(kb_for 24 400)) * 1024 / 1000))
echo "an open call takes $plain bytes, a nest in it $(((nested - plain) / 400)) more"
echo "2,044 nests, all that a sheet has room for beside the rest, take $(kb_for 1024 2044) KB at depth 1,024"
echo "at depth 1,024 on 8 MB: a C program runs $(($(least 0 400 c_dies) - 1)) nests in each call, planread itself $(($(least 0 400 planread_dies) - 1))"
