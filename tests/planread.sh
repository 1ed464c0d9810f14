#!/usr/bin/env bash
# The wrapper ./planread as a user meets it: arguments, folders, files that cannot be read, output that cannot be written, and the first
# run, which is tried on a copy of the wrapper with a stand-in for rt. Ends with status 1 at the first case that does not hold.
set -u
root=$(cd -- "$(dirname -- "${BASH_SOURCE[0]}")/.." && pwd)
work=$(mktemp -d) || exit 1
trap 'rm -rf "$work"' EXIT
cases=0
"$root/planread" "$root/examples/first" >"$work/out" || exit 1 # so that the program is built

# Runs a command; `holds` and the others below look at its status and at what it wrote.
try() { # NAME COMMAND...
    name=$1
    shift
    cases=$((cases + 1))
    timeout 60 "$@" >"$work/out" 2>"$work/err" </dev/null
    status=$?
}

fail() {
    echo "tests/planread.sh: $name: $*" >&2
    echo "status $status; standard output:" >&2
    head -n 20 "$work/out" >&2
    echo "standard error:" >&2
    head -n 20 "$work/err" >&2
    exit 1
}

ends() { [ "$status" -eq "$1" ] || fail "it should end with status $1"; }
lists() { cmp -s "$work/out" "$1" || fail "it should print $1"; }
is_silent() { [ ! -s "$work/err" ] || fail "it should say nothing"; }
prints_nothing() { [ ! -s "$work/out" ] || fail "it should print nothing"; }
says() { grep -qF -- "$1" "$work/err" || fail "it should say: $1"; }
says_not() { ! grep -qF -- "$1" "$work/err" || fail "it should not say: $1"; }
says_lines() { [ "$(wc -l <"$work/err")" -eq "$1" ] || fail "it should say $1 line(s)"; }

# A folder of the example that document 01 has.
first=$root/examples/first
copy() { mkdir -p "$work/$1" && cp "$first"/*.txt "$work/$1/"; }

listed() { ends 0 && lists "$first/expected" && is_silent; }
refused() { ends 2 && prints_nothing && says_lines 1; }

examples() {
    local example
    for example in first channels json heredoc two-roots; do
        try "examples/$example" "$root/planread" "$root/examples/$example"
        ends 0 && lists "$root/examples/$example/expected" && is_silent
    done
}

folders() {
    cd -- "$first" && try "the current folder" "$root/planread" && listed
    copy - && copy spaced\ name && copy -h
    cd -- "$work" || exit 1
    try "a folder called -" "$root/planread" - && listed
    try "a folder called -h" "$root/planread" -- -h && listed
    try "a name with a space" "$root/planread" "spaced name" && listed
    copy far/inner
    try "a set CDPATH" env CDPATH="$work/far:$root/examples" "$root/planread" inner && refused
    try "a set CDPATH, a folder that is there" env CDPATH="$root/examples" "$root/planread" far/inner && listed
    ln -s "$root/planread" "$work/link" && ln -s link "$work/link-of-a-link"
    try "through a link" "$work/link" "$first" && listed
    try "through a link of a link" ./link-of-a-link "$first" && listed
}

arguments() {
    cd -- "$work" || exit 1
    try "no such folder" "$root/planread" none && refused && says "there is no folder 'none'"
    try "an empty name" "$root/planread" "" && refused
    try "a file" "$root/planread" "$first/plan.txt" && refused && says "is not a folder"
    try "two folders" "$root/planread" - - && ends 2 && prints_nothing && says "usage: planread [FOLDER]"
    for word in -h --help; do
        try "$word" "$root/planread" "$word" && ends 0 && is_silent
        grep -q '^usage: planread \[FOLDER\]' "$work/out" || fail "it should print the usage"
    done
}

# The listing of a folder whose sheet is empty: 1, 0, 0.
files() {
    printf '%6d%6d%6d\n' 1 0 0 >"$work/empty-sheet"
    mkdir -p "$work/nothing"
    try "none of the files" "$root/planread" "$work/nothing"
    ends 0 && lists "$work/empty-sheet" && says_lines 1 && says "has none of sheet.txt, literals.txt and plan.txt"
    copy odd && rm "$work/odd/sheet.txt" && mkdir "$work/odd/sheet.txt"
    try "a folder for the sheet" "$root/planread" "$work/odd"
    ends 0 && lists "$work/empty-sheet" && says_lines 1 && says "sheet.txt is a folder"
    rmdir "$work/odd/sheet.txt" && ln -s nowhere "$work/odd/sheet.txt"
    try "a link that leads nowhere" "$root/planread" "$work/odd"
    ends 0 && lists "$work/empty-sheet" && says_lines 1 && says "sheet.txt cannot be read"
    rm "$work/odd/sheet.txt"
    try "a sheet that is missing" "$root/planread" "$work/odd" && ends 0 && lists "$work/empty-sheet" && is_silent
    if [ "$(id -u)" -ne 0 ]; then # root reads every file
        copy shut && chmod 000 "$work/shut/sheet.txt"
        try "a sheet that may not be read" "$root/planread" "$work/shut"
        ends 0 && lists "$work/empty-sheet" && says_lines 1 && says "sheet.txt cannot be read"
    fi
}

# 3,276 tokens: the listing is longer than a pipe holds.
output() {
    copy long && cp "$root/crates/planread_test/data/pairs.txt" "$work/long/sheet.txt"
    { head -c 1638 /dev/zero | tr '\0' a && printf c; } >"$work/long/plan.txt"
    try "a long listing" "$root/planread" "$work/long" && ends 0 && is_silent
    [ "$(wc -l <"$work/out")" -eq 3277 ] || fail "it should print 3,277 lines"
    for folder in "$first" "$work/long"; do
        if [ -c /dev/full ]; then
            try "a full disk" bash -c '"$0" "$1" >/dev/full' "$root/planread" "$folder"
            ends 1 && says "the listing could not be written whole"
        fi
        try "a closed output" bash -c '"$0" "$1" >&-' "$root/planread" "$folder"
        ends 1 && says "the listing could not be written whole"
        # the reader is gone before a byte is written
        try "a closed pipe" bash -c '{ sleep 0.2; "$0" "$1"; echo $? >"$2"; } | true' "$root/planread" "$folder" "$work/status"
        status=$(cat "$work/status")
        ends 1 && says "the listing could not be written whole"
    done
    try "a reader that ends early" bash -c '{ "$0" "$1"; echo $? >"$2"; } | head -n 1' "$root/planread" "$work/long" "$work/status"
    status=$(cat "$work/status")
    ends 1 && says "the listing could not be written whole"
}

# A repository with no program yet. What rt would do stands in $work/bin/rt: so much is seen of the first run.
first_run() {
    local repository=$work/repository tool
    mkdir -p "$repository/crates/planread" "$work/tools" "$work/bin"
    cp "$root/planread" "$root/crates.txt" "$repository/"
    for tool in bash env cat find awk sed grep sort tail touch mkdir sleep readlink cp chmod; do
        ln -s "$(command -v "$tool")" "$work/tools/$tool"
    done
    try "no rt" env PATH="$work/tools" "$repository/planread" "$first"
    ends 1 && prints_nothing && says_lines 1 && says "no \`rt\` on the path" && says "Rattle kit" && says_not "Proving"

    cat >"$work/bin/rt" <<'EOF'
#!/usr/bin/env bash
# rt run in crates/planread: two crates, then the rest; or a crate that is not proved.
touch "$MARK"
echo "rt: chose --jobs 2 for matching"
echo "fn matching::utf8: proved"
echo "logic=proved functions=34"
sleep 2
echo "rt: reading: begins with what a check kept in another folder"
echo "rt: chose --jobs 2 for reading"
sleep 1
[ -z "$BREAK" ] || { echo "logic=not-proved"; exit 1; }
mkdir -p out
printf '#!/bin/sh\necho listing\n' >out/planread
chmod +x out/planread
EOF
    chmod +x "$work/bin/rt"
    local stand_in=(env PATH="$work/bin:$work/tools" MARK="$work/mark")
    try "no such folder, nothing built" "${stand_in[@]}" BREAK= "$repository/planread" none && refused
    try "a file, nothing built" "${stand_in[@]}" BREAK= "$repository/planread" "$first/plan.txt" && refused
    try "--help, nothing built" "${stand_in[@]}" BREAK= "$repository/planread" --help && ends 0 && is_silent
    [ ! -e "$work/mark" ] || fail "it should not call rt"

    try "a build that fails" "${stand_in[@]}" BREAK=1 "$repository/planread" "$first"
    ends 1 && prints_nothing && says "fn matching::utf8: proved" && says "could not be built"
    try "a build" "${stand_in[@]}" BREAK= "$repository/planread" "$first"
    ends 0 && says "crate 2 of 7, reading: 0:0" && says "; the longest was matching, 0:0" && says_not "fn matching"
    [ "$(cat "$work/out")" = listing ] || fail "it should run the program that was built"
    grep -q "fn matching::utf8: proved" "$repository/target/planread.log" || fail "it should keep what rt said"
    rm "$work/mark"
    try "a second run" "${stand_in[@]}" BREAK= "$repository/planread" "$first" && ends 0 && is_silent
    [ ! -e "$work/mark" ] || fail "it should not build again"
}

examples
folders
arguments
files
output
first_run
echo "tests/planread.sh: each of the $cases cases holds"
