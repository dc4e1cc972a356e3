#!/usr/bin/env bash
# wrong_bodies_test.sh: tests of tests/wrong_bodies.py, in a small repository of its own: what is due, and that neither a wrong body that is accepted,
# nor one that no longer applies, nor a run that is cut off gives a crate its line, nor a file that is no list of wrong bodies.
set -eu
here=$(cd "$(dirname "$0")" && pwd)
top=$(mktemp -d)
trap 'rm -rf "$top"' EXIT
cd "$top"
git init -q .
mkdir -p tests crates/small/src
cp "$here"/{wrong_bodies,progress,programs}.py tests/
cp "$here/../HANDLES" .
echo "small:" > crates.txt
cat > crates/small/src/lib.rt <<'RT'
//! Two small functions.
#![tactic(auto)]

ghost use Rattle.std.specs.Prelude.{ℕ, ◌≡◌, ◌≤◌, ◌<◌, ◌+◌};

/// The number after `n`.
pub fn next(n: u32) -> u32
    requires { n < 1000 }
    ensures { result ≡ n + 1 }
{
    let one = 1;
    n + one
}

/// A number that is no less than `n`.
pub fn no_less(n: u32) -> u32
    ensures { n ≤ result }
{
    let same = n;
    same
}
RT
edits=crates/small/wrong_bodies.edits
body() { printf '\nbody: %s\nfile: src/lib.rt\nold: %s\nnew: %s\n' "$1" "$2" "$3" >> "$edits"; }
failed=0
# expect WORDS STATUS COMMAND..: the command ends so, and its last lines hold the words
expect() {
    local words=$1 status=$2 ended=0
    shift 2
    "$@" > said 2>&1 || ended=$?
    if [ "$ended" != "$status" ] || ! grep -qF -- "$words" said; then
        failed=$((failed + 1))
        echo "FAILED, ended with $ended: $*"
        tail -5 said
    else
        passed=$((passed + 1))
    fi
}
passed=0
holds() { if "$@"; then passed=$((passed + 1)); else failed=$((failed + 1)); echo "FAILED: $*"; fi; }
has_line() { grep -q '^small ' tests/wrong_bodies.tried 2> said; }
has_no_line() { ! has_line; }
nothing_laid() { [ ! -e crates/small/must-fail ]; }

body two-more "    let one = 1;" "    let one = 2;"
body nothing "    let same = n;" "    let same = 0;"
expect "small" 0 tests/wrong_bodies.py --due
# a run that is cut off: killed as soon as the wrong bodies are laid
cut_off() {
    tests/wrong_bodies.py --gate > said 2>&1 &
    local gate=$!
    for _ in $(seq 100); do [ -e crates/small/must-fail/two-more.edit ] && break; sleep 0.1; done
    [ -e crates/small/must-fail/two-more.edit ] || return 1
    kill "-$1" "$gate"
    wait "$gate" 2> said || true
    for _ in $(seq 50); do nothing_laid && return 0; sleep 0.1; done
    return 1
}
holds cut_off TERM
holds cut_off KILL
holds has_no_line
expect "2 of 2 wrong bodies refused, in" 0 tests/wrong_bodies.py
holds has_line
expect "no wrong bodies are due" 0 tests/wrong_bodies.py
# the same prover in a kit of another name, and another prover
version=$(rt version)
version_is() { printf '#!/bin/sh\necho "%s"\n' "$1" > kit/rt; }
mkdir kit
touch kit/rt
chmod +x kit/rt
version_is "other-kit logic ${version##*logic }"
expect "no wrong bodies are due" 0 env PATH="$top/kit:$PATH" tests/wrong_bodies.py
version_is "${version%%logic *}logic 0123456789abcdef"
expect "small" 0 env PATH="$top/kit:$PATH" tests/wrong_bodies.py --due
# a new file among the definitions or the proofs, a changed wrong body, a new one, one less, or another line in crates.txt
for file in specs/Meant.antt proofs/Shown.antt; do
    mkdir -p "crates/small/${file%/*}"
    echo "-- more" > "crates/small/$file"
    expect "small" 0 tests/wrong_bodies.py --due
    rm "crates/small/$file"
done
cp "$edits" kept
for change in 's/let same = 0/let same = 1/' 's/^body: nothing/body: none/' '$abody: third\nfile: src/lib.rt\nold: a\nnew: b' '/^body: nothing/,$d'; do
    { cat kept; echo; } | sed "$change" > "$edits"
    expect "small" 0 tests/wrong_bodies.py --due
done
# the order of the blocks, and what is said of them, don't count
{ echo "# Words to the reader."; sed -n '/^body: nothing/,$p' kept; echo; sed '/^body: nothing/,$d' kept; } > "$edits"
expect "no wrong bodies are due" 0 tests/wrong_bodies.py
# what is no list of wrong bodies is told with its line, and nothing is tried
for line in "body: nothing" "body: two words" "file: src/lib.rt" "words" "    old: a"; do
    { cat kept; echo; echo "$line"; } > "$edits"
    expect "wrong_bodies.edits:$(wc -l < "$edits"): " 1 tests/wrong_bodies.py
done
{ cat kept; echo "body: inside"; } > "$edits"
expect "no such line: body: inside" 1 tests/wrong_bodies.py --due
cp kept "$edits"
echo "small: itoa" > crates.txt
expect "small" 0 tests/wrong_bodies.py --due
echo "small:" > crates.txt
expect "no wrong bodies are due" 0 tests/wrong_bodies.py
# a changed byte
sed -i 's/^\/\/\/ The number after/\/\/\/ The number behind/' crates/small/src/lib.rt
expect "small" 0 tests/wrong_bodies.py --due
rm tests/wrong_bodies.tried
# a wrong body that is accepted
body one-more "    same" "    same.max(3)"
expect "small/one-more: NOT REFUSED" 1 tests/wrong_bodies.py
holds has_no_line
cp kept "$edits"
# one that no longer applies
body gone "    let three = 3;" "    let three = 4;"
expect "small/gone: an 'old:' text is in src/lib.rt 0 times" 1 tests/wrong_bodies.py
holds has_no_line
cp kept "$edits"
# the gate tries what is due, and gives the line
expect "3 passed, 0 failed" 0 tests/wrong_bodies.py --gate
holds has_line
holds nothing_laid
echo "wrong-bodies: $passed passed, $failed failed"
[ "$failed" = 0 ]
