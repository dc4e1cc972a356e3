#!/usr/bin/env bash
# release.sh: packs a release of what the gate has built, unpacks it elsewhere, holds each file to its sum, and plays a stored session there with no git,
# no rt and no network in reach. Changed by one byte, the archive and a file in it are refused by their sums.
set -eu
cd "$(dirname "$0")/.."
room=$(mktemp -d)
trap 'rm -rf "$room"' EXIT
fail() { echo "release: $1" >&2; exit 1; }

./release "$room/packed" > /dev/null
(cd "$room/packed" && sha256sum --quiet -c ./*.sha256)
archive=$(ls "$room"/packed/*.tar.gz)
mkdir "$room/there" "$room/tools"
tar -C "$room/there" -xzf "$archive"
at=$(echo "$room"/there/*)
(cd "$at" && sha256sum --quiet -c SHA256SUMS)
[ "$(grep -c ': ' "$at/PROVED")" = "$(grep -c '^[a-z]' crates.txt)" ] || fail "PROVED hasn't a line for each crate"
[ ! -e "$at/.git" ] || fail "the archive has a repository"

for tool in bash sh env dirname find awk realpath cat mktemp rm sed grep; do ln -s "$(command -v $tool)" "$room/tools/"; done
played=0
for session in examples/*.session; do
    wanted=${session%.session}.expected
    [ -e "$wanted" ] || continue
    (cd "$at" && env -i PATH="$room/tools" ./play "$session") > "$room/written" 2> "$room/said" || fail "$session: $(cat "$room/said")"
    cmp "$room/written" "$wanted" || fail "$session differs"
    env -i "$at/bin/tkhost" < "$session" | cmp - "$wanted" || fail "$session differs by bin/tkhost"
    played=$((played + 1))
    [ $played -lt 10 ] || break
done
[ $played -gt 0 ] || fail "no session was played"

status=0
env -i "$at/bin/tkhost" < README.md > "$room/written" 2> "$room/said" || status=$?
[ $status = 1 ] && [ "$(cat "$room/said")" = "tkhost: fault 36 at line 1" ] || fail "a faulty session: $status, $(cat "$room/said")"

printf x >> "$at/README.md"
if (cd "$at" && sha256sum --quiet -c SHA256SUMS) > /dev/null 2>&1; then fail "a changed file passes"; fi
printf x >> "$archive"
if (cd "$room/packed" && sha256sum --quiet -c ./*.sha256) > /dev/null 2>&1; then fail "a changed archive passes"; fi
echo "release: packed, unpacked, $played sessions played from it, 0 differ"
