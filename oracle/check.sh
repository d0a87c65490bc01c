#!/bin/sh
# Checks the oracle itself: check.sh [FOLDER] [COUNT]
#   FOLDER  the Rust's sources, as for build.sh
#   COUNT   histories a profile (default 1000)
#   OUT     as for build.sh
# Runs document 01's cases, replays every finding and compares its trace, then `batch` over all profiles.
set -eu
here=$(cd "$(dirname "$0")" && pwd)
oracle=$("$here/build.sh" "${1:-}")
count=${2:-1000}
tmp=$(mktemp -d)
trap 'rm -rf "$tmp"' EXIT
wrong=0

"$oracle" cases || wrong=1

seen=0
differ=0
for f in "$here"/findings/*.txt; do
    single=
    case $f in *.single.txt) single=--single ;; esac
    grep -v '^#' "$f" >"$tmp/want"
    "$oracle" replay $single <"$f" >"$tmp/got"
    seen=$((seen + 1))
    cmp -s "$tmp/want" "$tmp/got" || { echo "differs: $f"; differ=$((differ + 1)); }
done
echo "$seen findings, $differ differ"
[ "$differ" = 0 ] || wrong=1

for profile in small mid full calm stormy edge groups aimed mixed split splitfull; do
    "$oracle" batch 1 "$count" 80 "$profile" >"$tmp/out" || { wrong=1; grep '^seed' "$tmp/out" || true; }
    echo "$profile"
    tail -n 3 "$tmp/out" | sed 's/^/    /'
done
exit $wrong
