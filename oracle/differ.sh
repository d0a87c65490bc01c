#!/bin/sh
# Drives the exported functions with the oracle's histories and compares every line with the Rust's trace:
# differ.sh [FOLDER] [FIRST] [COUNT] [N] [PROFILE ...]
#   FOLDER  the Rust's sources, as for build.sh
#   FIRST, COUNT  the seeds of each profile (default 1, and 4000 of them)
#   N       answers in a history, about (default 80)
#   PROFILE ...  as for `oracle gen` (default: all that are within document 01)
#   OUT     as for build.sh
#   CAPI    an archive to compare instead of the one that `archive.sh capi` proves and writes
set -eu
here=$(cd "$(dirname "$0")" && pwd)
folder=${1:-}
first=${2:-1}
count=${3:-4000}
n=${4:-80}
[ $# -gt 4 ] && shift 4 || set --
archive=${CAPI:-$("$here/archive.sh" capi)}
program=$(CAPI=$archive "$here/build.sh" "$folder")
tmp=$(mktemp -d)
trap 'rm -rf "$tmp"' EXIT
seen=0
differ=0
for f in "$here"/findings/*.txt; do
    # outcomes told one by one, and reads cut into runs (change request N1), are not the functions' form
    case $f in *.single.txt) continue ;; esac
    ! grep -q '^chunk' "$f" || continue
    grep -v -e '^#' -e '^$' "$f" >"$tmp/want"
    "$program" port <"$f" >"$tmp/got"
    seen=$((seen + 1))
    cmp -s "$tmp/want" "$tmp/got" || { echo "differs: $f"; differ=$((differ + 1)); }
done
echo "$seen findings, $differ differ"
"$program" differ "$first" "$count" "$n" "$@"
[ "$differ" = 0 ]
