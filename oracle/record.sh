#!/bin/sh
# Records the answers that crates/replay replays: record.sh [FOLDER]
#   FOLDER  the Rust's sources, as for build.sh
#   OUT     as for build.sh
#   CAPI    an archive to record instead of the one that `archive.sh capi` proves and writes
#   TO      where to write the files `stdin` and `stdout` (default: crates/replay)
# All histories have to be as the Rust's; otherwise nothing is written.
set -eu
here=$(cd "$(dirname "$0")" && pwd)
top=$(dirname "$here")
to=${TO:-$top/crates/replay}
archive=${CAPI:-$("$here/archive.sh" capi)}
program=$(CAPI=$archive "$here/build.sh" "${1:-}")
tmp=$(mktemp -d)
trap 'rm -rf "$tmp"' EXIT

# The last fifteen seeds were chosen by what they find: misreadings of rules that those before them do not show.
set -- refusals board backoff again left small:1:3:50 mid:1:2:40 full:2:1:40 full:6:1:40 calm:1:1:80 stormy:1:2:60 \
    edge:1:3:50 groups:1:2:50 aimed:1:3:50 \
    small:31:1:80 edge:19:1:80 edge:31:1:80 full:30:1:80 edge:5:1:80 mid:11:1:80 small:16:1:80 small:21:1:80 small:1:1:80 \
    edge:2:1:80 mid:3:1:80 edge:15:1:80 stormy:24:1:80 groups:47:1:80 stormy:55:1:80
for f in "$here"/findings/*.txt; do
    # outcomes told one by one, and reads cut into runs (change request N1), are not the functions' form
    case $f in *.single.txt) continue ;; esac
    ! grep -q '^chunk' "$f" || continue
    set -- "$@" "$f"
done
"$program" record "$@" >"$tmp/stdin" 2>"$tmp/met" || { cat "$tmp/met" >&2; exit 1; }
! grep '^not met' "$tmp/met" >&2 || exit 1
# each number of document 01's table, and 100
for n in 1 2 3 4 11 12 13 14 21 22 23 24 31 32 41 42 43 51 53 54 55 56 100; do
    grep -q "refused with $n\$" "$tmp/met" || { echo "record.sh: no call is refused with $n" >&2; exit 1; }
done
cat "$tmp/met"
tail -n 1 "$tmp/met" >"$to/stdout"
cp "$tmp/stdin" "$to/stdin"
wc -c "$to/stdin"
