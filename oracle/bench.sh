#!/bin/sh
# Times the exported functions beside the Rust's worker, and prints docs/PERFORMANCE.md's tables: bench.sh [FOLDER] [ROUNDS]
#   FOLDER  the Rust's sources, as for build.sh
#   ROUNDS  how many rounds a repetition (default 3000)
#   OUT     as for build.sh
#   CAPI    an archive to time instead of the one that `archive.sh capi` proves and writes
set -eu
here=$(cd "$(dirname "$0")" && pwd)
archive=${CAPI:-$("$here/archive.sh" capi)}
program=$(CAPI=$archive "$here/build.sh" "${1:-}")
exec "$program" bench "${2:-3000}"
