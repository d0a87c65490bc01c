#!/bin/sh
# Times tier calls and rounds, the Rust's and ours: rounds.sh [FOLDER] [TAGS] [ROUNDS]
#   FOLDER  the Rust's sources, as for build.sh
#   TAGS, ROUNDS  how many tags (1 to 120, default 120), and how many rounds a repetition (default 20000)
#   OUT     as for build.sh
#   LEAVES  an archive to time instead of the one that `archive.sh leaves` proves and writes
set -eu
here=$(cd "$(dirname "$0")" && pwd)
archive=${LEAVES:-$("$here/archive.sh" leaves)}
program=$(LEAVES=$archive "$here/build.sh" "${1:-}")
exec "$program" rounds "${2:-120}" "${3:-20000}"
