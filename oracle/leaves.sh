#!/bin/sh
# Compares the leaves with the Rust: leaves.sh [FOLDER] [SEED] [COUNT]
#   FOLDER  the Rust's sources, as for build.sh
#   SEED, COUNT  which random inputs (default 1), and how many a function (default 1000000)
#   OUT     as for build.sh
#   LEAVES  an archive to compare instead of the one that `archive.sh leaves` proves and writes
set -eu
here=$(cd "$(dirname "$0")" && pwd)
archive=${LEAVES:-$("$here/archive.sh" leaves)}
program=$(LEAVES=$archive "$here/build.sh" "${1:-}")
exec "$program" leaves "${2:-1}" "${3:-1000000}"
