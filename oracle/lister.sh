#!/bin/sh
# Compares the round lister with the Rust: lister.sh [FOLDER] [SEED] [COUNT]
#   FOLDER  the Rust's sources, as for build.sh
#   SEED, COUNT  the first random input (default 1), and how many (default 10000)
#   OUT     as for build.sh
#   LISTER  a program to compare instead of crates/lister/out/lister, which `rt run` proves, writes and runs there
set -eu
here=$(cd "$(dirname "$0")" && pwd)
top=$(dirname "$here")
oracle=$("$here/build.sh" "${1:-}")
program=${LISTER:-}
if [ -z "$program" ]; then
    (cd "$top/crates/lister" && rt run <stdin >/dev/null)
    program=$top/crates/lister/out/lister
fi
exec "$oracle" lists "${2:-1}" "${3:-10000}" "$program"
