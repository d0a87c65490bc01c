#!/bin/sh
# Proves and archives a library of this repository, and prints the archive's path: archive.sh NAME
# NAME is capi (the entry points, which the crate capi_c exports) or leaves.
set -eu
top=$(cd "$(dirname "$0")/.." && pwd)
crate=$1
[ ! -d "$top/crates/${1}_c" ] || crate=${1}_c
(cd "$top/crates/$crate" && rt lib) >&2
mkdir -p "$top/target/staticlib"
archive=$top/target/staticlib/lib$1.a
cmp -s "$top/crates/$crate/out/lib$crate.a" "$archive" || cp "$top/crates/$crate/out/lib$crate.a" "$archive"
echo "$archive"
