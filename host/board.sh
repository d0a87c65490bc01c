#!/bin/sh
# The operator's board of a club layout, over a simulated command station: board.sh [OPTION ...]
#   OPTION ...    as for the example; --help has them
#   WORDZIKE_LIB  an archive to use instead of the one that `oracle/archive.sh capi` proves and writes
# Needs rt and cargo, and no network. The proofs behind the archive take some minutes the first time.
set -eu
here=$(cd "$(dirname "$0")" && pwd)
top=$(dirname "$here")
archive=$top/target/staticlib/libcapi.a

# true if the archive is missing, or a source of a crate has changed since
old() {
    [ ! -f "$archive" ] || [ -n "$(find "$top/crates" "$top/crates.txt" -type d -name out -prune -o -type f -newer "$archive" -print | head -n 1)" ]
}

if [ -n "${WORDZIKE_LIB:-}" ]; then
    # cargo's build script runs in another folder
    WORDZIKE_LIB=$(cd "$(dirname "$WORDZIKE_LIB")" && pwd)/$(basename "$WORDZIKE_LIB")
    export WORDZIKE_LIB
elif old; then
    echo "board.sh: rt proves the engine and writes its archive; from a fresh clone this takes some minutes" >&2
    "$top/oracle/archive.sh" capi >/dev/null
    # also where it is as it was, so that it is not found old again
    touch "$archive"
fi
# here cargo finds .cargo/config.toml, which keeps what it builds below target/
cd "$here"
said=$(cargo build --release --offline --quiet --example board 2>&1) || {
    echo "$said" >&2
    exit 1
}
exec cargo run --release --offline --quiet --example board -- "$@"
