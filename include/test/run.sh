#!/bin/sh
# Tries the header and the archive: run.sh [SEED] [COUNT]
#   SEED, COUNT  of the damaged input (default 1, and 1000000 calls)
#   OUT     where to build (default: target/include in the repository)
#   CAPI    an archive to try instead of the one that `oracle/archive.sh capi` proves and writes
# Compiles calls.c as C and as C++ and runs it, the loop of docs/HOST.md, and stack.c, which measures the stack that the
# functions take; then damaged.c, at pages that may not be touched and, with a fiftieth of the calls, under valgrind where
# that is installed.
set -eu
here=$(cd "$(dirname "$0")" && pwd)
top=$(cd "$here/../.." && pwd)
out=${OUT:-$top/target/include}
seed=${1:-1}
count=${2:-1000000}
archive=${CAPI:-$("$top/oracle/archive.sh" capi)}
mkdir -p "$out"
strict='-Wall -Wextra -pedantic -Werror -O1 -g'
cc -std=c99 $strict -o "$out/calls_c" "$here/calls.c" "$archive"
c++ -std=c++11 $strict -x c++ -o "$out/calls_cpp" "$here/calls.c" -x none "$archive"
cc -std=c99 $strict -o "$out/loop" "$here/loop.c" "$archive"
cc -std=c99 $strict -o "$out/stack" "$here/stack.c" "$archive"
cc -std=c99 $strict -o "$out/damaged" "$here/damaged.c" "$archive" -lm
"$out/calls_c"
"$out/calls_cpp"
"$out/loop"
"$out/stack"
"$out/damaged" "$seed" "$count"
if command -v valgrind >/dev/null; then
    valgrind -q --error-exitcode=9 "$out/damaged" "$seed" $((count / 50)) heap | tail -n 1
else
    echo "valgrind is not installed"
fi
