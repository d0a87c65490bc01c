#!/bin/sh
# Instructions of the exported functions, as callgrind counts them; always the same for the same archive: counts.sh PROGRAM [TAGS]
#   PROGRAM  the oracle, as build.sh with CAPI builds it
#   TAGS     how many tags (default 120)
set -eu
program=$1
tags=${2:-120}
# many tier calls fill the table first
few=1000
many=2000
tmp=$(mktemp)
trap 'rm -f "$tmp"' EXIT
counted() {
    valgrind --tool=callgrind --callgrind-out-file=/dev/null --toggle-collect='wz_*' "$program" bench ours "$1" "$tags" "$2" 2>"$tmp" >/dev/null
    sed -n 's/.*Collected : //p' "$tmp"
}
echo "| $tags tags | Instructions of a round, or of a call |"
echo "|---|---|"
for case in ints floats within still half two groups writes calls graces; do
    # what comes before the rounds is in both
    a=$(counted $case $few)
    b=$(counted $case $many)
    echo "| $case | $(((b - a) / (many - few))) |"
done
