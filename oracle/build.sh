#!/bin/sh
# Builds the oracle: build.sh [FOLDER]
#   FOLDER  the Rust's sources: has crates/ciplink-server/src/worker.rs and the files beside it, or the same files as
#           src--crates--ciplink-server--src--worker.rs.txt (default: ../shared/docs/src, seen from the repository's top)
#   OUT     where to build (default: target/oracle in the repository); the program is $OUT/oracle
#   LEAVES  an archive of the leaves (libleaves.a): the program then has the commands `leaves` and `rounds`
#   CAPI    an archive of the entry points (libcapi.a): the program then has the commands `port`, `differ`, `record` and `bench`
set -eu
here=$(cd "$(dirname "$0")" && pwd)
top=$(dirname "$here")
docs=${1:-$top/../shared/docs/src}
out=${OUT:-$top/target/oracle}
leaves=${LEAVES:-}
capi=${CAPI:-}
pre=src--crates--ciplink-server--src--

src() {
    for f in "$docs/$pre$1.rs.txt" "$docs/$pre$1.rs" "$docs/crates/ciplink-server/src/$1.rs" "$docs/crates/ciplink-server/src/$1.rs.txt"; do
        [ ! -f "$f" ] || { echo "$f"; return; }
    done
    echo "build.sh: no $1.rs in $docs" >&2
    return 1
}
worker=$(src worker)
values=$(src values)
planner=$(src planner)
plc=$(src plc)
config=$(src config)
rules=$(src rules)
for f in "$leaves" "$capi"; do
    [ -z "$f" ] || [ -f "$f" ] || { echo "build.sh: no archive $f" >&2; exit 1; }
done

need=
for p in librust-serde-json-dev librust-indexmap-dev librust-log-dev; do
    dpkg -s "$p" >/dev/null 2>&1 || need="$need $p"
done
get() { apt-get install -y --no-install-recommends $need >&2; }
[ -z "$need" ] || get || { apt-get update >&2 && get; }

mkdir -p "$out"
out=$(cd "$out" && pwd)
tree=$out/tree
mkdir -p "$tree/src" "$tree/ciplink/src" "$tree/.cargo"
put() { cmp -s "$1" "$2" || cp "$1" "$2"; }
# what was cut must be there: holds TEXT NAME
holds() {
    grep -qF "$1" "$out/new" || { echo "build.sh: '$1' was not found where $2 is cut" >&2; exit 1; }
}

# unchanged, byte for byte
for f in "$worker" "$values" "$planner"; do
    to=$tree/src/$(basename "$f" .txt | sed 's/.*--//')
    put "$f" "$to"
    cmp "$f" "$to"
done

# plc.rs without the real driver: all that stands before `real PLCs`, less the `use ciplink::logix` lines
sed -e '/^\/\/ -* real PLCs$/,$d' -e '/^use ciplink::logix::/d' "$plc" >"$out/new"
holds 'pub trait Plc' plc.rs
put "$out/new" "$tree/src/plc.rs"

# config.rs: only PlcConfig
{
    echo 'use std::path::PathBuf; use serde_json::{Map, Value as Json};'
    echo '#[derive(Clone, Debug, Default)]'
    sed -n '/^pub struct PlcConfig/,/^}$/p' "$config"
} >"$out/new"
holds 'pub struct PlcConfig' config.rs
put "$out/new" "$tree/src/config.rs"

# rules.rs: the shim, with truthy and split_bit from the original
{
    cat "$here/driver/rules_shim.rs"
    sed -n -e '/^pub fn truthy/,/^}$/p' -e '/^pub fn split_bit/,/^}$/p' "$rules"
} >"$out/new"
holds 'pub fn truthy' rules.rs
holds 'pub fn split_bit' rules.rs
put "$out/new" "$tree/src/rules.rs"

# slices.rs: the number of slices, as cycle_tags in worker.rs works it out
{
    echo 'pub struct Worker { pub options: crate::worker::WorkerOptions }'
    echo 'impl Worker { pub fn slices(&self) -> usize { let cycle = self.options.cycle;'
    sed -n '/^ *let slices = if cycle > 0.0 {$/,/^ *};$/p' "$worker"
    echo 'slices } }'
} >"$out/new"
holds 'self.options.tier2_period / cycle' slices.rs
put "$out/new" "$tree/src/slices.rs"

put "$here/driver/main.rs" "$tree/src/main.rs"
put "$here/driver/worker_tests.rs" "$tree/src/worker_tests.rs"
for f in gen names inputs lists leaves rounds timing differ record refusals tape bench script host_rust host_ours sizes; do
    put "$here/driver/$f.rs" "$tree/src/$f.rs"
done
put "$here/Cargo.toml" "$tree/Cargo.toml"
ln -sfn "$top/host" "$tree/wordzike"
put "$here/ciplink/Cargo.toml" "$tree/ciplink/Cargo.toml"
put "$here/ciplink/src/lib.rs" "$tree/ciplink/src/lib.rs"
cat >"$out/new" <<'T2'
[source.crates-io]
replace-with = "debian"
[source.debian]
directory = "/usr/share/cargo/registry"
T2
put "$out/new" "$tree/.cargo/config.toml"
rm -f "$out/new"

features=
link=
if [ -n "$leaves" ]; then
    mkdir -p "$out/lib"
    # cargo doesn't see a change of the archive
    cmp -s "$leaves" "$out/lib/libleaves.a" || { cp "$leaves" "$out/lib/libleaves.a"; touch "$tree/src/leaves.rs"; }
    features='--features leaves'
    link='-l static=leaves'
fi
if [ -n "$capi" ]; then
    features="$features --features capi"
    WORDZIKE_LIB=$(cd "$(dirname "$capi")" && pwd)/$(basename "$capi")
    export WORDZIKE_LIB
    # `record` sees each call of an exported function
    for f in create set_tier load write stop step state stats tier_counts group_stats table panel tag; do
        link="$link -C link-arg=-Wl,--wrap=wz_$f"
    done
fi

cd "$tree"
# --cfg test without --test: worker.rs takes its test hooks, and main stays an ordinary program
CARGO_TARGET_DIR=$out/target cargo rustc --offline --release -q --bin oracle $features -- \
    --cfg test -A explicit_builtin_cfgs_in_flags -L "native=$out/lib" $link
cp "$out/target/release/oracle" "$out/oracle"
echo "$out/oracle"
