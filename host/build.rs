//! Links the engine's archive: `$WORDZIKE_LIB`, or what `oracle/archive.sh capi` writes.

use std::env;
use std::path::PathBuf;

fn main() {
    println!("cargo:rerun-if-env-changed=WORDZIKE_LIB");
    let from = env::var_os("WORDZIKE_LIB")
        .map_or_else(|| PathBuf::from(env!("CARGO_MANIFEST_DIR")).join("../target/staticlib/libcapi.a"), PathBuf::from);
    println!("cargo:rerun-if-changed={}", from.display());
    let folder = PathBuf::from(env::var_os("OUT_DIR").expect("cargo sets OUT_DIR"));
    if let Err(e) = std::fs::copy(&from, folder.join("libwordzike_engine.a")) {
        panic!("{}: {e}. `oracle/archive.sh capi` writes the archive; WORDZIKE_LIB names another.", from.display());
    }
    println!("cargo:rustc-link-search=native={}", folder.display());
    println!("cargo:rustc-link-lib=static=wordzike_engine");
}
