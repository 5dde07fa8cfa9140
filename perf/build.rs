//! Links the proved library: the archive that CAPI names, or the one that
//! `tools/archive capi` makes, and beside it those that EXPLAIN and BARE name,
//! each for one more call.

use std::env;
use std::path::PathBuf;

fn main() {
    let here = PathBuf::from(env::var_os("CARGO_MANIFEST_DIR").expect("cargo sets this"));
    let built = here.join("../target/staticlib/libcapi.a");
    println!("cargo:rerun-if-env-changed=CAPI");
    link(env::var_os("CAPI").map_or(built, PathBuf::from));
    link_if_named("EXPLAIN", "explains");
    link_if_named("BARE", "runs_bare");
}

/// Only with the archive the program is built with `cfg`.
fn link_if_named(variable: &str, cfg: &str) {
    println!("cargo:rerun-if-env-changed={variable}");
    println!("cargo:rustc-check-cfg=cfg({cfg})");
    if let Some(archive) = env::var_os(variable).filter(|name| !name.is_empty()) {
        link(PathBuf::from(archive));
        println!("cargo:rustc-cfg={cfg}");
    }
}

fn link(archive: PathBuf) {
    println!("cargo:rerun-if-changed={}", archive.display());
    println!("cargo:rustc-link-arg-bins={}", archive.display());
}
