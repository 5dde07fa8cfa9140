//! Links the three archives that `tools/archive` makes. WRONG and WRAPPED are for
//! planted-are-found alone: an object file, and the functions of the library
//! that it stands before.

use std::env;
use std::path::{Path, PathBuf};

fn main() {
    let here = PathBuf::from(env::var_os("CARGO_MANIFEST_DIR").expect("cargo sets this"));
    wrap();
    for name in ["capi", "capi_explain", "capi_bare"] {
        link(&here.join(format!("../../target/staticlib/lib{name}.a")));
    }
    // What perf/src/library.rs declares only if there is an archive for it.
    for cfg in ["explains", "runs_bare"] {
        println!("cargo:rustc-check-cfg=cfg({cfg})");
        println!("cargo:rustc-cfg={cfg}");
    }
}

fn wrap() {
    for variable in ["WRONG", "WRAPPED"] {
        println!("cargo:rerun-if-env-changed={variable}");
    }
    if let Some(object) = env::var_os("WRONG") {
        link(Path::new(&object));
    }
    for function in env::var("WRAPPED").unwrap_or_default().split_whitespace() {
        println!("cargo:rustc-link-arg=-Wl,--wrap={function}");
    }
}

fn link(file: &Path) {
    println!("cargo:rerun-if-changed={}", file.display());
    println!("cargo:rustc-link-arg={}", file.display());
}
