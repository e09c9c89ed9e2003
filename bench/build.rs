//! Links the library of this port.

use std::path::Path;

fn main() {
    let folder = Path::new(&std::env::var("CARGO_MANIFEST_DIR").unwrap()).join("../crates/outlets_c/out");
    println!("cargo:rustc-link-search=native={}", folder.display());
    println!("cargo:rustc-link-lib=static=outlets_c");
    println!("cargo:rustc-env=BENCH_SHIFT={}", std::env::var("BENCH_SHIFT").unwrap_or("0".to_string()));
    println!("cargo:rerun-if-env-changed=BENCH_SHIFT");
    println!("cargo:rerun-if-changed={}", folder.join("liboutlets_c.a").display());
}
