//! Lays out the crate's tree: the original's files where they lie, by links, and ours in the places of those that are missing.

use std::path::Path;
use std::{env, fs};

/// The files of the original that are built, unchanged.
const ORIGINALS: [&str; 12] = [
    "backend.rs",
    "deserialize.rs",
    "result.rs",
    "sql_types/mod.rs",
    "mysql/backend.rs",
    "mysql/value.rs",
    "mysql/types/primitives.rs",
    "mysql/types/date_and_time/mod.rs",
    "mysql/connection/bind.rs",
    "mysql/connection/raw.rs",
    "mysql/connection/stmt/mod.rs",
    "mysql/connection/stmt/metadata.rs",
];

fn main() {
    println!("cargo:rerun-if-env-changed=DIESEL_SRC");
    println!("cargo:rerun-if-changed=shims");
    let Ok(source) = env::var("DIESEL_SRC") else {
        panic!("set DIESEL_SRC to the folder src of the crate diesel 2.3.14");
    };
    let source = fs::canonicalize(source).expect("DIESEL_SRC names a folder");
    let tree = Path::new(&env::var("OUT_DIR").unwrap()).join("tree");
    let _ = fs::remove_dir_all(&tree);
    for name in ORIGINALS {
        let file = source.join(name);
        println!("cargo:rerun-if-changed={}", file.display());
        link(&file, &tree.join(name));
    }
    let shims = fs::canonicalize("shims").unwrap();
    link_all(&shims, &tree);
    println!("cargo:rerun-if-env-changed=CLIENT_LIBRARY");
    if let (Ok(library), true) = (env::var("CLIENT_LIBRARY"), env::var_os("CARGO_FEATURE_REAL").is_some()) {
        println!("cargo:rustc-link-arg-bins=-Wl,--allow-shlib-undefined");
        println!("cargo:rustc-link-arg-bins={library}");
    }
}

/// Links every file of a folder and of the folders in it.
fn link_all(from: &Path, to: &Path) {
    for entry in fs::read_dir(from).unwrap() {
        let entry = entry.unwrap();
        let target = to.join(entry.file_name());
        if entry.file_type().unwrap().is_dir() {
            link_all(&entry.path(), &target);
        } else {
            link(&entry.path(), &target);
        }
    }
}

fn link(file: &Path, at: &Path) {
    assert!(file.is_file(), "{} is missing", file.display());
    assert!(!at.exists(), "{} stands there already", at.display());
    fs::create_dir_all(at.parent().unwrap()).unwrap();
    std::os::unix::fs::symlink(file, at).unwrap();
}
