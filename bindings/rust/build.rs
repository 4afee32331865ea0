//! Links the static library that `rt lib` makes in crates/exports, from
//! crates/exports/out or from LVN_LIB_DIR.

use std::{env, path::PathBuf};

fn main() {
    let top = PathBuf::from(env::var_os("CARGO_MANIFEST_DIR").unwrap()).join("../..");
    let dir = env::var_os("LVN_LIB_DIR").map_or(top.join("crates/exports/out"), PathBuf::from);
    let file = dir.join("libexports.a");
    if !file.is_file() {
        eprintln!("{}: not there; run `rt lib` in crates/exports, or set LVN_LIB_DIR", file.display());
        std::process::exit(1);
    }
    println!("cargo:rustc-link-search=native={}", dir.display());
    println!("cargo:rustc-link-lib=static=exports");
    println!("cargo:rerun-if-env-changed=LVN_LIB_DIR");
    println!("cargo:rerun-if-changed={}", file.display());
}
