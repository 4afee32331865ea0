//! Builds the hand port in OUT_DIR by its own Makefile, and sets cfg(handport), where its folder is there: HANDPORT, or
//! ../shared/handport from the repository's top. Where it is not, the driver is built without it.

use std::{env, fs, path::PathBuf, process::Command};

fn main() {
    let var = |name| PathBuf::from(env::var_os(name).unwrap());
    let default = var("CARGO_MANIFEST_DIR").join("../../../shared/handport");
    let folder = env::var_os("HANDPORT").map_or(default, PathBuf::from);
    let out = var("OUT_DIR");
    println!("cargo:rustc-check-cfg=cfg(handport)");
    println!("cargo:rerun-if-env-changed=HANDPORT");
    println!("cargo:rerun-if-changed={}", folder.join("handport.c").display());
    if !folder.join("handport.c").is_file() {
        return;
    }
    for file in ["Makefile", "handport.c", "handport.h"] {
        let text = fs::read(folder.join(file)).unwrap_or_else(|e| panic!("{}: {e}", folder.join(file).display()));
        fs::write(out.join(file), text).unwrap();
    }
    let made = Command::new("make").arg("handport.o").current_dir(&out).status();
    assert!(
        made.is_ok_and(|status| status.success()),
        "make and gcc build the hand port; with HANDPORT= it is left out"
    );
    println!("cargo:rustc-link-arg-bins={}", out.join("handport.o").display());
    println!("cargo:rustc-cfg=handport");
}
