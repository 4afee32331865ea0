//! Build script of bril-rs, cfg and oracle: links the one Rust source file
//! the crate stands for into OUT_DIR and writes a module declaration for it.
//! For oracle it writes the altered file beside it, a module of its own. The
//! sources are read where they stand, BRIL_SRC or ../shared/docs/src from the
//! repository's top.

use std::path::{Path, PathBuf};
use std::{env, fs, process};

/// Document 02's Point 2: lines of lvn/src/main.rs as they are, and as they are to be.
const ALTERATIONS: [(&str, &str); 2] =
    [("Value::Gt(a, b)", "Value::Lt(b, a)"), ("Value::Ge(a, b)", "Value::Le(b, a)")];

/// The source of a crate, and its submodules that are not at hand.
fn source(package: &str) -> (&'static str, &'static [(&'static str, &'static str)]) {
    match package {
        "bril-rs" => ("bril-rs/src/program.rs", &[]),
        "cfg" => (
            "cfg/src/lib.rs",
            &[("analysis", ""), ("cfg2src", "pub fn to_src() {}"), ("src2cfg", "")],
        ),
        _ => ("lvn/src/main.rs", &[]),
    }
}

fn stop(file: &Path, what: &str) -> ! {
    eprintln!("{}: {what}", file.display());
    process::exit(1)
}

/// The text of a file with the alterations; each line to be altered must occur once.
fn altered(file: &Path) -> String {
    let text = fs::read_to_string(file).unwrap_or_else(|e| stop(file, &e.to_string()));
    let mut lines: Vec<String> = text.lines().map(str::to_string).collect();
    for (is, to_be) in ALTERATIONS {
        let at: Vec<usize> = (0..lines.len()).filter(|n| lines[*n].trim() == is).collect();
        if at.len() != 1 {
            stop(file, &format!("the line `{is}`, to be altered, occurs {} times, not once", at.len()));
        }
        lines[at[0]] = lines[at[0]].replace(is, to_be);
    }
    lines.join("\n") + "\n"
}

/// The declaration of a module that stands in this file.
fn module(name: &str, file: &Path) -> String {
    format!("#[allow(warnings)]\n#[path = {file:?}]\npub mod {name};\n")
}

fn main() {
    let var = |name| PathBuf::from(env::var_os(name).unwrap());
    let default = var("CARGO_MANIFEST_DIR").join("../../../../shared/docs/src");
    let top = env::var_os("BRIL_SRC").map_or(default, PathBuf::from);
    let package = env::var("CARGO_PKG_NAME").unwrap();
    let (path, missing) = source(&package);
    let unset = |e| format!("{e}; set BRIL_SRC to the directory of the sources");
    let file = top.join(path).canonicalize().unwrap_or_else(|e| stop(&top.join(path), &unset(e)));

    let out = var("OUT_DIR");
    let link = out.join("source.rs");
    let _ = fs::remove_file(&link);
    std::os::unix::fs::symlink(&file, &link).unwrap();
    for (module, text) in missing {
        fs::write(out.join(module).with_extension("rs"), text).unwrap();
    }
    let mut wrapper = module("source", &link);
    if package == "oracle" {
        let other = out.join("altered.rs");
        fs::write(&other, altered(&file)).unwrap();
        wrapper += &module("altered", &other);
    }
    fs::write(out.join("wrapper.rs"), wrapper).unwrap();

    println!("cargo:rerun-if-env-changed=BRIL_SRC");
    println!("cargo:rerun-if-changed={}", file.display());
    println!("cargo:rerun-if-changed=../build.rs");
}
