//! Standard input: a record in hex per line, a label and a space before it if
//! wanted. Standard output: the same line with the rewriting in hex behind it,
//! or `panic` if the Rust panicked, or `bad` if the record could not be read.
//! The Rust is the altered one, with `--unaltered` the unaltered one.

use oracle::{Answer, Rust};
use std::{env, io, panic, process};

fn from_hex(text: &str) -> Option<Vec<u8>> {
    let digits = text.as_bytes();
    if digits.len() % 2 != 0 {
        return None;
    }
    let digit = |d: u8| char::from(d).to_digit(16);
    digits.chunks(2).map(|p| Some((digit(p[0])? * 16 + digit(p[1])?) as u8)).collect()
}

fn to_hex(bytes: &[u8]) -> String {
    bytes.iter().map(|b| format!("{b:02x}")).collect()
}

fn answer(rust: Rust, hex: &str) -> String {
    match from_hex(hex).map_or(Answer::Bad, |bytes| oracle::rewrite(rust, &bytes)) {
        Answer::Rewriting(bytes) => to_hex(&bytes),
        Answer::Panic => "panic".to_string(),
        Answer::Bad => "bad".to_string(),
    }
}

/// The Rust that the arguments name.
fn rust() -> Rust {
    let mut words = env::args().skip(1);
    match (words.next().as_deref(), words.next()) {
        (None, _) => Rust::Altered,
        (Some("--unaltered"), None) => Rust::Unaltered,
        _ => {
            eprintln!("usage: oracle [--unaltered] < records");
            process::exit(2)
        }
    }
}

fn main() {
    let rust = rust();
    panic::set_hook(Box::new(|_| {}));
    for line in io::stdin().lines() {
        let line = line.expect("standard input");
        let line = line.trim();
        if let Some(hex) = line.split(' ').next_back().filter(|hex| !hex.is_empty()) {
            println!("{line} {}", answer(rust, hex));
        }
    }
}
