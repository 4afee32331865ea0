//! Holds the static library to the Rust, altered as document 02's Point 2 says,
//! to a second reading of document 01, for runs to a plain interpreter, and for
//! widening and narrowing to a plain conversion, on generated records; and times
//! it beside the Rust, the hand port, that interpreter and that conversion.

mod bench;
mod clock;
mod compare;
mod conversions;
mod cut;
mod damage;
mod engine;
mod figures;
mod function;
mod generate;
mod guarded;
mod handport;
mod house;
mod interpret;
mod number;
mod one;
mod phis;
mod plain;
mod profiles;
mod rng;
mod rows;
mod runs;
mod second;
mod small;
mod timed_runs;
mod timed_versions;
mod unaltered;
mod versions;
mod worlds;

use std::io::{self, Read};
use std::{env, panic, process::ExitCode};

const USAGE: &str = "usage:
  scale compare [--seed S] [--count N | --seconds T]   compares generated records: N functions, or T seconds (60)
  scale runs [--seed S] [--count N]                    compares N runs (200000) of generated functions, as compare does at its end
  scale one                                            compares the records on standard input, one in hex per line
  scale bench [--seed S] [--seconds T]                 times rewrite beside others: T seconds (1) for each figure
  scale bench-versions [--seed S] [--seconds T]        times check, rewrite and the conversions in both versions, as bench does before its end
  scale bench-runs [--seconds T]                       times runs alone, as bench does at its end
S is 1 if not given. The status is 0 if all is the same, 1 if something differs, 2 for a wrong argument or input.";

/// How many runs are compared where no count is given.
const RUNS: u64 = 200_000;

/// What was given wrong.
enum Wrong {
    Argument(String),
    Input(String),
}

struct Arguments {
    seed: u64,
    count: Option<u64>,
    seconds: Option<u64>,
}

fn arguments(words: &[String], known: &[&str]) -> Result<Arguments, Wrong> {
    let mut found = Arguments { seed: 1, count: None, seconds: None };
    for pair in words.chunks(2) {
        let wrong = |what: &str| Wrong::Argument(format!("{} {what}", pair.join(" ")));
        if !known.contains(&pair[0].as_str()) {
            return Err(wrong("is no argument here"));
        }
        let text = pair.get(1).ok_or_else(|| wrong("needs a number"))?;
        let number = text.parse().map_err(|_| wrong("is no number"))?;
        match pair[0].as_str() {
            "--seed" => found.seed = number,
            "--count" => found.count = Some(number),
            _ => found.seconds = Some(number),
        }
    }
    if found.count.is_some() && found.seconds.is_some() {
        return Err(Wrong::Argument("--count and --seconds exclude each other".to_string()));
    }
    Ok(found)
}

/// The bytes of a line in hex, or the column of what is none.
fn from_hex(line: &str) -> Result<Vec<u8>, String> {
    let digit = |(at, d): (usize, char)| d.to_digit(16).ok_or(format!("column {}: {d:?} is no hex digit", at + 1));
    let digits = line.chars().enumerate().map(digit).collect::<Result<Vec<u32>, String>>()?;
    if digits.len() % 2 == 1 {
        return Err(format!("column {}: half a byte", digits.len()));
    }
    Ok(digits.chunks(2).map(|p| (p[0] * 16 + p[1]) as u8).collect())
}

/// Compares the records of standard input; whether nothing differs.
fn given() -> Result<bool, Wrong> {
    let mut text = String::new();
    io::stdin().read_to_string(&mut text).map_err(|e| Wrong::Input(format!("standard input: {e}")))?;
    let mut all = true;
    for (n, line) in text.lines().enumerate() {
        let at_line = |e| Wrong::Input(format!("standard input, line {}, {e}", n + 1));
        let bytes = from_hex(line.trim()).map_err(at_line)?;
        let answer = match one::compare(&bytes, &mut one::Lent::new()) {
            Ok(one::Same::Rewritten(bytes, saves)) => format!("the same, {bytes} bytes, {saves} saves"),
            Ok(one::Same::Panics(_)) => "the same up to the division on which the Rust panics, and as the second reading".to_string(),
            Ok(one::Same::Refused(number)) => format!("refused {number} by both"),
            Err(what) => {
                all = false;
                format!("differs: {what}")
            }
        };
        println!("line {}: {answer}", n + 1);
    }
    Ok(all)
}

fn run(words: &[String]) -> Result<bool, Wrong> {
    let (command, rest) = words.split_first().ok_or(Wrong::Argument("no command".to_string()))?;
    match command.as_str() {
        "compare" => {
            let a = arguments(rest, &["--seed", "--count", "--seconds"])?;
            let seconds = a.seconds.unwrap_or(60);
            let same = compare::run(&compare::Options { seed: a.seed, count: a.count, seconds });
            Ok(runs::run(a.seed, RUNS) && same)
        }
        "runs" => {
            let a = arguments(rest, &["--seed", "--count"])?;
            Ok(runs::run(a.seed, a.count.unwrap_or(RUNS)))
        }
        "one" => {
            arguments(rest, &[])?;
            given()
        }
        "bench" => {
            let a = arguments(rest, &["--seed", "--seconds"])?;
            Ok(bench::run(a.seed, a.seconds.unwrap_or(1)))
        }
        "bench-versions" => {
            let a = arguments(rest, &["--seed", "--seconds"])?;
            Ok(timed_versions::run(a.seed, a.seconds.unwrap_or(1)))
        }
        "bench-runs" => {
            let a = arguments(rest, &["--seconds"])?;
            Ok(timed_runs::run(a.seconds.unwrap_or(1)))
        }
        other => Err(Wrong::Argument(format!("unknown command {other}"))),
    }
}

fn main() -> ExitCode {
    panic::set_hook(Box::new(|info| {
        // The Rust panics on a constant division; anything else is a fault of ours.
        let of_rust = |file: &str| file.ends_with("source.rs") || file.ends_with("altered.rs");
        if !info.location().is_some_and(|l| of_rust(l.file())) {
            eprintln!("{info}");
        }
    }));
    let words: Vec<String> = env::args().skip(1).collect();
    match run(&words) {
        Ok(true) => ExitCode::SUCCESS,
        Ok(false) => ExitCode::FAILURE,
        Err(Wrong::Argument(what)) => {
            eprintln!("scale: {what}\n{USAGE}");
            ExitCode::from(2)
        }
        Err(Wrong::Input(what)) => {
            eprintln!("scale: {what}");
            ExitCode::from(2)
        }
    }
}
