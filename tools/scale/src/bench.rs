//! Times check, rewrite and figures, the altered Rust's `lvn`, alone and with decoding and encoding, and the hand port where
//! it is there, on the same records in one run; then both versions, and the engine.

use crate::clock::{middle, middles, now};
use crate::cut;
use crate::handport::{hand_port, HandPort};
use crate::one::{self, hex, Lent};
use crate::rows::{rows, Row};
use crate::{timed_runs, timed_versions};
use lvn::{Unwritten, Written};
use oracle::{reader, writer, Rust};
use std::hint::black_box;

/// How often a row is repeated between two looks at the clock.
fn repeats(row: &Row) -> usize {
    (32_000 / row.records.iter().map(Vec::len).sum::<usize>()).max(1)
}

/// How many calls there are between two looks at the clock.
pub fn calls(row: &Row) -> f64 {
    (repeats(row) * row.records.len()) as f64
}

/// A turn: a call for each record of a row, repeated.
pub fn turn<'a>(row: &'a Row, mut call: impl FnMut(usize, &[u8]) + 'a) -> impl FnMut() -> i64 + 'a {
    move || {
        let start = now();
        for _ in 0..repeats(row) {
            row.records.iter().enumerate().for_each(|(n, r)| call(n, black_box(r)));
        }
        now() - start
    }
}

/// The middle time of a call over all records of a row, for one record.
pub fn rounds(row: &Row, seconds: u64, call: impl FnMut(usize, &[u8])) -> f64 {
    middle(seconds, turn(row, call)) / calls(row)
}

/// The Rust's pass alone: what it takes is made ready before the time starts.
fn rust_alone(row: &Row, seconds: u64) -> f64 {
    let repeats = repeats(row);
    let mut decoded: Vec<_> = row.records.iter().map(|r| reader::read(r).unwrap()).collect();
    let ready: Vec<_> = decoded.iter_mut().map(oracle::graph).collect();
    let turn = || {
        let mut work: Vec<_> = (0..repeats).flat_map(|_| ready.iter().cloned().zip(&decoded)).collect();
        let mut done = Vec::with_capacity(work.len());
        let start = now();
        done.extend(work.drain(..).map(|(graph, record)| oracle::lvn(Rust::Altered, graph, record)));
        let time = now() - start;
        black_box(done);
        time
    };
    middle(seconds, turn) / calls(row)
}

fn rust_whole(rust: Rust, bytes: &[u8]) -> Vec<u8> {
    let mut record = reader::read(bytes).unwrap();
    let graph = oracle::lvn(rust, oracle::graph(&mut record), &record);
    oracle::put_back(graph, &mut record);
    writer::write(&record).unwrap()
}

/// How many bytes an output has.
#[derive(Clone, Copy)]
enum Output {
    /// Eight for each of the input, which always suffice: the blocks are numbered once.
    Ample,
    /// As many as are needed: the blocks are numbered twice.
    Exact,
    /// One too few: refusal 9.
    Short,
}

impl Output {
    fn size(self, record: usize, needed: usize) -> usize {
        match self {
            Output::Ample => 8 * record,
            Output::Exact => needed,
            Output::Short => needed - 1,
        }
    }

    fn behind_name(self) -> &'static str {
        match self {
            Output::Ample => "",
            Output::Exact => ", exact output",
            Output::Short => ", too short",
        }
    }
}

/// The bytes that each record of a row needs: here, and by the unaltered Rust, to which the hand port is held.
struct Needed {
    here: Vec<usize>,
    unaltered: Vec<usize>,
}

impl Needed {
    /// The sizes of such outputs for the library, or for the hand port.
    fn sizes(&self, row: &Row, output: Output, hand: bool) -> Vec<usize> {
        let needed = if hand { &self.unaltered } else { &self.here };
        row.records.iter().zip(needed).map(|(r, n)| output.size(r.len(), *n)).collect()
    }
}

/// Whether the hand port answers and writes as the unaltered Rust does, whose rewriting this is.
fn hand_port_agrees(hand: &HandPort, record: &[u8], rewriting: &[u8]) -> bool {
    let bytes = rewriting.len();
    let saves = one::name_count(rewriting) - one::name_count(record);
    [Output::Ample, Output::Exact, Output::Short].into_iter().all(|output| {
        let mut out = vec![0xA5; output.size(record.len(), bytes)];
        let answer = (hand.rewrite)(record, &mut out);
        match output {
            Output::Short => answer == Err(Unwritten::Room(bytes)) && out.iter().all(|b| *b == 0xA5),
            _ => answer == Ok(Written { bytes, saves }) && out[..bytes] == *rewriting,
        }
    }) && (hand.check)(record).is_ok()
}

/// The bytes that each record of a row needs, if the library writes as the altered Rust and the hand port as the unaltered.
fn needed(row: &Row, hand: Option<&HandPort>) -> Result<Needed, String> {
    let mut lent = Lent::new();
    let mut found = Needed { here: vec![], unaltered: vec![] };
    for record in &row.records {
        let differs = |what: &str| format!("{}: {what}\n{}", row.name, hex(record));
        let one::Same::Rewritten(bytes, _) = one::compare(record, &mut lent).map_err(|e| differs(&e))? else {
            return Err(differs("not rewritten by the Rust"));
        };
        let unaltered = rust_whole(Rust::Unaltered, record);
        if hand.is_some_and(|hand| !hand_port_agrees(hand, record, &unaltered)) {
            return Err(differs("the hand port differs"));
        }
        found.here.push(bytes);
        found.unaltered.push(unaltered.len());
    }
    Ok(found)
}

/// The time of rewrite, the library's or the hand port's, with such outputs.
fn rewriting_time(
    row: &Row,
    seconds: u64,
    sizes: &[usize],
    rewrite: impl Fn(&[u8], &mut [u8]) -> Result<Written, Unwritten>,
) -> f64 {
    let mut out = vec![0; sizes.iter().copied().max().unwrap_or(0)];
    rounds(row, seconds, |n, record| {
        black_box(rewrite(record, &mut out[..sizes[n]]).is_ok());
    })
}

/// The times of rewrite, with an output that always suffices, and of figures, with as many places as blocks.
fn rewrite_and_figures(row: &Row, seconds: u64) -> (f64, f64) {
    let size = |r: &Vec<u8>| Output::Ample.size(r.len(), 0);
    let mut out = vec![0; row.records.iter().map(size).max().unwrap_or(0)];
    let blocks: Vec<usize> = row.records.iter().map(|r| cut::counts(r).len()).collect();
    let mut each = vec![0; blocks.iter().copied().max().unwrap_or(0)];
    let rewrite = turn(row, |n, record| {
        black_box(lvn::rewrite(record, &mut out[..size(&row.records[n])]).is_ok());
    });
    let figures = turn(row, |n, record| {
        black_box(lvn::figures(record, &mut each[..blocks[n]]).is_ok());
    });
    let (rewrite, figures) = middles(seconds, rewrite, figures);
    (rewrite / calls(row), figures / calls(row))
}

/// Times of a row, ns for a record; only that of rewrite, here with an output that always suffices, is another for other outputs.
struct Times {
    check: f64,
    rewrite: f64,
    figures: f64,
    rust: f64,
    rust_whole: f64,
    hand_check: Option<f64>,
}

/// A line of the table.
pub fn line(cells: &[String]) {
    println!("| {} |", cells.join(" | "));
}

fn head(with_hand_port: bool) {
    println!("ns for a record and for an instruction; a ratio is the other's time over ours");
    let ours = "record, bytes, instructions, check, rewrite, per instr., figures";
    let rust = "Rust, per instr., ratio, Rust bytes to bytes, ratio";
    let hand = if with_hand_port { ", hand port's check, ratio, its rewrite, ratio" } else { "" };
    let cells: Vec<String> = format!("{ours}, {rust}{hand}").split(", ").map(str::to_string).collect();
    line(&cells);
    println!("|{}", "---|".repeat(cells.len()));
}

/// Times rewrite with such an output, where it is not timed yet, and prints the line.
fn print_line(
    row: &Row,
    seconds: u64,
    needed: &Needed,
    output: Output,
    times: &Times,
    hand: Option<&HandPort>,
) {
    let ours = match output {
        Output::Ample => times.rewrite,
        _ => rewriting_time(row, seconds, &needed.sizes(row, output, false), lvn::rewrite),
    };
    let records = row.records.len() as f64;
    let instructions = row.instructions as f64 / records;
    let whole = |x: f64| format!("{x:.0}");
    let ratio = |x: f64| if x < 0.1 { format!("{x:.4}") } else { format!("{x:.2}") };
    let each = |x: f64| if row.instructions == 0 { "-".to_string() } else { format!("{:.1}", x / instructions) };
    let mut cells = vec![
        format!("{}{}", row.name, output.behind_name()),
        whole(row.records.iter().map(Vec::len).sum::<usize>() as f64 / records),
        whole(instructions),
        whole(times.check),
        whole(ours),
        each(ours),
        whole(times.figures),
        whole(times.rust),
        each(times.rust),
        ratio(times.rust / ours),
        whole(times.rust_whole),
        ratio(times.rust_whole / ours),
    ];
    match (hand, times.hand_check) {
        (Some(hand), Some(check)) => {
            let rewrite = rewriting_time(row, seconds, &needed.sizes(row, output, true), hand.rewrite);
            cells.extend([whole(check), ratio(check / times.check), whole(rewrite), ratio(rewrite / ours)]);
        }
        (Some(_), None) => cells.extend(["-"; 4].map(str::to_string)),
        _ => {}
    }
    line(&cells);
}

fn times(row: &Row, seconds: u64, hand: Option<&HandPort>) -> Times {
    let (rewrite, figures) = rewrite_and_figures(row, seconds);
    Times {
        rewrite,
        figures,
        check: rounds(row, seconds, |_, r| {
            black_box(lvn::check(r).is_ok());
        }),
        rust: rust_alone(row, seconds),
        rust_whole: rounds(row, seconds, |_, r| {
            black_box(rust_whole(Rust::Altered, r));
        }),
        hand_check: hand.map(|hand| {
            rounds(row, seconds, |_, r| {
                black_box((hand.check)(r).is_ok());
            })
        }),
    }
}

/// Times all rows; whether all sides write what they are to.
pub fn run(seed: u64, seconds: u64) -> bool {
    let hand = hand_port();
    let hand = hand.as_ref();
    head(hand.is_some());
    let (mut growth, mut figures) = (vec![], vec![]);
    for row in rows(seed) {
        let known = hand.filter(|_| !row.phis);
        let needed = match needed(&row, known) {
            Ok(needed) => needed,
            Err(what) => {
                println!("{what}");
                return false;
            }
        };
        let times = times(&row, seconds, known);
        print_line(&row, seconds, &needed, Output::Ample, &times, hand);
        if row.tight {
            print_line(&row, seconds, &needed, Output::Exact, &times, hand);
            print_line(&row, seconds, &needed, Output::Short, &times, hand);
        }
        figures.push((times.figures / times.rewrite, row.name.clone()));
        if row.name.starts_with("16 blocks") {
            growth.push((times.rewrite / row.instructions as f64, times.rust / row.instructions as f64));
        }
    }
    let (first, last) = (growth[0], growth[growth.len() - 1]);
    println!(
        "time per instruction from blocks of 16 to blocks of 256: {:.2} times, the Rust {:.2} times",
        last.0 / first.0,
        last.1 / first.1
    );
    print_figures(&figures);
    timed_versions::run(seed, seconds) && timed_runs::run(seconds)
}

/// What figures takes beside rewrite with a long output, where most; and the rows in which it takes longer, by a hundredth at least.
fn print_figures(ratios: &[(f64, String)]) {
    let longer: Vec<String> = ratios.iter().filter(|r| r.0 >= 1.005).map(|r| format!("{} ({:.2})", r.1, r.0)).collect();
    let (most, name) = ratios.iter().max_by(|a, b| a.0.total_cmp(&b.0)).expect("there are rows");
    println!("figures takes at most {most:.2} times as long as rewrite ({name})");
    if !longer.is_empty() {
        println!("figures takes longer than rewrite: {}", longer.join(", "));
    }
}
