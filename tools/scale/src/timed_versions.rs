//! Times check and rewrite on the same functions in both versions, and widening and narrowing beside the plain conversion, which reads each
//! instruction once and tests nothing; and beside check with it, ours and, of the record in version 1, the hand port's, where it is there.

use crate::bench::{calls, line, rounds, turn};
use crate::clock::{middles_of, Turn};
use crate::conversions;
use crate::handport::{hand_port, HandPort};
use crate::one::hex;
use crate::plain;
use crate::rows::{rows_of_both, Row};
use std::hint::black_box;

/// Times of one version, ns for an instruction; a conversion is into the other version.
struct Times {
    check: f64,
    rewrite: f64,
    convert: f64,
    plain: f64,
}

/// A turn over a row with an output that suffices.
fn writing<'a, A>(row: &'a Row, call: impl Fn(&[u8], &mut [u8]) -> A + 'a) -> Turn<'a> {
    let mut out = vec![0; 8 * row.records.iter().map(Vec::len).max().unwrap_or(0)];
    Box::new(turn(row, move |_, record| {
        black_box(call(record, &mut out));
    }))
}

/// The turns of a row in its version.
fn turns(row: &Row) -> [Turn<'_>; 4] {
    [
        writing(row, |record, _| lvn::check(record).is_ok()),
        writing(row, |record, out| lvn::rewrite(record, out).is_ok()),
        writing(row, |record, out| conversions::convert(record, plain::other(record), out)),
        writing(row, |record, out| plain::convert(record, plain::other(record), out).is_ok()),
    ]
}

fn instructions(row: &Row) -> f64 {
    row.instructions as f64 / row.records.len() as f64
}

/// The times of both versions, all of which alternate.
fn times(narrow: &Row, wide: &Row, seconds: u64) -> [Times; 2] {
    let mut all: Vec<Turn> = turns(narrow).into_iter().chain(turns(wide)).collect();
    let found = middles_of(seconds, &mut all);
    [(narrow, &found[..4]), (wide, &found[4..])].map(|(row, found)| {
        let each = |n: usize| found[n] / calls(row) / instructions(row);
        Times { check: each(0), rewrite: each(1), convert: each(2), plain: each(3) }
    })
}

/// Whether the library converts a record of version 1, there and back, as the plain conversion, and rewrites it alike in both versions.
fn agrees(record: &[u8], wide: &[u8]) -> bool {
    let converts = |from: &[u8], to: &[u8]| {
        let mut out = vec![0; 2 * to.len()];
        conversions::convert(from, to[4], &mut out) == (0, to.len()) && out[..to.len()] == *to
    };
    let alike = || {
        let (one, two) = (lvn::rewriting(record).ok()?, lvn::rewriting(wide).ok()?);
        Some(plain::converted(&one.0, 2) == Ok(two.0) && one.1 == two.1)
    };
    converts(record, wide) && converts(wide, record) && alike() == Some(true)
}

fn ns(x: f64) -> String {
    format!("{x:.1}")
}

fn ratio(x: f64) -> String {
    format!("{x:.2}")
}

fn table(what: &str, heads: &str) {
    println!("{what}");
    let cells: Vec<String> = heads.split(", ").map(str::to_string).collect();
    line(&cells);
    println!("|{}", "---|".repeat(cells.len()));
}

fn size(row: &Row) -> String {
    format!("{:.0}", row.records.iter().map(Vec::len).sum::<usize>() as f64 / row.records.len() as f64)
}

/// Check and rewrite in both versions.
fn print_versions(timed: &[(Row, Row, [Times; 2])]) {
    table(
        "both versions: ns for an instruction; a ratio is the time in version 2 over that in version 1",
        "record, instructions, bytes in version 1, in version 2, check 1, check 2, ratio, rewrite 1, rewrite 2, ratio",
    );
    for (narrow, wide, [one, two]) in timed {
        line(&[
            narrow.name.clone(),
            format!("{:.0}", instructions(narrow)),
            size(narrow),
            size(wide),
            ns(one.check),
            ns(two.check),
            ratio(two.check / one.check),
            ns(one.rewrite),
            ns(two.rewrite),
            ratio(two.rewrite / one.rewrite),
        ]);
    }
}

/// The conversions beside the plain one: whole, without check, and beside it with a check of the record, ours or the hand port's.
fn print_conversions(timed: &[(Row, Row, [Times; 2])], seconds: u64, hand: Option<&HandPort>) {
    table(
        "conversions: ns for an instruction, and our time over that of the copy, which tests nothing, and of a check and the copy",
        "record, into, check, hand port's check, copy, conversion, over the copy, less check, over check and copy, over the hand port's check and copy",
    );
    for (row, _, times) in timed {
        let check = hand.filter(|_| !row.phis).map(|hand| {
            rounds(row, seconds, |_, r| {
                black_box((hand.check)(r).is_ok());
            }) / instructions(row)
        });
        for (t, into) in times.iter().zip([2, 1]) {
            line(&[
                row.name.clone(),
                format!("version {into}"),
                ns(t.check),
                check.map_or("-".to_string(), ns),
                ns(t.plain),
                ns(t.convert),
                ratio(t.convert / t.plain),
                ratio((t.convert - t.check) / t.plain),
                ratio(t.convert / (t.check + t.plain)),
                check.map_or("-".to_string(), |check| ratio(t.convert / (check + t.plain))),
            ]);
        }
    }
}

/// Times all rows; whether the library writes what it is to.
pub fn run(seed: u64, seconds: u64) -> bool {
    let mut timed = vec![];
    for row in rows_of_both(seed) {
        let wide = row.wide();
        if let Some((record, _)) = row.records.iter().zip(&wide.records).find(|(one, two)| !agrees(one, two)) {
            println!("{}: not alike in both versions\n{}", row.name, hex(record));
            return false;
        }
        let times = times(&row, &wide, seconds);
        timed.push((row, wide, times));
    }
    print_versions(&timed);
    print_conversions(&timed, seconds, hand_port().as_ref());
    true
}
