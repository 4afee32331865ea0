//! The comparison at scale: two functions that make every K, small functions of
//! every kind, random ones, and damaged copies, until a count or a time is reached.

use crate::damage::damaged;
use crate::function::{Encoded, Function, CODES, WIDE};
use crate::generate::Generator;
use crate::one::{self, hex, Division, Lent, Same};
use crate::versions::Versions;
use crate::{rows, small};
use std::time::{Duration, Instant};

/// How many small functions come before each random one, until all are compared.
const SMALL: usize = 24;

pub struct Options {
    pub seed: u64,
    pub count: Option<u64>,
    pub seconds: u64,
}

/// The largest of each size that was compared.
#[derive(Default)]
struct Largest {
    args: usize,
    names: usize,
    text: usize,
    blocks: usize,
    body: usize,
    record: usize,
    rewriting: usize,
}

/// Functions on which the Rust panics, first in a division by 0 or of -2^63
/// by -1, and the instructions behind.
#[derive(Default)]
struct Panics {
    by_zero: u64,
    of_least: u64,
    behind_zero: u64,
    behind_least: u64,
}

impl Panics {
    fn count(&mut self, d: &Division) {
        let (functions, behind) = match d.by_zero {
            true => (&mut self.by_zero, &mut self.behind_zero),
            false => (&mut self.of_least, &mut self.behind_least),
        };
        *functions += 1;
        *behind += d.behind as u64;
    }
}

/// Small functions of one kind: those that are left, and how many are compared.
struct Family {
    what: &'static str,
    left: Box<dyn Iterator<Item = Function>>,
    compared: u64,
    all: bool,
}

impl Family {
    fn new(what: &'static str, left: impl Iterator<Item = Function> + 'static) -> Self {
        Family { what, left: Box::new(left), compared: 0, all: false }
    }

    /// The next one; once there is none, all are compared.
    fn next(&mut self) -> Option<Function> {
        let next = self.left.next();
        self.all = next.is_none();
        next
    }
}

fn families() -> Vec<Family> {
    vec![
        Family::new("blocks of up to three comparisons, consts, ids and prints", small::comparisons()),
        Family::new("blocks of two consts and up to three divisions, ids and prints", small::divisions()),
        Family::new("pairs of blocks of up to three phis, consts, ids and prints", small::phis()),
        Family::new("blocks of up to three instructions over two names", small::of_two_names()),
    ]
}

#[derive(Default)]
struct Tally {
    every_k: u64,
    small: Vec<Family>,
    random: u64,
    /// Functions of version 2 with all ids below 2^32, and the others.
    narrow: u64,
    wide: u64,
    /// Their ids of 2^32-1, of 2^32, of 2^64-1, and others above 2^32.
    ids: [u64; 4],
    /// Damaged copies that are accepted all the same.
    still_accepted: u64,
    panics: Panics,
    refused: [u64; 9],
    saves: u64,
    codes: Vec<u64>,
    largest: Largest,
    differ: u64,
}

impl Tally {
    fn accepted(&self) -> u64 {
        let small: u64 = self.small.iter().map(|family| family.compared).sum();
        self.every_k + small + self.random + self.still_accepted
    }

    /// Counts the version of a function, whether all its ids have room in version 1, and its ids at the edges.
    fn version(&mut self, f: &Function) {
        if !f.wide {
            return;
        }
        let ids = || f.blocks.iter().flatten().map(|i| i.id);
        *(if ids().any(|id| id >= WIDE) { &mut self.wide } else { &mut self.narrow }) += 1;
        for id in ids() {
            match id {
                u64::MAX => self.ids[2] += 1,
                WIDE => self.ids[1] += 1,
                _ if id == WIDE - 1 => self.ids[0] += 1,
                _ => self.ids[3] += u64::from(id > WIDE),
            }
        }
    }

    fn sizes(&mut self, f: &Function, record: usize) {
        let l = &mut self.largest;
        l.args = l.args.max(f.args.into());
        l.names = l.names.max(f.names.len());
        l.text = l.text.max(f.names.iter().map(|n| n.1.len()).max().unwrap_or(0));
        l.blocks = l.blocks.max(f.blocks.len());
        l.body = l.body.max(f.blocks.iter().map(Vec::len).max().unwrap_or(0));
        l.record = l.record.max(record);
        for i in f.blocks.iter().flatten() {
            self.codes[usize::from(i.code)] += 1;
        }
    }
}

struct Compare {
    tally: Tally,
    lent: Lent,
    smallest: Option<(Vec<u8>, String)>,
}

impl Compare {
    /// Compares one record; whether it is accepted and the same.
    fn record(&mut self, bytes: &[u8]) -> bool {
        match one::compare(bytes, &mut self.lent) {
            Ok(Same::Rewritten(length, saves)) => {
                self.tally.saves += saves as u64;
                self.tally.largest.rewriting = self.tally.largest.rewriting.max(length);
                true
            }
            Ok(Same::Panics(division)) => {
                self.tally.panics.count(&division);
                true
            }
            Ok(Same::Refused(number)) => {
                self.tally.refused[usize::from(number)] += 1;
                false
            }
            Err(what) => {
                self.tally.differ += 1;
                if self.smallest.as_ref().is_none_or(|(least, _)| bytes.len() < least.len()) {
                    self.smallest = Some((bytes.to_vec(), what));
                }
                false
            }
        }
    }

    fn function(&mut self, f: &Function, encoded: &mut Encoded) -> bool {
        encoded.fill(f);
        self.tally.sizes(f, encoded.bytes.len());
        self.tally.version(f);
        let refused: u64 = self.tally.refused.iter().sum();
        let same = self.record(&encoded.bytes);
        if self.tally.refused.iter().sum::<u64>() > refused {
            self.tally.differ += 1;
            self.smallest = Some((encoded.bytes.clone(), "made to be accepted, and refused".to_string()));
        }
        same
    }

    /// The next small function, of the first family of which not all are compared.
    fn small(&mut self, encoded: &mut Encoded) {
        for n in 0..self.tally.small.len() {
            if let Some(f) = self.tally.small[n].next() {
                self.tally.small[n].compared += u64::from(self.function(&f, encoded));
                return;
            }
        }
    }
}

/// Compares until the count or the time is reached; whether nothing differs.
pub fn run(options: &Options) -> bool {
    let start = Instant::now();
    let mut generator = Generator::new(options.seed);
    let tally = Tally { codes: vec![0; 72], small: families(), ..Tally::default() };
    let mut c = Compare { tally, lent: Lent::new(), smallest: None };
    let mut encoded = Encoded::default();
    let mut said = Duration::ZERO;
    let done = |tally: &Tally| match options.count {
        Some(count) => tally.accepted() >= count,
        None => start.elapsed() >= Duration::from_secs(options.seconds),
    };
    for f in [rows::saves(64), rows::phis_of_none(64)] {
        c.tally.every_k += u64::from(c.function(&f, &mut encoded));
    }
    while !done(&c.tally) {
        for _ in 0..SMALL {
            c.small(&mut encoded);
        }
        let f = generator.function();
        c.tally.random += u64::from(c.function(&f, &mut encoded));
        if encoded.bytes.len() < 20_000 {
            for _ in 0..2 {
                let copy = damaged(&encoded, generator.rng());
                c.tally.still_accepted += u64::from(c.record(&copy));
            }
        }
        if start.elapsed() > said + Duration::from_secs(5) {
            said = start.elapsed();
            progress(&c.tally, said);
        }
    }
    summary(&mut c, options, start.elapsed());
    c.tally.differ == 0
}

fn progress(t: &Tally, time: Duration) {
    let (seconds, accepted, refused) = (time.as_secs(), t.accepted(), t.refused.iter().sum::<u64>());
    eprintln!("{seconds} s: {accepted} functions, {refused} refusals, {} differ", t.differ);
}

fn versions(t: &Tally, v: &Versions) {
    let [last, first, most, others] = t.ids;
    println!("{} functions of version 2 with all ids below 2^32, {} with others; ids:", t.narrow, t.wide);
    println!("  2^32-1 {last} times, 2^32 {first} times, 2^64-1 {most} times, {others} others above 2^32");
    println!(
        "{} records widened and narrowed again, {} narrowed and widened again, each rewritten, counted and named alike in both;",
        v.widened, v.narrowed
    );
    println!(
        "  {} left as they are; refusals 15: {}, 9: {}, check's: {}; between guard bytes",
        v.unchanged, v.wide, v.short, v.refused
    );
}

fn summary(c: &mut Compare, options: &Options, time: Duration) {
    let (t, l) = (&c.tally, &c.tally.largest);
    println!("seed {}, {:.1} s", options.seed, time.as_secs_f64());
    println!("{} functions rewritten to the bytes of the second reading, and of the altered Rust where it gives any:", t.accepted());
    println!("  {} of 16384 saves, so with each K from 0 to 16383", t.every_k);
    for family in &t.small {
        println!("  {} {} ({}all of them)", family.compared, family.what, if family.all { "" } else { "not " });
    }
    println!("  {} random functions, {} damaged copies that are accepted", t.random, t.still_accepted);
    let n = &t.panics;
    println!("the Rust panics on a division in {} of these, which are the same up to it:", n.by_zero + n.of_least);
    println!("  {} by 0, which stays, with {} instructions behind;", n.by_zero, n.behind_zero);
    println!("  {} of -2^63 by -1, which is a const, with {} instructions behind:", n.of_least, n.behind_least);
    println!("  what is behind is by the second reading, and by the Rust on the function with the const in place of the division");
    println!("outputs one byte short, exact, longer and of eight times the input, between guard bytes; two name texts each");
    let (p, u, f) = (&c.lent.places, &c.lent.unaltered, &c.lent.phis);
    println!("{} functions with {} phis, {} with an argument replaced, {} behind a save", f.functions, f.phis, f.replaced, f.saved);
    println!("the unaltered Rust: {} functions without gt and ge, on which it answers the same;", u.without);
    println!("  {} with gt or ge, {} of which it writes otherwise, {} with more comparisons", u.with, u.otherwise, u.shared);
    println!("figures as in the rewriting: {} with as many places as blocks, {} with more;", p.exact, p.more);
    println!("  {} refusals 12 with fewer, {} refusals of check; between guard places", p.fewer, p.refused);
    versions(t, &c.lent.versions);
    println!("{} saves; instructions of each code, terminators last:", t.saves);
    let counts: Vec<String> =
        CODES.iter().map(|code| format!("{code}: {}", t.codes[usize::from(*code)])).collect();
    println!("  {}", counts.join(", "));
    println!(
        "largest: {} arguments, {} names, text {}, {} blocks of up to {}, record {}, rewriting {} bytes",
        l.args, l.names, l.text, l.blocks, l.body, l.record, l.rewriting
    );
    let refused: Vec<String> = (1..9).map(|n| format!("{n}: {}", t.refused[n])).collect();
    println!("refusals as by the second reading of document 01: {}", refused.join(", "));
    let (same, differ) = (t.accepted() + t.refused.iter().sum::<u64>(), t.differ);
    if let Some((record, _)) = c.smallest.take() {
        let least = one::shrink(&record, &mut c.lent);
        let what = one::compare(&least, &mut c.lent).err().unwrap_or_default();
        println!("smallest that differs:\n{}\n{what}", hex(&least));
    }
    println!("{same} the same, {differ} differ");
}
