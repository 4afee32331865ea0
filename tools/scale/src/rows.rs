//! The records that are timed: worked ones, random ones, ones that do little and ones made to be slow.

use crate::function::{encode, Function, Instr, INT, PHI};
use crate::generate::{Generator, Size};
use crate::plain;
use crate::rng::Rng;
use oracle::{Answer, Rust};

pub struct Row {
    pub name: String,
    pub records: Vec<Vec<u8>>,
    /// Instructions of all records.
    pub instructions: usize,
    /// Whether there is a phi, which the hand port does not know.
    pub phis: bool,
    /// Whether outputs that have just the bytes needed, and one too few, are timed too.
    pub tight: bool,
    /// Whether it is timed in both versions.
    pub both: bool,
}

impl Row {
    fn new(name: &str, functions: &[Function]) -> Row {
        Row {
            name: name.to_string(),
            records: functions.iter().map(encode).collect(),
            instructions: functions.iter().flat_map(|f| &f.blocks).map(Vec::len).sum(),
            phis: functions.iter().flat_map(|f| &f.blocks).flatten().any(|i| i.code == PHI),
            tight: false,
            both: false,
        }
    }

    fn both(self) -> Row {
        Row { both: true, ..self }
    }

    /// The same records in version 2.
    pub fn wide(&self) -> Row {
        let wide = |r: &Vec<u8>| plain::converted(r, 2).expect("version 2 has room for every id");
        Row { records: self.records.iter().map(wide).collect(), name: self.name.clone(), ..*self }
    }

    fn tight(self) -> Row {
        Row { tight: true, ..self }
    }
}

/// Names of distinct texts of a length of 4 or more.
fn names(count: usize, length: usize) -> Vec<(u8, Vec<u8>)> {
    (0..count).map(|n| (INT, format!("n{n:03}{}", "x".repeat(length - 4)).into_bytes())).collect()
}

fn add(id: usize, dest: u16, args: [u16; 2]) -> Instr {
    Instr { id: id as u64, code: 1, dest, args: args.to_vec(), ..Instr::default() }
}

fn effect(id: usize, code: u8, args: Vec<u16>) -> Instr {
    Instr { id: id as u64, code, args, ..Instr::default() }
}

/// Document 01's C1.
fn c1() -> Function {
    let names = ["a", "b", "x"].map(|text| (INT, text.as_bytes().to_vec())).to_vec();
    Function::new(2, names, vec![vec![add(7, 2, [0, 1]), add(8, 2, [1, 0])]])
}

/// Blocks of 256 sums, each over the home of its number, so that each makes a save.
pub fn saves(blocks: usize) -> Function {
    let names = ["a", "x"].map(|text| (INT, text.as_bytes().to_vec())).to_vec();
    let block: Vec<Instr> = (0..256).map(|n| add(n, 1, [1, 0])).collect();
    Function::new(2, names, vec![block; blocks])
}

/// Blocks of 256 phis of none into one argument, so that each makes a save: the rewriting has nearly eight bytes for each of
/// the record.
pub fn phis_of_none(blocks: usize) -> Function {
    let phi = |n| Instr { id: n, code: PHI, ..Instr::default() };
    Function::new(1, names(1, 32), vec![(0..256).map(phi).collect(); blocks])
}

/// 16 blocks of 256 phis of eight of the 16 arguments, each into an argument.
fn phis_of_eight() -> Function {
    let phi = |n: u16| Instr {
        id: n.into(),
        code: PHI,
        dest: n % 16,
        args: (n..n + 8).map(|k| k % 16).collect(),
        blocks: [0, 1, 2, 3, 4, 5, 6, 7],
        ..Instr::default()
    };
    Function::new(16, names(16, 8), vec![(0..256).map(phi).collect(); 16])
}

/// Blocks of sums, differences and products of random names, which have so many bytes of text.
fn random_ints(rng: &mut Rng, args: u8, count: usize, text: usize, blocks: usize, n: usize) -> Function {
    let mut block = || {
        let mut name = || rng.below(count) as u16;
        let mut sums: Vec<Instr> = (0..n).map(|id| add(id, name(), [name(), name()])).collect();
        for i in &mut sums {
            i.code = rng.pick(&[1, 1, 2, 3]);
        }
        sums
    };
    let blocks = (0..blocks).map(|_| block()).collect();
    Function::new(args, names(count, text), blocks)
}

/// Random functions that the Rust does not panic on.
fn many_small(seed: u64) -> Vec<Function> {
    let mut generator = Generator::new(seed);
    let small = Size { names: 6, args: 2, blocks: 2, body: 8, full: false };
    (0..2000)
        .map(|_| generator.of_size(&small))
        .filter(|f| matches!(oracle::rewrite(Rust::Altered, &encode(f)), Answer::Rewriting(_)))
        .collect()
}

/// 16 blocks of 256 nops.
fn nops() -> Function {
    let block: Vec<Instr> = (0..256).map(|id| effect(id, 69, vec![])).collect();
    Function::new(0, names(2, 4), vec![block; 16])
}

fn empty_blocks() -> Function {
    Function::new(0, vec![], vec![vec![]; 64])
}

/// 16 blocks in which all 256 names are printed, and so numbered, before the sum of the last two is made 224 times.
fn found_late() -> Function {
    let prints = (0..32).map(|id| effect(id, 68, (8 * id as u16..).take(8).collect()));
    let block: Vec<Instr> = prints.chain((0..224).map(|id| add(id, 0, [254, 255]))).collect();
    Function::new(0, names(256, 4), vec![block; 16])
}

/// 256 names to which check gives one mark, so that each is searched for among all before it.
fn one_mark() -> Function {
    let pair = |n: usize, bit: usize| if n >> bit & 1 == 0 { "az" } else { "bU" };
    let tail = |n| (0..8).rev().map(|bit| pair(n, bit)).collect::<String>();
    let names = (0..256).map(|n| (INT, ("x".repeat(16) + &tail(n)).into_bytes()));
    Function::new(0, names.collect(), vec![])
}

pub fn rows(seed: u64) -> Vec<Row> {
    let mut rng = Rng::new(seed);
    let mut all = vec![
        Row::new("C1", &[c1()]).tight().both(),
        Row::new("512 saves", &[saves(2)]).tight(),
        Row::new("64 blocks of 256", &[random_ints(&mut rng, 2, 64, 8, 64, 256)]).tight().both(),
        Row::new("256 names", &[random_ints(&mut rng, 2, 256, 32, 1, 256)]).tight(),
        Row::new("many small", &many_small(seed)).tight().both(),
        Row::new("4096 nops", &[nops()]).both(),
        Row::new("64 empty blocks", &[empty_blocks()]),
        Row::new("smallest", &[Function::default()]),
        Row::new("values found late", &[found_late()]),
        Row::new("256 names, one mark", &[one_mark()]),
        Row::new("4096 phis of 8", &[phis_of_eight()]).both(),
        Row::new("4096 phis of none, saved", &[phis_of_none(16)]),
    ];
    // Over arguments alone, so that nearly every instruction makes a save, whatever n is.
    for n in [16, 32, 64, 128, 256] {
        all.push(Row::new(&format!("16 blocks of {n}"), &[random_ints(&mut rng, 16, 16, 8, 16, n)]));
    }
    all
}

/// A record of 16 blocks of 256 of all codes but phi.
fn mixed(seed: u64) -> Row {
    let size = Size { names: 64, args: 4, blocks: 16, body: 256, full: true };
    Row::new("16 blocks of 256, mixed codes", &[Generator::new(seed).mixed(&size)])
}

/// The records that are timed in both versions.
pub fn rows_of_both(seed: u64) -> impl Iterator<Item = Row> {
    rows(seed).into_iter().filter(|row| row.both).chain([mixed(seed)])
}
