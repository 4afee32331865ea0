//! Every function of one block of up to three instructions: over two names, for
//! pairs of types, numbers of arguments and small literals; of comparisons; and
//! of divisions, behind two constants. Every function of two blocks of up to three
//! phis and others in all.

use crate::function::{Function, Instr, BOOL, CHAR, CODES, FLOAT, INT, PHI, POINTER};
use crate::second;

const PAIRS: [[u8; 2]; 11] = [
    [INT, INT],
    [INT, BOOL],
    [BOOL, BOOL],
    [FLOAT, INT],
    [FLOAT, FLOAT],
    [FLOAT, BOOL],
    [CHAR, INT],
    [CHAR, BOOL],
    [POINTER, INT],
    [POINTER, POINTER],
    [2 * POINTER, POINTER],
];

const MOST: usize = 3;

/// The literals tried, with their kinds.
fn literals(type_byte: u8) -> Vec<(u8, u64)> {
    match type_byte {
        INT => [0, 1, 2, -1].map(|i: i64| (INT, i as u64)).to_vec(),
        BOOL => vec![(BOOL, 0), (BOOL, 1)],
        FLOAT => vec![(INT, 0), (INT, 1), (FLOAT, 0), (FLOAT, 0x7FF8_0000_0000_0001)],
        CHAR => vec![(CHAR, 0x61)],
        _ => vec![],
    }
}

/// Every list of up to two of the two names.
fn arguments() -> Vec<Vec<u16>> {
    let mut lists = vec![vec![], vec![0], vec![1]];
    lists.extend([[0, 0], [0, 1], [1, 0], [1, 1]].map(|l| l.to_vec()));
    lists
}

fn two_names(types: [u8; 2]) -> Vec<(u8, Vec<u8>)> {
    vec![(types[0], b"x".to_vec()), (types[1], b"y".to_vec())]
}

fn instr(code: u8, dest: u16, args: &[u16]) -> Instr {
    Instr { id: 7, code, dest, args: args.to_vec(), ..Instr::default() }
}

/// A constant.
fn int(dest: u16, value: i64) -> Instr {
    Instr { literal: value as u64, ..instr(0, dest, &[]) }
}

/// Every instruction over two names of these types that may stand alone in a block, but for phi, which has functions of
/// its own.
fn instructions(types: [u8; 2]) -> Vec<Instr> {
    let mut all = vec![];
    for code in CODES.into_iter().filter(|code| *code != PHI) {
        for dest in [0, 1] {
            for (kind, literal) in literals(types[usize::from(dest)]) {
                if code == 0 {
                    all.push(Instr { id: 7, dest, kind, literal, ..Instr::default() });
                }
            }
            for args in arguments() {
                let wide = args.len() == 2 && matches!(code, 20 | 67 | 68);
                if code != 0 && !wide && (dest == 0 || code < 64) {
                    all.push(Instr { id: 7, code, dest, args, ..Instr::default() });
                }
            }
        }
    }
    let accepted = |i: &Instr| {
        let function = Function::new(0, two_names(types), vec![vec![i.clone()]]);
        second::check(&crate::function::encode(&function)).is_ok()
    };
    all.retain(accepted);
    all
}

/// Every function of one block of up to three of the choices behind the first
/// instructions, over these names, with none to so many arguments.
pub struct Blocks {
    names: Vec<(u8, Vec<u8>)>,
    first: Vec<Instr>,
    choices: Vec<Instr>,
    most_args: u8,
    args: u8,
    /// The instructions of the next block, by their place among the choices.
    next: Vec<usize>,
}

impl Blocks {
    fn new(names: Vec<(u8, Vec<u8>)>, choices: Vec<Instr>, most_args: u8) -> Self {
        Blocks { names, first: vec![], choices, most_args, args: 0, next: vec![] }
    }

    /// The next list of places; behind the last there is one argument more.
    fn advance(&mut self) {
        for place in self.next.iter_mut().rev() {
            *place += 1;
            if *place < self.choices.len() {
                return;
            }
            *place = 0;
        }
        self.next.push(0);
        if self.next.len() > MOST {
            self.next.clear();
            self.args += 1;
        }
    }
}

impl Iterator for Blocks {
    type Item = Function;

    fn next(&mut self) -> Option<Function> {
        while self.args <= self.most_args {
            let args = self.args;
            let next = self.next.iter().map(|p| &self.choices[*p]);
            let block: Vec<Instr> = self.first.iter().chain(next).cloned().collect();
            self.advance();
            let early = block.iter().rev().skip(1).any(|i| matches!(i.code, 64..=66));
            if !early {
                return Some(Function::new(args, self.names.clone(), vec![block]));
            }
        }
        None
    }
}

/// All of them over two names, pair of types by pair of types.
pub fn of_two_names() -> impl Iterator<Item = Function> {
    PAIRS.into_iter().flat_map(|types| Blocks::new(two_names(types), instructions(types), 2))
}

/// Those over the ints a and b and the bool p: lt, gt, le and ge into p, with every pair of a and b; constants into a and
/// b, and each by id into the other; p printed.
pub fn comparisons() -> Blocks {
    let names = vec![(INT, b"a".to_vec()), (INT, b"b".to_vec()), (BOOL, b"p".to_vec())];
    let mut choices = vec![instr(13, 0, &[1]), instr(13, 1, &[0]), instr(68, 0, &[2])];
    for code in 6..=9 {
        choices.extend([[0, 0], [0, 1], [1, 0], [1, 1]].map(|pair| instr(code, 2, &pair)));
    }
    for dest in [0, 1] {
        choices.extend([0, 1, -1].map(|i| int(dest, i)));
    }
    Blocks::new(names, choices, 3)
}

/// Those over the ints a, b and x behind a constant in a and one in b: a by b
/// and b by a into each, each by id into the others, their sum into x, all
/// printed.
pub fn divisions() -> impl Iterator<Item = Function> {
    let names = [b"a", b"b", b"x"].map(|text| (INT, text.to_vec()));
    let mut choices = vec![instr(68, 0, &[0, 1, 2]), instr(1, 2, &[0, 1])];
    for dest in [0, 1, 2] {
        choices.extend([[0, 1], [1, 0]].map(|pair| instr(4, dest, &pair)));
        choices.extend([0, 1, 2].into_iter().filter(|a| *a != dest).map(|a| instr(13, dest, &[a])));
    }
    let edges = [i64::MIN, i64::MAX, -1, 1];
    let pairs = edges.into_iter().flat_map(move |a| edges.map(|b| (a, b))).chain([(i64::MIN, 0)]);
    let consts = pairs.map(|(a, b)| vec![int(0, a), int(1, b)]);
    consts.flat_map(move |first| Blocks { first, ..Blocks::new(names.to_vec(), choices.clone(), 0) })
}

/// A function of one block with that block cut in two, at each place.
fn in_two_blocks(f: Function) -> impl Iterator<Item = Function> {
    (0..=f.blocks[0].len()).map(move |at| {
        let (first, rest) = f.blocks[0].split_at(at);
        Function { blocks: vec![first.to_vec(), rest.to_vec()], ..f.clone() }
    })
}

/// Those over the ints x and y, in two blocks: phis of none, of one and of two, from block 0 and from block 1; 1 into each,
/// each by id into the other, both printed.
pub fn phis() -> impl Iterator<Item = Function> {
    let mut choices = vec![instr(13, 0, &[1]), instr(13, 1, &[0]), int(0, 1), int(1, 1), instr(68, 0, &[0, 1])];
    for dest in [0, 1] {
        let phi = |args: Vec<u16>| Instr { blocks: [0, 1, 0, 0, 0, 0, 0, 0], ..instr(PHI, dest, &args) };
        choices.extend(arguments().into_iter().map(phi));
    }
    Blocks::new(two_names([INT, INT]), choices, 2).flat_map(in_two_blocks)
}
