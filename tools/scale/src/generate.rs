//! Random accepted functions: all codes, all sizes up to the limits. Names and
//! literals are few, so that values meet again and constants fold.

use crate::function::{targets, Function, Instr, BOOL, CHAR, FLOAT, INT, PHI, POINTER, WIDE};
use crate::profiles::{Profile, ALL, COMPARISONS, DIVISIONS, PHIS, PROFILES};
use crate::rng::Rng;
use crate::second;
use std::collections::HashSet;

const SMALL: [i64; 9] = [0, 0, 0, 1, 1, 1, 2, 2, -1];
const INTS: [i64; 9] =
    [3, 7, -7, -2, 1 << 32, (1 << 62) + 1, i64::MAX, i64::MIN, i64::MIN + 1];
const FLOATS: [u64; 7] = [
    0,
    1 << 63,
    0x3FF0_0000_0000_0000,
    0x7FF0_0000_0000_0000,
    0x7FF8_0000_0000_0000,
    0xFFF8_0000_0000_0001,
    0x7FF0_0000_0000_0001,
];
const CHARS: [u64; 7] = [0, 0x61, 0x7F, 0xD7FF, 0xE000, 0xFFFF, 0x10FFFF];
const IDS: [u64; 7] = [0, 1, 255, 256, 65535, 65536, WIDE - 1];
/// Ids around 2^32, and far beyond.
const WIDE_IDS: [u64; 12] = [
    WIDE - 2,
    WIDE - 1,
    WIDE,
    WIDE + 1,
    2 * WIDE - 1,
    2 * WIDE,
    1 << 40,
    (1 << 63) - 1,
    1 << 63,
    u64::MAX - WIDE + 1,
    u64::MAX - 1,
    u64::MAX,
];
const ODD_TEXTS: [&[u8]; 10] = [
    b".", b"_", b"_.", b"__lvn0", b"_lvn0", b"x_lvn0", b"_x_lvn", b"_x_lvn0_", b"lvn", b"A.b_9",
];
const FIRST: &[u8] = b"abcxyzABCXYZ_.";
const LATER: &[u8] = b"abcxyzABCXYZ_.0123456789lvn";

/// The ints that most literals are drawn from in a function of divisions.
const EDGES: [i64; 9] = [i64::MIN, i64::MIN, i64::MIN, -1, -1, -1, 1, 0, i64::MAX];

/// How large a function is to be.
pub struct Size {
    pub names: usize,
    pub args: usize,
    pub blocks: usize,
    /// The most instructions of a block; `full`: each has as many.
    pub body: usize,
    pub full: bool,
}

impl Size {
    /// Mostly small; sometimes up to one limit, and seldom up to all.
    fn random(rng: &mut Rng) -> Size {
        let (names, blocks, body) = match rng.below(10000) {
            0..=1 => (256, 64, 256),
            2..=29 => (rng.within(1, 256), rng.within(1, 3), 256),
            30..=49 => (rng.within(200, 256), 1, rng.within(1, 40)),
            50..=69 => (rng.within(1, 20), rng.within(50, 64), 6),
            70..=299 => (rng.within(0, 40), rng.within(0, 5), 60),
            _ => (rng.within(0, 8), [1, 1, 1, 2, 2, 3][rng.below(6)], 10),
        };
        let args = if rng.chance(50) { 16 } else { rng.below(4) };
        Size { names, args: args.min(names), blocks, body, full: rng.chance(20) }
    }
}

pub struct Generator {
    rng: Rng,
    f: Function,
    /// Whether a name holds a constant, as far as this block has set it.
    constant: Vec<bool>,
    /// The ints that most literals are drawn from.
    small: [i64; 9],
}

impl Generator {
    pub fn new(seed: u64) -> Self {
        Generator { rng: Rng::new(seed), f: Function::default(), constant: vec![], small: SMALL }
    }

    pub fn rng(&mut self) -> &mut Rng {
        &mut self.rng
    }

    fn text(&mut self, used: &HashSet<Vec<u8>>, index: usize) -> Vec<u8> {
        let text = match self.rng.below(10) {
            0 => self.rng.pick(&ODD_TEXTS).to_vec(),
            1 | 2 => {
                let length = if self.rng.chance(300) { 32 } else { self.rng.within(1, 32) };
                let mut text = vec![self.rng.pick(FIRST)];
                text.extend((1..length).map(|_| self.rng.pick(LATER)));
                text
            }
            _ => vec![b'a' + self.rng.below(26) as u8],
        };
        if second::reserved(&text) || used.contains(&text) {
            return format!("n{index}.").into_bytes();
        }
        text
    }

    fn names(&mut self, count: usize, types: &[u8]) {
        let mut chosen: Vec<u8> = types.iter().copied().take(count).collect();
        while chosen.len() < count {
            chosen.push(self.rng.pick(types));
        }
        self.rng.shuffle(&mut chosen);
        let mut used = HashSet::new();
        for (index, type_byte) in chosen.into_iter().enumerate() {
            let text = self.text(&used, index);
            used.insert(text.clone());
            self.f.names.push((type_byte, text));
        }
    }

    /// A name that passes; half the time one that holds a constant, or none, as wanted.
    fn name(&mut self, constant: bool, passes: impl Fn(u8) -> bool) -> Option<u16> {
        let names = &self.f.names;
        let all: Vec<u16> =
            (0..names.len() as u16).filter(|n| passes(names[usize::from(*n)].0)).collect();
        if all.is_empty() {
            return None;
        }
        let wanted = self.rng.chance(500);
        for _ in 0..3 {
            let name = self.rng.pick(&all);
            if !wanted || self.constant[usize::from(name)] == constant {
                return Some(name);
            }
        }
        Some(self.rng.pick(&all))
    }

    fn arg(&mut self, type_byte: u8) -> Option<u16> {
        self.name(true, |t| t == type_byte)
    }

    fn dest(&mut self, type_byte: u8) -> Option<u16> {
        self.name(false, |t| t == type_byte)
    }

    fn type_of(&self, name: u16) -> u8 {
        self.f.names[usize::from(name)].0
    }

    fn literal(&mut self, type_byte: u8) -> Option<(u8, u64)> {
        let rng = &mut self.rng;
        Some(match type_byte {
            FLOAT if rng.chance(600) => (INT, rng.pick(&SMALL) as u64),
            FLOAT if rng.chance(800) => (FLOAT, rng.pick(&FLOATS)),
            FLOAT => (FLOAT, rng.bits()),
            INT if rng.chance(700) => (INT, rng.pick(&self.small) as u64),
            INT if rng.chance(900) => (INT, rng.pick(&INTS) as u64),
            INT => (INT, rng.bits()),
            BOOL => (BOOL, rng.below(2) as u64),
            CHAR => (CHAR, rng.pick(&CHARS)),
            _ => return None,
        })
    }

    fn id(&mut self) -> u64 {
        if self.rng.chance(200) {
            self.rng.pick(&IDS)
        } else {
            self.rng.below(64) as u64
        }
    }

    /// Arguments and dest of a code with types of its own, where the names allow it.
    fn operands(&mut self, code: u8) -> Option<(Vec<u16>, u16)> {
        let two = |of: u8, to: u8| (of, Some(of), Some(to));
        let (first, other, to) = match code {
            1..=4 => two(INT, INT),
            5..=9 => two(INT, BOOL),
            11 | 12 => two(BOOL, BOOL),
            21..=24 => two(FLOAT, FLOAT),
            25..=29 => two(FLOAT, BOOL),
            30..=34 => two(CHAR, BOOL),
            10 => (BOOL, None, Some(BOOL)),
            35 => (CHAR, None, Some(INT)),
            36 => (INT, None, Some(CHAR)),
            65 => (BOOL, None, None),
            _ => return self.pointer_operands(code),
        };
        let mut args = vec![self.arg(first)?];
        if let Some(other) = other {
            args.push(self.arg(other)?);
        }
        Some((args, to.map_or(Some(0), |to| self.dest(to))?))
    }

    fn pointer_operands(&mut self, code: u8) -> Option<(Vec<u16>, u16)> {
        if code == 37 {
            return Some((vec![self.arg(INT)?], self.name(false, |t| t >= POINTER)?));
        }
        let first = self.name(false, |t| t >= if code == 13 { 0 } else { POINTER })?;
        let of = self.type_of(first);
        Some(match code {
            13 => (vec![first], self.dest(of)?),
            14 => (vec![first, self.arg(INT)?], self.dest(of)?),
            38 => (vec![first], self.dest(of - POINTER)?),
            70 => (vec![first, self.arg(of - POINTER)?], 0),
            _ => (vec![first], 0),
        })
    }

    /// An instruction of a code, where the names allow it.
    fn instr(&mut self, code: u8) -> Option<Instr> {
        let mut i = Instr { id: self.id(), code, ..Instr::default() };
        match code {
            0 => {
                i.dest = self.name(true, |_| true)?;
                (i.kind, i.literal) = self.literal(self.type_of(i.dest))?;
            }
            64 | 69 => {}
            PHI => {
                i.dest = self.name(false, |_| true)?;
                let most = self.rng.pick(&[1, 2, 3, 8]);
                for _ in 0..self.rng.within(0, most) {
                    i.args.push(self.arg(self.type_of(i.dest))?);
                }
            }
            20 | 66 | 67 | 68 => {
                let most = if code == 66 { 1 } else { self.rng.pick(&[1, 2, 3, 8]) };
                for _ in 0..self.rng.within(0, most) {
                    i.args.push(self.name(true, |_| true)?);
                }
                i.callee = self.rng.pick(&[0, 1, 300, u16::MAX]);
                i.dest = if code == 20 { self.name(false, |_| true)? } else { 0 };
            }
            _ => (i.args, i.dest) = self.operands(code)?,
        }
        // At least two are drawn, needed or not, so that the timed functions of a seed stay what they were.
        for target in &mut i.blocks[..targets(code, i.args.len()).max(2)] {
            *target = self.rng.below(self.f.blocks.len()) as u16;
        }
        Some(i)
    }

    /// An earlier instruction of the block, perhaps with its arguments swapped
    /// or for another dest of the same type.
    fn again(&mut self, block: &[Instr]) -> Instr {
        let mut i = block[self.rng.below(block.len())].clone();
        i.id = self.id();
        if matches!(i.code, 1..=9 | 11 | 12) && self.rng.chance(500) {
            i.args.reverse();
        }
        if i.code < 64 && self.rng.chance(700) {
            i.dest = self.dest(self.type_of(i.dest)).unwrap_or(i.dest);
        }
        i
    }

    fn block(&mut self, size: usize, codes: &[u8]) -> Vec<Instr> {
        self.constant = vec![false; self.f.names.len()];
        let constants = self.rng.below(4);
        let mut block: Vec<Instr> = vec![];
        while block.len() < size {
            let chance = self.rng.below(100);
            let last = block.last().filter(|i| i.code < 64).map(|i| i.dest);
            let i = match last {
                _ if chance < 20 && !block.is_empty() => Some(self.again(&block)),
                Some(dest) if chance < 23 => {
                    Some(Instr { id: self.id(), code: 13, dest, args: vec![dest], ..Instr::default() })
                }
                _ if block.len() < constants => self.instr(0),
                _ => (0..6).find_map(|_| {
                    let code = self.rng.pick(codes);
                    self.instr(code)
                }),
            };
            let i = i.unwrap_or(Instr { id: self.id(), code: 69, ..Instr::default() });
            if i.code < 64 {
                self.constant[usize::from(i.dest)] = i.code == 0;
            }
            block.push(i);
        }
        if size > 0 && self.rng.chance(600) {
            let code = self.rng.pick(&[64, 65, 65, 66, 66]);
            if let Some(end) = self.instr(code) {
                block[size - 1] = end;
            }
        }
        block
    }

    /// A function of a size, over the names and codes of one of the profiles.
    pub fn of_size(&mut self, size: &Size) -> Function {
        let total = PROFILES.iter().map(|p| p.weight).sum();
        let mut left = self.rng.below(total);
        let mut profile = &PROFILES[0];
        for p in &PROFILES {
            profile = p;
            if left < p.weight {
                break;
            }
            left -= p.weight;
        }
        self.of_profile(size, profile)
    }

    /// A function of a size over all types and all codes but phi.
    pub fn mixed(&mut self, size: &Size) -> Function {
        self.of_profile(size, &PROFILES[PROFILES.len() - 1])
    }

    fn of_profile(&mut self, size: &Size, profile: &Profile) -> Function {
        self.f = Function { args: size.args as u8, ..Function::default() };
        self.names(size.names, profile.types);
        self.f.blocks = vec![vec![]; size.blocks];
        for n in 0..size.blocks {
            let body = if size.full { size.body } else { self.rng.within(0, size.body) };
            self.f.blocks[n] = self.block(body, profile.codes);
        }
        std::mem::take(&mut self.f)
    }

    /// A function of any size and kind; each second one is of version 2.
    pub fn function(&mut self) -> Function {
        let mut f = self.narrow_function();
        if self.rng.chance(500) {
            self.widen(&mut f);
        }
        f
    }

    /// Makes a function one of version 2, in which none, few, half or all of the ids are drawn around 2^32 and beyond.
    fn widen(&mut self, f: &mut Function) {
        f.wide = true;
        let of_thousand = self.rng.pick(&[0, 20, 500, 1000]);
        for i in f.blocks.iter_mut().flatten() {
            if self.rng.chance(of_thousand) {
                i.id = self.wide_id(i.id);
            }
        }
    }

    /// An id that may be 2^32 or more; or one that is another one's with more above its last four bytes.
    fn wide_id(&mut self, narrow: u64) -> u64 {
        match self.rng.below(8) {
            0 => self.rng.bits(),
            1 => narrow + self.rng.within(1, 3) as u64 * WIDE,
            _ => self.rng.pick(&WIDE_IDS),
        }
    }

    fn narrow_function(&mut self) -> Function {
        let size = Size::random(&mut self.rng);
        match self.rng.below(10) {
            0 => self.of_profile(&size, &COMPARISONS),
            1 => {
                self.small = EDGES;
                let f = self.of_profile(&size, &DIVISIONS);
                self.small = SMALL;
                f
            }
            2 => {
                let (names, blocks) = (self.rng.within(1, 6), self.rng.within(1, 8));
                self.of_profile(&Size { names, args: size.args.min(names), blocks, ..size }, &PHIS)
            }
            3 => self.of_profile(&size, &ALL),
            _ => self.of_size(&size),
        }
    }
}
