//! A second reading of document 01's numbering and of Points 2, 4, 5 and 7 of
//! document 02, written from their words for this comparison, with nothing
//! taken from the code it is compared with: the rewriting of an accepted record.

use crate::function::{decode, Encoded, Function, Instr, Kind, BOOL, FLOAT, INT};

/// A value: a constant, an operator over numbers, or one that is new each time.
#[derive(Clone, Copy, PartialEq)]
enum Value {
    Int(i64),
    Bool(bool),
    /// An int literal in a float, which is never known.
    OfFloat(i64),
    One(u8, usize),
    Two(u8, usize, usize),
    New,
}

use Value::{Bool, Int, New, OfFloat, One, Two};

/// "both known": the constant of an operator on two constants. A division by 0
/// stays; any other quotient is taken modulo 2^64, that of -2^63 by -1 too.
fn fold(code: u8, a: Value, b: Value) -> Option<Value> {
    Some(match (code, a, b) {
        (1, Int(a), Int(b)) => Int(a.wrapping_add(b)),
        (2, Int(a), Int(b)) => Int(a.wrapping_sub(b)),
        (3, Int(a), Int(b)) => Int(a.wrapping_mul(b)),
        (4, Int(a), Int(b)) if b != 0 => Int((i128::from(a) / i128::from(b)) as i64),
        (5, Int(a), Int(b)) => Bool(a == b),
        (6, Int(a), Int(b)) => Bool(a < b),
        (7, Int(a), Int(b)) => Bool(a > b),
        (8, Int(a), Int(b)) => Bool(a <= b),
        (9, Int(a), Int(b)) => Bool(a >= b),
        (11, Bool(a), Bool(b)) => Bool(a && b),
        (12, Bool(a), Bool(b)) => Bool(a || b),
        _ => return None,
    })
}

/// The identities, over what is known of one operand.
fn identity(code: u8, known: [Option<Value>; 2], numbers: [usize; 2]) -> Option<Value> {
    match code {
        5 => return (numbers[0] == numbers[1]).then_some(Bool(true)),
        14 => return (known[1] == Some(Int(0))).then_some(One(13, numbers[0])),
        _ => {}
    }
    [0, 1].into_iter().find_map(|side| {
        let y = numbers[1 - side];
        Some(match (code, known[side]?) {
            (1, Int(0)) | (3, Int(1)) | (11, Bool(true)) | (12, Bool(false)) => One(13, y),
            (3, Int(0)) => Int(0),
            (3, Int(2)) => Two(1, y, y),
            (11, Bool(false)) => Bool(false),
            (12, Bool(true)) => Bool(true),
            _ => return None,
        })
    })
}

/// Two operands in the order in which they are kept; gt and ge become lt and le.
fn ordered(code: u8, a: usize, b: usize) -> Value {
    match code {
        1 | 3 | 5 | 11 | 12 => Two(code, a.min(b), a.max(b)),
        7 => Two(6, b, a),
        9 => Two(8, b, a),
        _ => Two(code, a, b),
    }
}

/// The numbering of one block; `f` has the names made so far.
struct Block<'a> {
    f: &'a mut Function,
    /// Of each original name: its number.
    numbers: Vec<Option<usize>>,
    /// Of each number: its home, and its value.
    homes: Vec<u16>,
    values: Vec<Value>,
    written: Vec<Instr>,
    saves: u16,
}

impl Block<'_> {
    fn fresh(&mut self, name: u16, value: Value) -> usize {
        self.homes.push(name);
        self.values.push(value);
        self.numbers[usize::from(name)] = Some(self.homes.len() - 1);
        self.homes.len() - 1
    }

    fn number(&mut self, name: u16) -> usize {
        self.numbers[usize::from(name)].unwrap_or_else(|| self.fresh(name, New))
    }

    fn known(&self, number: usize) -> Option<Value> {
        Some(self.values[number]).filter(|v| matches!(v, Int(_) | Bool(_)))
    }

    fn simplify(&self, code: u8, numbers: &[usize]) -> Value {
        let known: Vec<Option<Value>> = numbers.iter().map(|v| self.known(*v)).collect();
        match (code, numbers) {
            (13, [v]) => known[0].unwrap_or(One(13, *v)),
            (10, [v]) => match known[0] {
                Some(Bool(b)) => Bool(!b),
                _ => One(10, *v),
            },
            (_, [a, b]) => {
                let both = known[0].zip(known[1]).and_then(|(x, y)| fold(code, x, y));
                let one = || identity(code, [known[0], known[1]], [*a, *b]);
                both.or_else(one).unwrap_or(ordered(code, *a, *b))
            }
            _ => New,
        }
    }

    fn value(&self, i: &Instr, numbers: &[usize]) -> Value {
        match (i.code, i.kind) {
            (0, INT) if self.f.names[usize::from(i.dest)].0 == FLOAT => OfFloat(i.literal as i64),
            (0, INT) => Int(i.literal as i64),
            (0, BOOL) => Bool(i.literal != 0),
            (1..=14, _) => self.simplify(i.code, numbers),
            _ => New,
        }
    }

    /// The instruction of a value, under the id and dest of i.
    fn instr_of(&self, i: &Instr, value: Value) -> Instr {
        let home = |v: usize| self.homes[v];
        let constant = |kind, literal| Instr { id: i.id, dest: i.dest, kind, literal, ..Instr::default() };
        let of = |code, args| Instr { id: i.id, code, dest: i.dest, args, ..Instr::default() };
        match value {
            Int(v) | OfFloat(v) => constant(INT, v as u64),
            Bool(b) => constant(BOOL, u64::from(b)),
            One(code, a) => of(code, vec![home(a)]),
            Two(code, a, b) => of(code, vec![home(a), home(b)]),
            New => i.clone(),
        }
    }

    /// The save of what dest holds, if dest is the home of its number.
    fn save(&mut self, i: &Instr) {
        let Some(number) = self.numbers[usize::from(i.dest)].filter(|v| self.homes[*v] == i.dest) else {
            return;
        };
        let made = self.f.names.len();
        let (type_byte, text) = &self.f.names[usize::from(i.dest)];
        let text = [b"_", &text[..], b"_lvn", (made - self.numbers.len()).to_string().as_bytes()].concat();
        self.f.names.push((*type_byte, text));
        self.homes[number] = made as u16;
        self.written.push(Instr { id: i.id, code: 13, dest: made as u16, args: vec![i.dest], ..Instr::default() });
        self.saves += 1;
    }

    fn instr(&mut self, i: &Instr) {
        let numbers: Vec<usize> = i.args.iter().map(|a| self.number(*a)).collect();
        let replaced = Instr { args: numbers.iter().map(|v| self.homes[*v]).collect(), ..i.clone() };
        if i.code >= 64 {
            self.written.push(replaced);
            return;
        }
        let value = self.value(i, &numbers);
        let first = self.instr_of(&replaced, value);
        if first.code != 13 || first.args != [i.dest] {
            self.save(i);
        }
        let number = match value {
            One(13, v) => Some(v),
            New => None,
            _ => self.values.iter().position(|v| *v == value),
        };
        if let Some(v) = number {
            let again = self.known(v).unwrap_or(One(13, v));
            self.written.push(self.instr_of(&replaced, again));
            self.numbers[usize::from(i.dest)] = Some(v);
        } else {
            self.fresh(i.dest, value);
            self.written.push(first);
        }
    }
}

/// The rewriting of an accepted record.
pub fn rewriting(bytes: &[u8]) -> Vec<u8> {
    let mut f = decode(bytes);
    let (originals, args) = (f.names.len(), u16::from(f.args));
    let mut saves = vec![];
    for n in 0..f.blocks.len() {
        let body = std::mem::take(&mut f.blocks[n]);
        let mut block = Block {
            f: &mut f,
            numbers: vec![None; originals],
            homes: vec![],
            values: vec![],
            written: vec![],
            saves: 0,
        };
        for name in 0..args {
            block.fresh(name, New);
        }
        for i in &body {
            block.instr(i);
        }
        let written = block.written;
        saves.push(block.saves);
        f.blocks[n] = written;
    }
    let mut encoded = Encoded::default();
    encoded.fill(&f);
    let fields = encoded.fields.iter().filter(|field| field.kind == Kind::Saves);
    for (field, count) in fields.zip(saves) {
        encoded.bytes[field.at..field.at + 2].copy_from_slice(&count.to_be_bytes());
    }
    encoded.bytes
}
