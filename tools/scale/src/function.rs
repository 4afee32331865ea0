//! A function and its record, with the place of each field.

pub const INT: u8 = 0;
pub const BOOL: u8 = 1;
pub const FLOAT: u8 = 2;
pub const CHAR: u8 = 3;
pub const POINTER: u8 = 0x10;

pub const PHI: u8 = 39;

/// The least id that version 1 has no room for.
pub const WIDE: u64 = 1 << 32;

pub const CODES: [u8; 43] = [
    0, 1, 2, 3, 4, 5, 6, 7, 8, 9, 10, 11, 12, 13, 14, 20, 21, 22, 23, 24, 25, 26, 27, 28, 29, 30,
    31, 32, 33, 34, 35, 36, 37, 38, PHI, 64, 65, 66, 67, 68, 69, 70, 71,
];

/// An instruction; parts that its code does not have are 0 and are not written.
#[derive(Clone, Default)]
pub struct Instr {
    pub id: u64,
    pub code: u8,
    pub dest: u16,
    pub kind: u8,
    pub literal: u64,
    pub args: Vec<u16>,
    pub callee: u16,
    pub blocks: [u16; 8],
}

#[derive(Clone, Default)]
pub struct Function {
    /// Whether its record is of version 2.
    pub wide: bool,
    pub args: u8,
    /// Type byte and text.
    pub names: Vec<(u8, Vec<u8>)>,
    pub blocks: Vec<Vec<Instr>>,
}

impl Function {
    /// One whose record is of version 1.
    pub fn new(args: u8, names: Vec<(u8, Vec<u8>)>, blocks: Vec<Vec<Instr>>) -> Function {
        Function { wide: false, args, names, blocks }
    }
}

/// What a field of a record is.
#[derive(Clone, Copy, PartialEq, Eq, Debug)]
pub enum Kind {
    Length,
    Version,
    Args,
    Names,
    Type,
    TextLength,
    Text,
    Blocks,
    Body,
    Saves,
    Id,
    Code,
    Dest,
    LiteralKind,
    Literal,
    Count,
    Arg,
    Callee,
    Target,
}

#[derive(Clone, Copy)]
pub struct Field {
    pub kind: Kind,
    pub at: usize,
    pub width: usize,
}

/// A record and its fields in order.
#[derive(Default)]
pub struct Encoded {
    pub bytes: Vec<u8>,
    pub fields: Vec<Field>,
}

pub fn has_dest(code: u8) -> bool {
    code < 64
}

pub fn has_callee(code: u8) -> bool {
    code == 20 || code == 67
}

/// How many block numbers follow so many arguments.
pub fn targets(code: u8, args: usize) -> usize {
    match code {
        PHI => args,
        64 => 1,
        65 => 2,
        _ => 0,
    }
}

/// How many bytes an id has in a record, or in the events of its runs.
pub fn id_bytes(record: &[u8]) -> usize {
    if record[4] == 2 {
        8
    } else {
        4
    }
}

impl Encoded {
    fn put(&mut self, kind: Kind, width: usize, value: u64) {
        self.fields.push(Field { kind, at: self.bytes.len(), width });
        self.bytes.extend(&value.to_be_bytes()[8 - width..]);
    }

    fn put_instr(&mut self, i: &Instr, id_bytes: usize) {
        self.put(Kind::Id, id_bytes, i.id);
        self.put(Kind::Code, 1, u64::from(i.code));
        if has_dest(i.code) {
            self.put(Kind::Dest, 2, u64::from(i.dest));
        }
        if i.code == 0 {
            self.put(Kind::LiteralKind, 1, u64::from(i.kind));
            self.put(Kind::Literal, 8, i.literal);
            return;
        }
        self.put(Kind::Count, 1, i.args.len() as u64);
        for arg in &i.args {
            self.put(Kind::Arg, 2, u64::from(*arg));
        }
        if has_callee(i.code) {
            self.put(Kind::Callee, 2, u64::from(i.callee));
        }
        for target in &i.blocks[..targets(i.code, i.args.len())] {
            self.put(Kind::Target, 2, u64::from(*target));
        }
    }

    /// Makes this the record of a function.
    pub fn fill(&mut self, f: &Function) {
        self.bytes.clear();
        self.fields.clear();
        self.put(Kind::Length, 4, 0);
        self.put(Kind::Version, 1, 1 + u64::from(f.wide));
        let id_bytes = id_bytes(&self.bytes);
        self.put(Kind::Args, 1, u64::from(f.args));
        self.put(Kind::Names, 2, f.names.len() as u64);
        for (type_byte, text) in &f.names {
            self.put(Kind::Type, 1, u64::from(*type_byte));
            self.put(Kind::TextLength, 1, text.len() as u64);
            self.fields.push(Field { kind: Kind::Text, at: self.bytes.len(), width: text.len() });
            self.bytes.extend(text);
        }
        self.put(Kind::Blocks, 2, f.blocks.len() as u64);
        for block in &f.blocks {
            self.put(Kind::Body, 2, block.len() as u64);
            self.put(Kind::Saves, 2, 0);
            for instr in block {
                self.put_instr(instr, id_bytes);
            }
        }
        mend_length(&mut self.bytes);
    }
}

/// The record of a function.
pub fn encode(f: &Function) -> Vec<u8> {
    let mut encoded = Encoded::default();
    encoded.fill(f);
    encoded.bytes
}

/// The fields of an accepted record, one after the other.
struct Fields<'a> {
    bytes: &'a [u8],
    id_bytes: usize,
}

impl<'a> Fields<'a> {
    fn part(&mut self, width: usize) -> &'a [u8] {
        let (part, rest) = self.bytes.split_at(width);
        self.bytes = rest;
        part
    }

    fn number(&mut self, width: usize) -> u64 {
        self.part(width).iter().fold(0, |n, b| n << 8 | u64::from(*b))
    }

    fn instr(&mut self) -> Instr {
        let mut i = Instr { id: self.number(self.id_bytes), code: self.number(1) as u8, ..Instr::default() };
        if has_dest(i.code) {
            i.dest = self.number(2) as u16;
        }
        if i.code == 0 {
            (i.kind, i.literal) = (self.number(1) as u8, self.number(8));
            return i;
        }
        i.args = (0..self.number(1)).map(|_| self.number(2) as u16).collect();
        if has_callee(i.code) {
            i.callee = self.number(2) as u16;
        }
        for target in &mut i.blocks[..targets(i.code, i.args.len())] {
            *target = self.number(2) as u16;
        }
        i
    }
}

/// The function of an accepted record, or of a rewriting.
pub fn decode(bytes: &[u8]) -> Function {
    let mut r = Fields { bytes: &bytes[5..], id_bytes: id_bytes(bytes) };
    let mut f = Function { wide: bytes[4] == 2, args: r.number(1) as u8, ..Function::default() };
    for _ in 0..r.number(2) {
        let (type_byte, length) = (r.number(1) as u8, r.number(1) as usize);
        f.names.push((type_byte, r.part(length).to_vec()));
    }
    for _ in 0..r.number(2) {
        let count = r.number(2);
        r.number(2);
        f.blocks.push((0..count).map(|_| r.instr()).collect());
    }
    f
}

/// Makes L the length of the rest.
pub fn mend_length(bytes: &mut [u8]) {
    if bytes.len() >= 4 {
        let rest = bytes.len() as u32 - 4;
        bytes[..4].copy_from_slice(&rest.to_be_bytes());
    }
}
