//! A function record as the Rust's values. Only what is needed to build them
//! is tested: the records given are those that check accepts.

use crate::ops::{self, CONST, EFFECTS, EFFECT_CALL, PHI, VALUES, VALUE_CALL};
use bril_rs::{Argument, ConstOps, EffectOps, Function, Instruction, Literal, Type};
use cfg::BasicBlock;

pub struct Record {
    /// 1 or 2; the Rust's ids are u64, wide enough for both.
    pub version: u8,
    /// Type byte and text of each name.
    pub names: Vec<(u8, String)>,
    pub function: Function,
    pub blocks: Vec<BasicBlock>,
}

/// How many bytes an id has in a record of a version.
pub fn id_bytes(version: u8) -> Option<usize> {
    match version {
        1 => Some(4),
        2 => Some(8),
        _ => None,
    }
}

struct Reader<'a> {
    src: &'a [u8],
    at: usize,
}

impl<'a> Reader<'a> {
    fn take(&mut self, size: usize) -> Option<&'a [u8]> {
        let part = self.src.get(self.at..self.at + size)?;
        self.at += size;
        Some(part)
    }

    fn number(&mut self, size: usize) -> Option<u64> {
        Some(self.take(size)?.iter().fold(0, |n, b| n << 8 | u64::from(*b)))
    }

    fn byte(&mut self) -> Option<u8> {
        self.number(1).map(|n| n as u8)
    }

    fn count(&mut self, size: usize) -> Option<usize> {
        self.number(size).map(|n| n as usize)
    }
}

fn type_of(byte: u8) -> Option<Type> {
    let base = match byte & 15 {
        0 => Type::Int,
        1 => Type::Bool,
        2 => Type::Float,
        3 => Type::Char,
        _ => return None,
    };
    Some((0..byte >> 4).fold(base, |t, _| Type::Pointer(Box::new(t))))
}

fn literal(kind: u8, bits: u64) -> Option<Literal> {
    Some(match kind {
        0 => Literal::Int(bits as i64),
        1 => Literal::Bool(bits != 0),
        2 => Literal::Float(f64::from_bits(bits)),
        3 => Literal::Char(char::from_u32(u32::try_from(bits).ok()?)?),
        _ => return None,
    })
}

/// A callee's or block's number as the text the Rust carries.
fn numbers(r: &mut Reader, count: usize) -> Option<Vec<String>> {
    (0..count).map(|_| r.number(2).map(|n| n.to_string())).collect()
}

/// Type and text of each name.
fn names(r: &mut Reader) -> Option<Vec<(u8, String)>> {
    let mut names = vec![];
    for _ in 0..r.count(2)? {
        let type_byte = r.byte()?;
        let length = r.count(1)?;
        let text = std::str::from_utf8(r.take(length)?).ok()?;
        names.push((type_byte, text.to_string()));
    }
    Some(names)
}

/// How many blocks an effect names.
fn targets(op: &EffectOps) -> usize {
    match op {
        EffectOps::Jump => 1,
        EffectOps::Branch => 2,
        _ => 0,
    }
}

fn instruction(
    r: &mut Reader,
    width: usize,
    names: &[(u8, String)],
) -> Option<(u64, Instruction)> {
    let name = |n: usize| names.get(n).map(|(_, text)| text.clone());
    let id = r.number(width)?;
    let code = r.byte()?;
    let value_op = ops::op(&VALUES, code);
    let mut dest = None;
    if code == CONST || value_op.is_some() {
        let n = r.count(2)?;
        dest = Some((name(n)?, type_of(names[n].0)?));
    }
    if code == CONST {
        let (dest, const_type) = dest?;
        let (kind, bits) = (r.byte()?, r.number(8)?);
        let value = literal(kind, bits)?;
        let op = ConstOps::Const;
        return Some((id, Instruction::Constant { dest, op, pos: None, const_type, value }));
    }
    let arg_count = r.count(1)?;
    let args = (0..arg_count)
        .map(|_| r.count(2).and_then(name))
        .collect::<Option<Vec<_>>>()?;
    let funcs = numbers(r, usize::from(code == VALUE_CALL || code == EFFECT_CALL))?;
    if let Some((dest, op_type)) = dest {
        let op = value_op?;
        let labels = numbers(r, if code == PHI { args.len() } else { 0 })?;
        return Some((id, Instruction::Value { args, dest, funcs, labels, op, pos: None, op_type }));
    }
    let op = ops::op(&EFFECTS, code)?;
    let labels = numbers(r, targets(&op))?;
    Some((id, Instruction::Effect { args, funcs, labels, op, pos: None }))
}

pub fn read(src: &[u8]) -> Option<Record> {
    let mut r = Reader { src, at: 0 };
    if r.count(4)? != src.len() - 4 {
        return None;
    }
    let version = r.byte()?;
    let width = id_bytes(version)?;
    let arg_count = r.count(1)?;
    let names = names(&mut r)?;
    let mut blocks = vec![];
    for _ in 0..r.count(2)? {
        let n = r.count(2)?;
        r.number(2)?; // saves
        let mut block = BasicBlock::default();
        for i in 0..n {
            let instr = instruction(&mut r, width, &names)?;
            if !cfg::is_terminator(&instr.1) {
                block.instrs.push(instr);
            } else if i + 1 == n {
                block.terminator = Some(instr);
            } else {
                return None;
            }
        }
        blocks.push(block);
    }
    if r.at != src.len() {
        return None;
    }
    let args = names
        .get(..arg_count)?
        .iter()
        .map(|(t, name)| Some(Argument { name: name.clone(), arg_type: type_of(*t)? }))
        .collect::<Option<Vec<_>>>()?;
    let name = "f".to_string();
    let function = Function { args, instrs: vec![], name, pos: None, return_type: None };
    Some(Record { version, names, function, blocks })
}
