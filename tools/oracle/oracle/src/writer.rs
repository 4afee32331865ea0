//! The Rust's blocks as the record of a rewriting.

use crate::ops::{self, CONST, EFFECTS, VALUES};
use crate::reader::{id_bytes, Record};
use bril_rs::{Instruction, Literal, Type};
use cfg::BasicBlock;
use std::collections::HashMap;

/// Names by index, the record's first, then the made ones in order of K.
struct Names {
    list: Vec<(u8, String)>,
    index: HashMap<String, usize>,
    original: usize,
}

impl Names {
    /// Adds dest if it is a made name not seen before. The name made with K
    /// has index N+K, so K must follow the last one; else nothing is given.
    fn make(&mut self, instr: &Instruction) -> Option<()> {
        let Some(dest) = instr.get_dest().filter(|d| !self.index.contains_key(d)) else {
            return Some(());
        };
        let (_, k) = dest.rsplit_once("_lvn")?;
        let at = self.list.len();
        if k.parse() != Ok(at - self.original) {
            return None;
        }
        self.index.insert(dest.clone(), at);
        self.list.push((type_byte(&instr.get_type()?), dest));
        Some(())
    }

    fn put(&self, out: &mut Vec<u8>, name: &str) -> Option<()> {
        put_count(out, *self.index.get(name)?)
    }
}

fn type_byte(t: &Type) -> u8 {
    match t {
        Type::Int => 0,
        Type::Bool => 1,
        Type::Float => 2,
        Type::Char => 3,
        Type::Pointer(to) => type_byte(to) + 16,
    }
}

fn put_count(out: &mut Vec<u8>, n: usize) -> Option<()> {
    out.extend(u16::try_from(n).ok()?.to_be_bytes());
    Some(())
}

fn put_literal(out: &mut Vec<u8>, value: &Literal) {
    let (kind, bits) = match value {
        Literal::Int(i) => (0, *i as u64),
        Literal::Bool(b) => (1, u64::from(*b)),
        Literal::Float(x) => (2, x.to_bits()),
        Literal::Char(c) => (3, u64::from(u32::from(*c))),
    };
    out.push(kind);
    out.extend(bits.to_be_bytes());
}

/// The id in so many bytes; nothing where it has more.
fn put_id(out: &mut Vec<u8>, width: usize, id: u64) -> Option<()> {
    let bytes = id.to_be_bytes();
    let (high, low) = bytes.split_at(bytes.len() - width);
    out.extend(low);
    high.iter().all(|b| *b == 0).then_some(())
}

/// The instruction behind its id.
fn put_instruction(out: &mut Vec<u8>, instr: &Instruction, names: &Names) -> Option<()> {
    let (args, funcs, labels) = match instr {
        Instruction::Constant { dest, value, .. } => {
            out.push(CONST);
            names.put(out, dest)?;
            put_literal(out, value);
            return Some(());
        }
        Instruction::Value { args, dest, funcs, labels, op, .. } => {
            out.push(ops::code(&VALUES, op)?);
            names.put(out, dest)?;
            (args, funcs, labels)
        }
        Instruction::Effect { args, funcs, labels, op, .. } => {
            out.push(ops::code(&EFFECTS, op)?);
            (args, funcs, labels)
        }
    };
    out.push(u8::try_from(args.len()).ok()?);
    for arg in args {
        names.put(out, arg)?;
    }
    for number in funcs.iter().chain(labels) {
        put_count(out, number.parse().ok()?)?;
    }
    Some(())
}

fn put_block(
    out: &mut Vec<u8>,
    width: usize,
    block: &BasicBlock,
    names: &mut Names,
) -> Option<()> {
    let mut saves = 0;
    let mut body = vec![];
    let instrs = || block.instrs.iter().chain(&block.terminator);
    for (id, instr) in instrs() {
        names.make(instr)?;
        if let Some(dest) = instr.get_dest() {
            saves += usize::from(names.index[&dest] >= names.original);
        }
        put_id(&mut body, width, *id)?;
        put_instruction(&mut body, instr, names)?;
    }
    put_count(out, instrs().count())?;
    put_count(out, saves)?;
    out.extend(body);
    Some(())
}

pub fn write(record: &Record) -> Option<Vec<u8>> {
    let mut names = Names {
        list: record.names.clone(),
        index: record.names.iter().enumerate().map(|(i, n)| (n.1.clone(), i)).collect(),
        original: record.names.len(),
    };
    let width = id_bytes(record.version)?;
    let mut blocks = vec![];
    for block in &record.blocks {
        put_block(&mut blocks, width, block, &mut names)?;
    }
    let mut body = vec![record.version, u8::try_from(record.function.args.len()).ok()?];
    put_count(&mut body, names.list.len())?;
    for (type_byte, text) in &names.list {
        body.push(*type_byte);
        body.push(u8::try_from(text.len()).ok()?);
        body.extend(text.as_bytes());
    }
    put_count(&mut body, record.blocks.len())?;
    body.extend(blocks);
    let mut out = u32::try_from(body.len()).ok()?.to_be_bytes().to_vec();
    out.extend(body);
    Some(out)
}
