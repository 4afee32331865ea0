//! The house form of Point 6 of document 02, written from its words for the plain interpreter: values, stores and answers as
//! bytes, tested as they are read.

use crate::function::{BOOL, CHAR, FLOAT, INT, POINTER};

/// The type byte of an int literal held by a float, and the bytes that stand alone.
pub const HELD: u8 = 4;
pub const NOTHING: u8 = 0xFF;
pub const GO_ON: u8 = 0xFE;
pub const HALT: u8 = 0xFD;

#[derive(Clone, Copy, PartialEq, Debug)]
pub enum Value {
    Int(i64),
    Bool(bool),
    Float(u64),
    /// An int literal held by a float.
    Held(u64),
    Char(u64),
    /// Type, base and offset.
    Pointer(u8, u64, u64),
}

#[derive(Clone, Copy, PartialEq, Debug)]
pub enum Answer {
    Value(Value),
    GoOn,
    Halt,
}

/// Store or answers do not read, or do not fit: 13.
#[derive(PartialEq, Debug)]
pub struct Unfit;

impl Value {
    pub fn has_type(self, type_byte: u8) -> bool {
        match self {
            Value::Int(_) => type_byte == INT,
            Value::Bool(_) => type_byte == BOOL,
            Value::Float(_) | Value::Held(_) => type_byte == FLOAT,
            Value::Char(_) => type_byte == CHAR,
            Value::Pointer(t, _, _) => type_byte == t,
        }
    }

    pub fn put(self, out: &mut Vec<u8>) {
        let (type_byte, word) = match self {
            Value::Int(n) => (INT, n as u64),
            Value::Bool(b) => (BOOL, u64::from(b)),
            Value::Float(bits) => (FLOAT, bits),
            Value::Held(n) => (HELD, n),
            Value::Char(c) => (CHAR, c),
            Value::Pointer(t, base, _) => (t, base),
        };
        out.push(type_byte);
        out.extend(word.to_be_bytes());
        if let Value::Pointer(_, _, offset) = self {
            out.extend(offset.to_be_bytes());
        }
    }
}

impl Answer {
    pub fn put(self, out: &mut Vec<u8>) {
        match self {
            Answer::Value(v) => v.put(out),
            Answer::GoOn => out.push(GO_ON),
            Answer::Halt => out.push(HALT),
        }
    }
}

/// Length and version in front of what `items` writes.
pub fn framed(items: impl FnOnce(&mut Vec<u8>)) -> Vec<u8> {
    let mut out = vec![0, 0, 0, 0, 1];
    items(&mut out);
    let length = out.len() as u32 - 4;
    out[..4].copy_from_slice(&length.to_be_bytes());
    out
}

pub fn store_bytes(store: &[Option<Value>]) -> Vec<u8> {
    framed(|out| {
        for value in store {
            match value {
                Some(v) => v.put(out),
                None => out.push(NOTHING),
            }
        }
    })
}

fn word(bytes: &[u8], at: &mut usize) -> Result<u64, Unfit> {
    let part = bytes.get(*at..*at + 8).ok_or(Unfit)?;
    *at += 8;
    Ok(u64::from_be_bytes(part.try_into().map_err(|_| Unfit)?))
}

/// What stands behind a type byte.
fn value(type_byte: u8, bytes: &[u8], at: &mut usize) -> Result<Value, Unfit> {
    Ok(match (type_byte, word(bytes, at)?) {
        (INT, n) => Value::Int(n as i64),
        (BOOL, n @ 0..=1) => Value::Bool(n == 1),
        (FLOAT, bits) => Value::Float(bits),
        (CHAR, c) if u32::try_from(c).is_ok_and(|c| char::from_u32(c).is_some()) => Value::Char(c),
        (HELD, n) => Value::Held(n),
        (t, base) if t >= POINTER && t % 16 <= CHAR => Value::Pointer(t, base, word(bytes, at)?),
        _ => return Err(Unfit),
    })
}

fn opened(bytes: &[u8]) -> Result<(), Unfit> {
    let rest = (bytes.len() as u64).wrapping_sub(4);
    let opens = bytes.len() >= 5 && bytes[4] == 1;
    if opens && u64::from(u32::from_be_bytes([bytes[0], bytes[1], bytes[2], bytes[3]])) == rest {
        Ok(())
    } else {
        Err(Unfit)
    }
}

pub fn read_store(bytes: &[u8], types: &[u8]) -> Result<Vec<Option<Value>>, Unfit> {
    opened(bytes)?;
    let (mut at, mut store) = (5, Vec::with_capacity(types.len()));
    for wanted in types {
        let type_byte = *bytes.get(at).ok_or(Unfit)?;
        at += 1;
        if type_byte == NOTHING {
            store.push(None);
            continue;
        }
        let v = value(type_byte, bytes, &mut at)?;
        if !v.has_type(*wanted) {
            return Err(Unfit);
        }
        store.push(Some(v));
    }
    if at == bytes.len() {
        Ok(store)
    } else {
        Err(Unfit)
    }
}

/// An answer, behind which `at` stands then.
fn answer(bytes: &[u8], at: &mut usize) -> Result<Answer, Unfit> {
    *at += 1;
    Ok(match bytes[*at - 1] {
        GO_ON => Answer::GoOn,
        HALT => Answer::Halt,
        type_byte => Answer::Value(value(type_byte, bytes, at)?),
    })
}

/// The answers of a list, taken one after the other.
pub struct Answers<'a> {
    bytes: &'a [u8],
    at: usize,
}

impl<'a> Answers<'a> {
    /// Of a list that reads to its end.
    pub fn read(bytes: &'a [u8]) -> Result<Self, Unfit> {
        opened(bytes)?;
        let mut at = 5;
        while at < bytes.len() {
            answer(bytes, &mut at)?;
        }
        Ok(Answers { bytes, at: 5 })
    }
}

impl Iterator for Answers<'_> {
    type Item = Answer;

    fn next(&mut self) -> Option<Answer> {
        if self.at < self.bytes.len() {
            answer(self.bytes, &mut self.at).ok()
        } else {
            None
        }
    }
}
