//! Accepted records made smaller: without an instruction, or only as far as one; and the instructions of each block. Of either version.

use crate::function::{has_callee, has_dest, id_bytes, mend_length, targets};

/// An instruction of a record: the offset of its block's count, its place in
/// the block, where it starts, where its code stands and where it ends, and how
/// many blocks follow.
#[derive(Clone, Copy)]
pub struct Place {
    pub body: usize,
    pub index: usize,
    pub start: usize,
    pub code: usize,
    pub end: usize,
    pub behind: usize,
}

pub fn two(bytes: &[u8], at: usize) -> usize {
    usize::from(bytes[at]) * 256 + usize::from(bytes[at + 1])
}

/// Where the instruction with a code at this place ends.
pub fn end_of(bytes: &[u8], at: usize) -> usize {
    let code = bytes[at];
    let at = at + 1 + if has_dest(code) { 2 } else { 0 };
    if code == 0 {
        return at + 9;
    }
    let args = usize::from(bytes[at]);
    at + 1 + 2 * (args + usize::from(has_callee(code)) + targets(code, args))
}

/// Where the names of a record end.
pub fn names_end(bytes: &[u8]) -> usize {
    (0..two(bytes, 6)).fold(8, |at, _| at + 2 + usize::from(bytes[at + 1]))
}

/// The instructions of an accepted record.
pub fn places(bytes: &[u8]) -> Vec<Place> {
    let mut at = names_end(bytes);
    let count = two(bytes, at);
    at += 2;
    let mut found = vec![];
    for block in 0..count {
        let body = at;
        at += 4;
        for index in 0..two(bytes, body) {
            let (start, code) = (at, at + id_bytes(bytes));
            at = end_of(bytes, code);
            found.push(Place { body, index, start, code, end: at, behind: count - block - 1 });
        }
    }
    found
}

/// The codes of a record or of a rewriting.
pub fn codes(bytes: &[u8]) -> impl Iterator<Item = u8> + '_ {
    places(bytes).into_iter().map(|p| bytes[p.code])
}

/// How many instructions each block of a record or of a rewriting has.
pub fn counts(bytes: &[u8]) -> Vec<u16> {
    let blocks = names_end(bytes);
    let mut body = blocks + 2;
    let mut next = |_| {
        let n = two(bytes, body);
        body = (0..n).fold(body + 4, |at, _| end_of(bytes, at + id_bytes(bytes)));
        n as u16
    };
    (0..two(bytes, blocks)).map(&mut next).collect()
}

/// The record with one instruction less.
pub fn without(bytes: &[u8], p: Place) -> Vec<u8> {
    let mut less = bytes.to_vec();
    less.drain(p.start..p.end);
    let left = two(bytes, p.body) as u16 - 1;
    less[p.body..p.body + 2].copy_from_slice(&left.to_be_bytes());
    mend_length(&mut less);
    less
}

/// The record with other bytes in place of an instruction.
pub fn instead(bytes: &[u8], p: Place, instr: &[u8]) -> Vec<u8> {
    let mut other = [&bytes[..p.start], instr, &bytes[p.end..]].concat();
    mend_length(&mut other);
    other
}

/// The record up to an instruction, with it or without it; what follows is
/// left out, and the blocks behind are empty.
pub fn up_to(bytes: &[u8], p: Place, with: bool) -> Vec<u8> {
    let mut part = bytes[..if with { p.end } else { p.start }].to_vec();
    let count = (p.index + usize::from(with)) as u16;
    part[p.body..p.body + 2].copy_from_slice(&count.to_be_bytes());
    part.extend(vec![0; 4 * p.behind]);
    mend_length(&mut part);
    part
}
