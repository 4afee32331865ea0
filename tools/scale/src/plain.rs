//! The plain conversion between versions 1 and 2, as it is written without proof: the instructions of a record one after the other, each read
//! once, and written with an id of the other width. What the library's widening and narrowing are held to, and timed beside. The record has
//! to be one that check accepts, or a rewriting of one; that is not tested.

use crate::cut;
use crate::function::{id_bytes, mend_length};

/// A record that is read, and what is written of it.
struct Copy<'a> {
    record: &'a [u8],
    at: usize,
    out: &'a mut [u8],
    to: usize,
}

impl Copy<'_> {
    /// Copies so many bytes.
    fn bytes(&mut self, count: usize) {
        self.out[self.to..self.to + count].copy_from_slice(&self.record[self.at..self.at + count]);
        self.at += count;
        self.to += count;
    }

    fn take<const WIDTH: usize>(&mut self) -> [u8; WIDTH] {
        self.at += WIDTH;
        self.record[self.at - WIDTH..self.at].try_into().expect("so many bytes")
    }

    fn put<const WIDTH: usize>(&mut self, bytes: [u8; WIDTH]) {
        self.to += WIDTH;
        self.out[self.to - WIDTH..self.to].copy_from_slice(&bytes);
    }

    /// An instruction; or its offset, if its id has no room.
    fn instr(&mut self, from: usize, to: usize) -> Result<(), usize> {
        let start = self.at;
        let id = if from == 4 { u32::from_be_bytes(self.take()).into() } else { u64::from_be_bytes(self.take()) };
        match u32::try_from(id) {
            _ if to == 8 => self.put(id.to_be_bytes()),
            Ok(id) => self.put(id.to_be_bytes()),
            Err(_) => return Err(start),
        }
        self.bytes(cut::end_of(self.record, self.at) - self.at);
        Ok(())
    }
}

/// Writes a record in a version: the bytes written, or the offset of the first instruction whose id has no room. The output has to
/// suffice: that of version 2 has less than twice as many bytes, that of version 1 no more.
pub fn convert(record: &[u8], version: u8, out: &mut [u8]) -> Result<usize, usize> {
    let (from, to) = (id_bytes(record), if version == 2 { 8 } else { 4 });
    let blocks = cut::names_end(record);
    let mut copy = Copy { record, at: 0, out, to: 0 };
    copy.bytes(blocks + 2);
    copy.out[4] = version;
    for _ in 0..cut::two(record, blocks) {
        let count = cut::two(record, copy.at);
        copy.bytes(4);
        for _ in 0..count {
            copy.instr(from, to)?;
        }
    }
    let size = copy.to;
    mend_length(&mut out[..size]);
    Ok(size)
}

/// A record, or a rewriting, in a version; or the offset of the first instruction whose id has no room.
pub fn converted(record: &[u8], version: u8) -> Result<Vec<u8>, usize> {
    let mut out = vec![0; 2 * record.len()];
    let size = convert(record, version, &mut out)?;
    out.truncate(size);
    Ok(out)
}

/// The version that a record does not have.
pub fn other(record: &[u8]) -> u8 {
    3 - record[4]
}
