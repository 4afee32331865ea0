//! Widening and narrowing of a record, held to the plain conversion: with outputs that suffice and too short ones, and back again.

use crate::conversions;
use crate::guarded::Guarded;
use crate::one::hex;
use crate::plain;

/// What is lent to widening and narrowing, and how often each outcome was the expected one.
pub struct Versions {
    output: Guarded<u8>,
    /// Records of version 1 that were widened and narrowed again, and records of version 2 that were narrowed and widened again: to their bytes.
    pub widened: u64,
    pub narrowed: u64,
    /// Records that are in the version already.
    pub unchanged: u64,
    /// Refusals 15, 9 and those of check.
    pub wide: u64,
    pub short: u64,
    pub refused: u64,
}

impl Versions {
    pub fn new() -> Self {
        Versions { output: Guarded::new(0xA5), widened: 0, narrowed: 0, unchanged: 0, wide: 0, short: 0, refused: 0 }
    }

    /// Asks with so much room: the number, its value, what stands first, and the rest untouched.
    fn asked(
        &mut self,
        bytes: &[u8],
        version: u8,
        room: usize,
        expected: (u8, usize),
        written: &[u8],
    ) -> Result<(), String> {
        let answer = self.output.lend(room, |out| conversions::convert(bytes, version, out))?;
        if answer != expected {
            return Err(format!("to version {version} with {room} bytes lent {answer:?}, expected {expected:?}"));
        }
        let (first, beyond) = self.output.lent().split_at(written.len());
        if first != written {
            return Err(format!("in version {version}\n{}\nexpected\n{}", hex(first), hex(written)));
        }
        if !self.output.untouched(beyond) {
            return Err(format!("to version {version} with {room} bytes lent one beyond {} was written", written.len()));
        }
        Ok(())
    }

    /// Of a record that check refuses, into both versions, with no room and with much.
    pub fn refused(&mut self, bytes: &[u8], number: u8, offset: usize) -> Result<(), String> {
        for version in [1, 2] {
            for room in [0, 2 * bytes.len()] {
                self.asked(bytes, version, room, (number, offset), &[])?;
                self.refused += 1;
            }
        }
        Ok(())
    }

    /// With exactly the bytes that are needed, one too few, and by turns none and more.
    fn written(&mut self, bytes: &[u8], version: u8, written: &[u8], turn: usize) -> Result<(), String> {
        let needed = written.len();
        for room in [needed - 1, needed, [0, 4, needed / 2, needed + 1 + turn % 97][turn % 4]] {
            if room < needed {
                self.asked(bytes, version, room, (9, needed), &[])?;
                self.short += 1;
            } else {
                self.asked(bytes, version, room, (0, needed), written)?;
            }
        }
        Ok(())
    }

    /// Of an accepted record, into both versions, and back from the other; the record in the other version, where its ids have room there.
    pub fn accepted(&mut self, bytes: &[u8], turn: usize) -> Result<Option<Vec<u8>>, String> {
        let (own, other) = (bytes[4], plain::other(bytes));
        self.written(bytes, own, bytes, turn)?;
        self.unchanged += 1;
        let form = match plain::converted(bytes, other) {
            Ok(form) => form,
            Err(offset) => {
                for room in [0, turn % bytes.len(), bytes.len()] {
                    self.asked(bytes, other, room, (15, offset), &[])?;
                    self.wide += 1;
                }
                return Ok(None);
            }
        };
        self.written(bytes, other, &form, turn / 4)?;
        self.written(&form, own, bytes, turn / 16)?;
        *(if other == 2 { &mut self.widened } else { &mut self.narrowed }) += 1;
        Ok(Some(form))
    }
}
