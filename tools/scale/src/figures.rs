//! The figures of a record, held to what is written for it.

use crate::cut;
use crate::guarded::Guarded;
use lvn::{Counted, Refused, Uncounted};

/// Places that are lent to figures, and how often each outcome was the expected one.
pub struct Places {
    places: Guarded<u16>,
    /// Accepted with as many places as blocks, and with more.
    pub exact: u64,
    pub more: u64,
    /// Refusal 12.
    pub fewer: u64,
    /// Refusals of check.
    pub refused: u64,
}

impl Places {
    pub fn new() -> Self {
        Places { places: Guarded::new(0xA5A5), exact: 0, more: 0, fewer: 0, refused: 0 }
    }

    /// Of a record that check refuses, with no place and with many.
    pub fn refused(&mut self, bytes: &[u8], refused: Refused) -> Result<(), String> {
        for count in [0, 100] {
            self.asked(bytes, count, Err(Uncounted::Refused(refused)), &[])?;
            self.refused += 1;
        }
        Ok(())
    }

    /// Of an accepted record, by its rewriting: with as many places as blocks, and by turns with one too few, one more, none
    /// and many.
    pub fn accepted(
        &mut self,
        bytes: &[u8],
        rewriting: &[u8],
        saves: usize,
        turn: usize,
    ) -> Result<(), String> {
        let each = cut::counts(rewriting);
        let blocks = each.len();
        let counted = Counted { bytes: rewriting.len(), saves };
        let other = [blocks.saturating_sub(1), blocks + 1, 0, blocks + 2 + turn % 97][turn % 4];
        for count in [blocks, other] {
            if count < blocks {
                self.asked(bytes, count, Err(Uncounted::TooFew), &[])?;
                self.fewer += 1;
            } else {
                self.asked(bytes, count, Ok(counted), &each)?;
                *(if count == blocks { &mut self.exact } else { &mut self.more }) += 1;
            }
        }
        Ok(())
    }

    /// Asks with so many places: the answer, the figures that stand first, and the places beyond, untouched.
    fn asked(
        &mut self,
        bytes: &[u8],
        count: usize,
        expected: Result<Counted, Uncounted>,
        each: &[u16],
    ) -> Result<(), String> {
        let answer = self.places.lend(count, |places| lvn::figures(bytes, places))?;
        let (first, beyond) = self.places.lent().split_at(each.len());
        if answer != expected || first != each {
            return Err(format!(
                "figures with {count} places: {answer:?} {first:?}, expected {expected:?} {each:?}"
            ));
        }
        if !self.places.untouched(beyond) {
            return Err(format!("figures with {count} places: one beyond {} was written", each.len()));
        }
        Ok(())
    }
}
