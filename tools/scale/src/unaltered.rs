//! The unaltered Rust beside the altered one. On a function without gt and ge it is a yardstick too: both must answer the same.

use crate::cut;
use oracle::{Answer, Rust};

/// How often the unaltered Rust was asked, and what it answered.
#[derive(Default)]
pub struct Unaltered {
    /// Functions without gt and ge: the same answer.
    pub without: u64,
    /// Functions with gt or ge, and those of them that it writes otherwise.
    pub with: u64,
    pub otherwise: u64,
    /// Those in which it writes more comparisons: here gt and lt, or ge and le, share a number.
    pub shared: u64,
}

/// How many comparisons of ints a rewriting has.
fn comparisons(rewriting: &[u8]) -> usize {
    cut::codes(rewriting).filter(|code| (6..=9).contains(code)).count()
}

impl Unaltered {
    /// Asks for an accepted record, whose answer by the altered Rust this is.
    pub fn ask(&mut self, bytes: &[u8], altered: &Answer) -> Result<(), String> {
        let answer = oracle::rewrite(Rust::Unaltered, bytes);
        let same = answer == *altered;
        if cut::codes(bytes).any(|code| code == 7 || code == 9) {
            self.with += 1;
            self.otherwise += u64::from(!same);
            if let (Answer::Rewriting(one), Answer::Rewriting(other)) = (&answer, altered) {
                self.shared += u64::from(comparisons(one) > comparisons(other));
            }
        } else if same {
            self.without += 1;
        } else {
            return Err("without gt and ge, and the altered and the unaltered Rust answer differently".to_string());
        }
        Ok(())
    }
}
