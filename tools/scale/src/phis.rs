//! What is met of phis in the functions that are compared.

use crate::cut;
use crate::function::{decode, PHI};

#[derive(Default)]
pub struct Phis {
    /// Functions with a phi, and all their phis.
    pub functions: u64,
    pub phis: u64,
    /// Phis with an argument replaced by its home, and phis behind a save.
    pub replaced: u64,
    pub saved: u64,
}

impl Phis {
    /// Counts those of an accepted record, whose rewriting this is: the phis stand there in the same order.
    pub fn count(&mut self, bytes: &[u8], rewriting: &[u8]) {
        if !cut::codes(bytes).any(|code| code == PHI) {
            return;
        }
        self.functions += 1;
        let (f, g) = (decode(bytes), decode(rewriting));
        for (block, written) in f.blocks.iter().zip(&g.blocks) {
            let phis = block.iter().filter(|i| i.code == PHI);
            let places = (0..written.len()).filter(|n| written[*n].code == PHI);
            for (phi, n) in phis.zip(places) {
                let is_save = |k: usize| written[k].code < 64 && usize::from(written[k].dest) >= f.names.len();
                self.phis += 1;
                self.replaced += u64::from(phi.args != written[n].args);
                self.saved += u64::from(n > 0 && is_save(n - 1));
            }
        }
    }
}
