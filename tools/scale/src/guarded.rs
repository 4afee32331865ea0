//! Slices that are lent between guard places.

const GUARD: usize = 64;

/// An output, or places for figures, between guards, all filled before a call.
pub struct Guarded<T> {
    all: Vec<T>,
    fill: T,
}

impl<T: Copy + PartialEq> Guarded<T> {
    pub fn new(fill: T) -> Self {
        Guarded { all: vec![], fill }
    }

    /// Lends so many places; the answer, if no guard was touched.
    pub fn lend<A>(&mut self, size: usize, call: impl FnOnce(&mut [T]) -> A) -> Result<A, String> {
        self.all.clear();
        self.all.resize(size + 2 * GUARD, self.fill);
        let answer = call(&mut self.all[GUARD..GUARD + size]);
        if self.untouched(&self.all[..GUARD]) && self.untouched(&self.all[GUARD + size..]) {
            Ok(answer)
        } else {
            Err(format!("a guard beside {size} lent places was written"))
        }
    }

    /// What was lent, as the call left it.
    pub fn lent(&self) -> &[T] {
        &self.all[GUARD..self.all.len() - GUARD]
    }

    pub fn untouched(&self, part: &[T]) -> bool {
        part.iter().all(|x| *x == self.fill)
    }
}
