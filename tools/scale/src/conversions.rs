//! Widening and narrowing of the static library, called as C calls them.

extern "C" {
    fn lvn_widen(input: *const u8, length: usize, output: *mut u8, room: usize, answer: *mut usize) -> u8;
    fn lvn_narrow(input: *const u8, length: usize, output: *mut u8, room: usize, answer: *mut usize) -> u8;
}

/// Writes a record in a version: the number, and the value that goes with it.
pub fn convert(record: &[u8], version: u8, out: &mut [u8]) -> (u8, usize) {
    let mut answer = usize::MAX;
    let call = if version == 2 { lvn_widen } else { lvn_narrow };
    // SAFETY: the slices are valid for the call, which asks nothing of their values; `out` is lent for writing, so it overlaps with nothing.
    let number = unsafe { call(record.as_ptr(), record.len(), out.as_mut_ptr(), out.len(), &mut answer) };
    (number, answer)
}
