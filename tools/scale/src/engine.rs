//! The engine of the static library, called as C calls it.

extern "C" {
    fn lvn_run(
        record: *const u8,
        record_length: usize,
        store: *const u8,
        store_length: usize,
        answers: *const u8,
        answers_length: usize,
        limit: u64,
        events: *mut u8,
        events_length: usize,
        left: *mut u8,
        left_length: usize,
        answer: *mut u64,
    ) -> u8;
}

/// Runs a record: the number, and the five values that go with it.
pub fn run(
    record: &[u8],
    store: &[u8],
    answers: &[u8],
    limit: u64,
    events: &mut [u8],
    left: &mut [u8],
) -> (u8, [u64; 5]) {
    let mut answer = [u64::MAX; 5];
    // SAFETY: the slices are valid for the call, which asks nothing of their values; those written to are lent for writing, so
    // that they overlap with nothing.
    let number = unsafe {
        lvn_run(
            record.as_ptr(),
            record.len(),
            store.as_ptr(),
            store.len(),
            answers.as_ptr(),
            answers.len(),
            limit,
            events.as_mut_ptr(),
            events.len(),
            left.as_mut_ptr(),
            left.len(),
            answer.as_mut_ptr(),
        )
    };
    (number, answer)
}
