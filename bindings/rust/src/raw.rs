//! The C functions of the static library, and the structs that they leave
//! their answers in, as include/lvn.h has them.

#[repr(C)]
#[derive(Default)]
pub struct Ran {
    pub events: u64,
    pub store: u64,
    pub steps: u64,
    pub ended: u64,
    pub id: u64,
}

#[repr(C)]
#[derive(Default)]
pub struct Rewritten {
    pub count: usize,
    pub saves: usize,
}

#[repr(C)]
#[derive(Default)]
pub struct Named {
    pub offset: usize,
    pub in_rewriting: usize,
    pub from: usize,
    pub count: usize,
}

extern "C" {
    pub fn lvn_check(input: *const u8, length: usize, offset: *mut usize) -> u8;

    pub fn lvn_rewrite(
        input: *const u8,
        input_length: usize,
        output: *mut u8,
        output_length: usize,
        answer: *mut Rewritten,
    ) -> u8;

    pub fn lvn_figures(
        input: *const u8,
        input_length: usize,
        figures: *mut u16,
        figures_length: usize,
        answer: *mut Rewritten,
    ) -> u8;

    pub fn lvn_name_text(
        input: *const u8,
        input_length: usize,
        rewriting: *const u8,
        rewriting_length: usize,
        index: usize,
        answer: *mut Named,
    ) -> u8;

    pub fn lvn_run(
        record: *const u8,
        record_length: usize,
        store: *const u8,
        store_length: usize,
        answers: *const u8,
        answers_length: usize,
        limit: u64,
        events: *mut u8,
        events_length: usize,
        final_store: *mut u8,
        final_length: usize,
        answer: *mut Ran,
    ) -> u8;

    pub fn lvn_widen(
        input: *const u8,
        input_length: usize,
        output: *mut u8,
        output_length: usize,
        answer: *mut usize,
    ) -> u8;

    pub fn lvn_narrow(
        input: *const u8,
        input_length: usize,
        output: *mut u8,
        output_length: usize,
        answer: *mut usize,
    ) -> u8;
}
