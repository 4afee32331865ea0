//! The hand port: check and rewrite in C, by hand and without proof, a mark of how fast they could be. Its folder is not
//! in this repository; without it nothing is there to time.

use lvn::{Refused, Unwritten, Written};

pub struct HandPort {
    pub check: fn(&[u8]) -> Result<(), Refused>,
    pub rewrite: fn(&[u8], &mut [u8]) -> Result<Written, Unwritten>,
}

#[cfg(not(handport))]
pub fn hand_port() -> Option<HandPort> {
    None
}

#[cfg(handport)]
pub fn hand_port() -> Option<HandPort> {
    Some(HandPort { check: there::check, rewrite: there::rewrite })
}

#[cfg(handport)]
mod there {
    use super::{Refused, Unwritten, Written};

    #[repr(C)]
    #[derive(Default)]
    struct Rewritten {
        count: usize,
        saves: usize,
    }

    extern "C" {
        fn hp_check(input: *const u8, length: usize, offset: *mut usize) -> u8;
        fn hp_rewrite(input: *const u8, length: usize, output: *mut u8, room: usize, answer: *mut Rewritten)
            -> u8;
    }

    pub fn check(input: &[u8]) -> Result<(), Refused> {
        let mut offset = 0;
        // SAFETY: the slice and the number are valid for the call.
        match unsafe { hp_check(input.as_ptr(), input.len(), &mut offset) } {
            0 => Ok(()),
            number => Err(Refused { number, offset }),
        }
    }

    pub fn rewrite(input: &[u8], output: &mut [u8]) -> Result<Written, Unwritten> {
        let mut answer = Rewritten::default();
        let (from, to) = (input.as_ptr(), output.as_mut_ptr());
        // SAFETY: as for check; `output` is lent for writing, so it overlaps with nothing.
        match unsafe { hp_rewrite(from, input.len(), to, output.len(), &mut answer) } {
            0 => Ok(Written { bytes: answer.count, saves: answer.saves }),
            9 => Err(Unwritten::Room(answer.count)),
            number => Err(Unwritten::Refused(Refused { number, offset: answer.count })),
        }
    }
}
