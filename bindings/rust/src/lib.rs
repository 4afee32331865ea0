//! Local value numbering of Bril function records: safe functions over the
//! static library of the crate `exports`. What each answers is proved there;
//! `include/lvn.h` says it in words.

use std::{error, fmt};

mod raw;

/// A refusal's number and offset: 1 to 8 of check; 6 and 11, at offset 0, of
/// name text.
#[derive(Clone, Copy, Debug, PartialEq, Eq)]
pub struct Refused {
    pub number: u8,
    pub offset: usize,
}

impl fmt::Display for Refused {
    fn fmt(&self, f: &mut fmt::Formatter) -> fmt::Result {
        write!(f, "refused {} at {}", self.number, self.offset)
    }
}

impl error::Error for Refused {}

/// What was written: bytes, and all saves.
#[derive(Clone, Copy, Debug, PartialEq, Eq)]
pub struct Written {
    pub bytes: usize,
    pub saves: usize,
}

/// Why nothing was written.
#[derive(Clone, Copy, Debug, PartialEq, Eq)]
pub enum Unwritten {
    /// The record is refused.
    Refused(Refused),
    /// The output is shorter than this, the bytes of the rewriting.
    Room(usize),
}

impl fmt::Display for Unwritten {
    fn fmt(&self, f: &mut fmt::Formatter) -> fmt::Result {
        match self {
            Unwritten::Refused(refused) => refused.fmt(f),
            Unwritten::Room(bytes) => write!(f, "the output needs {bytes} bytes"),
        }
    }
}

impl error::Error for Unwritten {}

/// What the rewriting of a record has: bytes, and all saves.
#[derive(Clone, Copy, Debug, PartialEq, Eq)]
pub struct Counted {
    pub bytes: usize,
    pub saves: usize,
}

/// Why nothing was counted.
#[derive(Clone, Copy, Debug, PartialEq, Eq)]
pub enum Uncounted {
    /// The record is refused.
    Refused(Refused),
    /// The record has more blocks than there are places: refusal 12.
    TooFew,
}

impl fmt::Display for Uncounted {
    fn fmt(&self, f: &mut fmt::Formatter) -> fmt::Result {
        match self {
            Uncounted::Refused(refused) => refused.fmt(f),
            Uncounted::TooFew => write!(f, "fewer places than blocks"),
        }
    }
}

impl error::Error for Uncounted {}

/// How a run ended.
#[derive(Clone, Copy, Debug, PartialEq, Eq)]
pub enum Ending {
    End,
    Ret,
    Halt,
    Unset,
    /// A division by zero, with its id.
    Division(u64),
    /// The limit is spent.
    Limit,
}

/// What a run came to: the bytes of its events and of its final store, its
/// steps, and how it ended.
#[derive(Clone, Copy, Debug, PartialEq, Eq)]
pub struct Ran {
    pub events: usize,
    pub store: usize,
    pub steps: u64,
    pub ending: Ending,
}

/// Why nothing was written by a run.
#[derive(Clone, Copy, Debug, PartialEq, Eq)]
pub enum NotRun {
    /// The record is refused.
    Refused(Refused),
    /// Store or answers do not read, a stored value is not of its name's type,
    /// or an answer that was taken does not fit: refusal 13.
    Unfit,
    /// The events or the final store need more bytes than were lent, with the
    /// bytes of each: refusal 14.
    Room { events: usize, store: usize },
}

impl fmt::Display for NotRun {
    fn fmt(&self, f: &mut fmt::Formatter) -> fmt::Result {
        match self {
            NotRun::Refused(refused) => refused.fmt(f),
            NotRun::Unfit => write!(f, "store or answers do not fit"),
            NotRun::Room { events, store } => {
                write!(f, "the events need {events} bytes and the store {store}")
            }
        }
    }
}

impl error::Error for NotRun {}

/// Why a record was not widened or narrowed.
#[derive(Clone, Copy, Debug, PartialEq, Eq)]
pub enum Unconverted {
    /// The record is refused.
    Refused(Refused),
    /// In narrowing: the offset of the first instruction whose id is 2^32 or
    /// more: refusal 15.
    Wide(usize),
    /// The output is shorter than this, the bytes needed.
    Room(usize),
}

impl fmt::Display for Unconverted {
    fn fmt(&self, f: &mut fmt::Formatter) -> fmt::Result {
        match self {
            Unconverted::Refused(refused) => refused.fmt(f),
            Unconverted::Wide(offset) => write!(f, "refused 15 at {offset}"),
            Unconverted::Room(bytes) => write!(f, "the output needs {bytes} bytes"),
        }
    }
}

impl error::Error for Unconverted {}

/// Whether the bytes are the record of a function, or the first fault.
pub fn check(input: &[u8]) -> Result<(), Refused> {
    let mut offset = 0;
    // SAFETY: the slice and the number are valid for the call, which asks nothing of their values.
    let number = unsafe { raw::lvn_check(input.as_ptr(), input.len(), &mut offset) };
    match number {
        0 => Ok(()),
        _ => Err(Refused { number, offset }),
    }
}

/// Writes the rewriting of a record to the start of `output`. Otherwise
/// `output` stays as it was; the bytes beyond stay as they were in any case.
pub fn rewrite(input: &[u8], output: &mut [u8]) -> Result<Written, Unwritten> {
    let mut answer = raw::Rewritten::default();
    let (from, to) = (input.as_ptr(), output.as_mut_ptr());
    // SAFETY: as for check; `output` is lent for writing, so it overlaps with nothing.
    let number = unsafe { raw::lvn_rewrite(from, input.len(), to, output.len(), &mut answer) };
    match number {
        0 => Ok(Written { bytes: answer.count, saves: answer.saves }),
        9 => Err(Unwritten::Room(answer.count)),
        _ => Err(Unwritten::Refused(Refused { number, offset: answer.count })),
    }
}

/// The rewriting of a record, and all saves.
pub fn rewriting(input: &[u8]) -> Result<(Vec<u8>, usize), Refused> {
    let mut output = vec![0; 2 * input.len()];
    loop {
        match rewrite(input, &mut output) {
            Ok(written) => {
                output.truncate(written.bytes);
                return Ok((output, written.saves));
            }
            Err(Unwritten::Room(bytes)) => output.resize(bytes, 0),
            Err(Unwritten::Refused(refused)) => return Err(refused),
        }
    }
}

/// What `rewrite` would give, without an output: bytes, saves, and at the
/// start of `each`, for each block, the instructions of its rewriting.
/// Otherwise `each` stays as it was; the places beyond stay as they were in
/// any case.
pub fn figures(input: &[u8], each: &mut [u16]) -> Result<Counted, Uncounted> {
    let mut answer = raw::Rewritten::default();
    let (from, to) = (input.as_ptr(), each.as_mut_ptr());
    // SAFETY: as for rewrite.
    let number = unsafe { raw::lvn_figures(from, input.len(), to, each.len(), &mut answer) };
    match number {
        0 => Ok(Counted { bytes: answer.count, saves: answer.saves }),
        12 => Err(Uncounted::TooFew),
        _ => Err(Uncounted::Refused(Refused { number, offset: answer.count })),
    }
}

/// The figures of a record: bytes, saves, and for each block the instructions
/// of its rewriting.
pub fn figures_of(input: &[u8]) -> Result<(Counted, Vec<u16>), Refused> {
    // A record has at most 64 blocks and a figure is at most 512, so the first place that still has u16::MAX is beyond the last block.
    let mut each = vec![u16::MAX; 64];
    match figures(input, &mut each) {
        Ok(counted) => {
            each.truncate(each.iter().position(|n| *n == u16::MAX).unwrap_or(64));
            Ok((counted, each))
        }
        Err(Uncounted::Refused(refused)) => Err(refused),
        Err(Uncounted::TooFew) => unreachable!("a record has at most 64 blocks"),
    }
}

/// The text of the name with an index, from the input or from its rewriting.
pub fn name_text<'a>(input: &'a [u8], rewriting: &'a [u8], index: usize) -> Result<&'a [u8], Refused> {
    let mut answer = raw::Named::default();
    let (one, two) = (input.as_ptr(), rewriting.as_ptr());
    // SAFETY: as for check.
    let number =
        unsafe { raw::lvn_name_text(one, input.len(), two, rewriting.len(), index, &mut answer) };
    if number != 0 {
        return Err(Refused { number, offset: answer.offset });
    }
    let record = if answer.in_rewriting == 0 { input } else { rewriting };
    Ok(&record[answer.from..answer.from + answer.count])
}

/// Runs the function of a record on the plain machine, from a starting store
/// and with a list of answers, both in the house form, for at most `limit`
/// steps. The events go to the start of `events`, with ids as wide as the
/// record's, the final store to that of `left`. Otherwise both stay as they
/// were; the bytes beyond stay as they were in any case.
pub fn run(
    record: &[u8],
    store: &[u8],
    answers: &[u8],
    limit: u64,
    events: &mut [u8],
    left: &mut [u8],
) -> Result<Ran, NotRun> {
    let mut answer = raw::Ran::default();
    // SAFETY: as for rewrite.
    let number = unsafe {
        raw::lvn_run(
            record.as_ptr(),
            record.len(),
            store.as_ptr(),
            store.len(),
            answers.as_ptr(),
            answers.len(),
            limit,
            events.as_mut_ptr(),
            events.len(),
            left.as_mut_ptr(),
            left.len(),
            &mut answer,
        )
    };
    let (events, store) = (answer.events as usize, answer.store as usize);
    match number {
        0 => Ok(Ran { events, store, steps: answer.steps, ending: ending(&answer) }),
        13 => Err(NotRun::Unfit),
        14 => Err(NotRun::Room { events, store }),
        _ => Err(NotRun::Refused(Refused { number, offset: events })),
    }
}

/// What a run comes to, with its events and its final store.
pub fn run_of(record: &[u8], store: &[u8], answers: &[u8], limit: u64) -> Result<(Ran, Vec<u8>, Vec<u8>), NotRun> {
    // An event has at most 148 bytes, and there is one for each answer, which has a byte or more behind the list's five, and one more.
    let most = answers.len().saturating_sub(5) + 1;
    let (mut events, mut left) = (vec![0; 148 * most], vec![0; 4357]); // no final store is longer
    let ran = run(record, store, answers, limit, &mut events, &mut left)?;
    events.truncate(ran.events);
    left.truncate(ran.store);
    Ok((ran, events, left))
}

fn ending(answer: &raw::Ran) -> Ending {
    match answer.ended {
        0 => Ending::End,
        1 => Ending::Ret,
        2 => Ending::Halt,
        3 => Ending::Unset,
        4 => Ending::Division(answer.id),
        _ => Ending::Limit,
    }
}

/// What `widen` and `narrow` have in common: the number, and the value left.
fn converted(number: u8, value: usize) -> Result<usize, Unconverted> {
    match number {
        0 => Ok(value),
        9 => Err(Unconverted::Room(value)),
        15 => Err(Unconverted::Wide(value)),
        _ => Err(Unconverted::Refused(Refused { number, offset: value })),
    }
}

/// Writes a record in version 2, whose ids have eight bytes, to the start of
/// `output`: how many bytes. One of version 2 is unchanged. Otherwise `output`
/// stays as it was; the bytes beyond stay as they were in any case.
pub fn widen(input: &[u8], output: &mut [u8]) -> Result<usize, Unconverted> {
    let mut answer = 0;
    let (from, to) = (input.as_ptr(), output.as_mut_ptr());
    // SAFETY: as for rewrite.
    let number = unsafe { raw::lvn_widen(from, input.len(), to, output.len(), &mut answer) };
    converted(number, answer)
}

/// As `widen`, in version 1, whose ids have four bytes. One of version 1 is
/// unchanged.
pub fn narrow(input: &[u8], output: &mut [u8]) -> Result<usize, Unconverted> {
    let mut answer = 0;
    let (from, to) = (input.as_ptr(), output.as_mut_ptr());
    // SAFETY: as for rewrite.
    let number = unsafe { raw::lvn_narrow(from, input.len(), to, output.len(), &mut answer) };
    converted(number, answer)
}

/// A record in version 2.
pub fn widened(input: &[u8]) -> Result<Vec<u8>, Unconverted> {
    let mut output = vec![0; 2 * input.len()]; // an instruction of six bytes, the fewest, becomes one of ten
    let bytes = widen(input, &mut output)?;
    output.truncate(bytes);
    Ok(output)
}

/// A record in version 1.
pub fn narrowed(input: &[u8]) -> Result<Vec<u8>, Unconverted> {
    let mut output = vec![0; input.len()]; // no narrowing is longer than the record
    let bytes = narrow(input, &mut output)?;
    output.truncate(bytes);
    Ok(output)
}
