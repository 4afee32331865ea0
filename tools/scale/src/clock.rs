//! The time of what is called: the thread's own, the middle of many rounds.

use std::hint::black_box;
use std::time::{Duration, Instant};

#[repr(C)]
struct Timespec {
    seconds: i64,
    nanoseconds: i64,
}

extern "C" {
    fn clock_gettime(clock: i32, time: *mut Timespec) -> i32;
}

/// Nanoseconds that this thread has run, so that other work on the machine counts little.
pub fn now() -> i64 {
    let mut time = Timespec { seconds: 0, nanoseconds: 0 };
    // SAFETY: the C library writes one timespec; 3 is CLOCK_THREAD_CPUTIME_ID on Linux.
    unsafe { clock_gettime(3, &mut time) };
    time.seconds * 1_000_000_000 + time.nanoseconds
}

/// A turn with so many bytes more on the stack.
#[inline(never)]
fn deeper<const BYTES: usize>(turn: &mut impl FnMut() -> i64) -> i64 {
    black_box(&[0u8; BYTES]);
    turn()
}

/// The turn of a round, at another place of the stack in each of four: by where its tables lie a call takes some hundredths more or less.
fn placed(round: usize, turn: &mut impl FnMut() -> i64) -> i64 {
    match round % 4 {
        0 => deeper::<16>(turn),
        1 => deeper::<32>(turn),
        2 => deeper::<48>(turn),
        _ => deeper::<64>(turn),
    }
}

/// The middle time: one round in which the clock reads short changes nothing.
fn middle_of(mut all: Vec<i64>) -> f64 {
    all.sort_unstable();
    all[all.len() / 2] as f64
}

/// The middle time of a turn, over so many seconds.
pub fn middle(seconds: u64, mut turn: impl FnMut() -> i64) -> f64 {
    let start = Instant::now();
    let mut all = vec![turn()];
    while start.elapsed() < Duration::from_secs(seconds) {
        all.push(placed(all.len(), &mut turn));
    }
    middle_of(all)
}

/// What is timed again and again; it gives the time it took.
pub type Turn<'a> = Box<dyn FnMut() -> i64 + 'a>;

/// The same of some that alternate, over so many seconds for each, so that whatever slows the machine for a while slows all.
pub fn middles_of(seconds: u64, turns: &mut [Turn]) -> Vec<f64> {
    let start = Instant::now();
    let mut all: Vec<Vec<i64>> = turns.iter_mut().map(|turn| vec![turn()]).collect();
    while start.elapsed() < Duration::from_secs(turns.len() as u64 * seconds) {
        for (found, turn) in all.iter_mut().zip(turns.iter_mut()) {
            found.push(placed(found.len(), turn));
        }
    }
    all.into_iter().map(middle_of).collect()
}

/// The same of two.
pub fn middles(seconds: u64, one: impl FnMut() -> i64, other: impl FnMut() -> i64) -> (f64, f64) {
    let found = middles_of(seconds, &mut [Box::new(one), Box::new(other)]);
    (found[0], found[1])
}
