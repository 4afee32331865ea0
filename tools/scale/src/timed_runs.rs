//! Times the engine beside the plain interpreter, both for the whole call: a loop of arithmetic of three lengths, to show that
//! time is linear in steps, a loop that prints, and a straight block. The engine tests the record too, which the interpreter takes
//! for granted; it is lent what it writes to, which the interpreter allocates.

use crate::clock::{middles, now};
use crate::engine;
use crate::function::{encode, Function, Instr, BOOL, INT};
use crate::house::{framed, store_bytes, Answer, Value};
use crate::interpret;
use std::hint::black_box;

const PRINTS: i64 = 100_000;

struct Timed {
    name: &'static str,
    record: Vec<u8>,
    store: Vec<u8>,
    answers: Vec<u8>,
    /// Calls between two looks at the clock.
    repeats: usize,
}

fn function(names: &[(u8, &str)], blocks: Vec<Vec<Instr>>) -> Function {
    let names = names.iter().map(|(t, text)| (*t, text.as_bytes().to_vec())).collect();
    Function::new(3, names, blocks)
}

fn op(id: u64, code: u8, dest: u16, args: &[u16]) -> Instr {
    Instr { id, code, dest, args: args.to_vec(), ..Instr::default() }
}

fn branch(id: u64, arg: u16, yes: u16, no: u16) -> Instr {
    Instr { id, code: 65, args: vec![arg], blocks: [yes, no, 0, 0, 0, 0, 0, 0], ..Instr::default() }
}

/// From n, 1 and 0 in the arguments, with nothing else set.
fn timed(name: &'static str, f: &Function, n: i64, answers: &[Answer], repeats: usize) -> Timed {
    let mut store = vec![None; f.names.len()];
    for (value, x) in store.iter_mut().zip([n, 1, 0]) {
        *value = Some(Value::Int(x));
    }
    let answers = framed(|out| answers.iter().for_each(|a| a.put(out)));
    Timed { name, record: encode(f), store: store_bytes(&store), answers, repeats }
}

fn all() -> [Timed; 5] {
    let names = [(INT, "n"), (INT, "one"), (INT, "zero"), (INT, "i"), (INT, "s"), (INT, "t"), (BOOL, "c")];
    let [n, one, zero, i, s, t, c] = [0, 1, 2, 3, 4, 5, 6];
    let first = vec![op(1, 13, i, &[zero]), op(2, 13, s, &[zero])];
    let sums = vec![
        op(3, 1, s, &[s, i]),
        op(4, 3, t, &[s, one]),
        op(5, 1, i, &[i, one]),
        op(6, 6, c, &[i, n]),
        branch(7, c, 1, 2),
    ];
    let prints = vec![op(3, 1, i, &[i, one]), op(4, 68, 0, &[i]), op(5, 6, c, &[i, n]), branch(6, c, 1, 2)];
    let last = vec![op(8, 66, 0, &[s])];
    let straight =
        (0..256).map(|k| op(k, [1, 3, 2, 1][k as usize % 4], [i, s, t][k as usize % 3], &[n, one])).collect();
    let looped = function(&names, vec![first.clone(), sums, last.clone()]);
    let printed = function(&names, vec![first, prints, last]);
    [
        // Two ids, five steps for each of n turns, and ret.
        timed("a loop of arithmetic, 10,003 steps", &looped, 2_000, &[], 20),
        timed("a loop of arithmetic, 1,000,003 steps", &looped, 200_000, &[], 1),
        timed("a loop of arithmetic, 10,000,003 steps", &looped, 2_000_000, &[], 1),
        timed("a loop with 100,000 prints", &printed, PRINTS, &[Answer::GoOn; PRINTS as usize], 1),
        timed("a straight block of 256", &function(&names, vec![straight]), 7, &[], 100),
    ]
}

/// What both write, if it is the same.
fn agreed(t: &Timed) -> Option<interpret::Ran> {
    let ran = interpret::run(&t.record, &t.store, &t.answers, u64::MAX).ok()?;
    let (mut events, mut left) = (vec![0; ran.events.len()], vec![0; ran.store.len()]);
    let (number, values) = engine::run(&t.record, &t.store, &t.answers, u64::MAX, &mut events, &mut left);
    let same = number == 0 && values[2] == ran.steps && events == ran.events && left == ran.store;
    same.then_some(ran)
}

/// A turn: so many calls.
fn turn<'a>(repeats: usize, mut call: impl FnMut() + 'a) -> impl FnMut() -> i64 + 'a {
    move || {
        let start = now();
        (0..repeats).for_each(|_| call());
        now() - start
    }
}

/// Times each; whether both sides write the same.
pub fn run(seconds: u64) -> bool {
    println!("runs: ns for a call and for a step; a ratio is the plain interpreter's time over ours");
    println!("| run | steps | bytes of events | engine | per step | interpreter | per step | ratio |");
    println!("|{}", "---|".repeat(8));
    for t in all() {
        let Some(ran) = agreed(&t) else {
            println!("{}: the engine and the interpreter differ", t.name);
            return false;
        };
        let (mut events, mut left) = (vec![0; ran.events.len()], vec![0; ran.store.len()]);
        let ours = turn(t.repeats, || {
            black_box(engine::run(black_box(&t.record), &t.store, &t.answers, u64::MAX, &mut events, &mut left));
        });
        let plain = turn(t.repeats, || {
            black_box(interpret::run(black_box(&t.record), &t.store, &t.answers, u64::MAX).is_ok());
        });
        let (ours, plain) = middles(seconds, ours, plain);
        let [ours, plain] = [ours, plain].map(|x| x / t.repeats as f64);
        let each = |x: f64| x / ran.steps as f64;
        println!(
            "| {} | {} | {} | {ours:.0} | {:.2} | {plain:.0} | {:.2} | {:.2} |",
            t.name,
            ran.steps,
            ran.events.len(),
            each(ours),
            each(plain),
            plain / ours
        );
    }
    true
}
