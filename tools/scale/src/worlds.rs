//! Random stores, answers and limits for a function: mostly ones that fit, some that do not, and some that do not read.

use crate::function::{BOOL, CHAR, FLOAT, INT};
use crate::house::{framed, store_bytes, Answer, Value, HELD};
use crate::interpret::{Code, Ended, Instr, Machine, World};
use crate::rng::Rng;

/// Answers that are drawn for a run, steps after which it counts as one that does not end, and the limit of a call that was
/// changed, and so may not end.
const MOST: usize = 60;
const LONG: u64 = 400;
const LONGEST: u64 = 2000;

const INTS: [i64; 14] = [0, 0, 0, 1, 1, 1, 2, -1, 3, -7, i64::MAX, i64::MIN, i64::MIN, 1 << 32];
const FLOATS: [u64; 5] = [0, 1 << 63, 0x3FF0_0000_0000_0000, 0x7FF8_0000_0000_0000, 0xFFF8_0000_0000_0001];
const CHARS: [u64; 5] = [0, 0x61, 0xD7FF, 0xE000, 0x10FFFF];
const TYPES: [u8; 8] = [INT, BOOL, FLOAT, CHAR, HELD, 0x10, 0x12, 0xF3];
const ODD: [u8; 17] = [0, 1, 2, 3, 4, 5, 0x0F, 0x10, 0x13, 0x14, 0x1F, 0xF3, 0xF4, 0xFC, 0xFD, 0xFE, 0xFF];

/// What the engine is given.
#[derive(Clone)]
pub struct Call {
    pub record: Vec<u8>,
    pub store: Vec<u8>,
    pub answers: Vec<u8>,
    pub limit: u64,
    /// Whether the record was damaged.
    pub damaged: bool,
}

impl Call {
    pub fn size(&self) -> usize {
        self.record.len() + self.store.len() + self.answers.len()
    }
}

/// A value of a type.
fn value(rng: &mut Rng, type_byte: u8) -> Value {
    match type_byte {
        INT if rng.chance(50) => Value::Int(rng.bits() as i64),
        INT => Value::Int(rng.pick(&INTS)),
        BOOL => Value::Bool(rng.chance(500)),
        FLOAT if rng.chance(400) => Value::Held(rng.pick(&INTS) as u64),
        FLOAT if rng.chance(200) => Value::Float(rng.bits()),
        FLOAT => Value::Float(rng.pick(&FLOATS)),
        CHAR => Value::Char(rng.pick(&CHARS)),
        HELD => Value::Held(rng.bits()),
        t => Value::Pointer(t, rng.below(4) as u64, rng.pick(&INTS) as u64),
    }
}

fn any_answer(rng: &mut Rng) -> Answer {
    match rng.below(4) {
        0 | 1 => Answer::GoOn,
        2 => Answer::Halt,
        _ => {
            let type_byte = rng.pick(&TYPES);
            Answer::Value(value(rng, type_byte))
        }
    }
}

/// Draws answers that fit, and notes which steps take one.
struct Drawn<'a> {
    rng: &'a mut Rng,
    answers: Vec<Answer>,
    taken: Vec<u64>,
    steps: u64,
}

impl World for Drawn<'_> {
    fn answer(&mut self, wanted: Option<u8>) -> Option<Answer> {
        if self.answers.len() == MOST {
            return None;
        }
        let answer = match wanted {
            _ if self.rng.chance(10) => Answer::Halt,
            Some(type_byte) => Answer::Value(value(self.rng, type_byte)),
            None => Answer::GoOn,
        };
        self.answers.push(answer);
        self.taken.push(self.steps);
        Some(answer)
    }

    fn sees(&mut self, _: &Instr) {
        self.steps += 1;
    }
}

/// Makes the list in some cases one with an answer that may not fit, one that is cut, or one with more behind.
fn change(rng: &mut Rng, answers: &mut Vec<Answer>) {
    match rng.below(10) {
        0 | 1 if !answers.is_empty() => {
            let at = rng.below(answers.len());
            answers[at] = any_answer(rng);
        }
        2 => answers.truncate(rng.within(0, answers.len())),
        3 | 4 => {
            for _ in 0..rng.within(1, 3) {
                answers.push(any_answer(rng));
            }
        }
        _ => {}
    }
}

/// Around the end of a run, around a step that takes an answer, or any.
fn limit(rng: &mut Rng, taken: &[u64], ended: Ended, steps: u64) -> u64 {
    if ended == Ended::Limit {
        return rng.below(LONG as usize) as u64;
    }
    match rng.below(20) {
        0..=2 if !taken.is_empty() => rng.pick(taken) - rng.below(2) as u64,
        3..=5 => (steps + rng.below(3) as u64).saturating_sub(1),
        6..=9 => rng.within(0, steps as usize) as u64,
        _ => rng.pick(&[steps + 7, 1 << 32, 1 << 63, u64::MAX]),
    }
}

/// A house form with a byte changed, left out or put in, cut, or of another length or version.
fn malformed(rng: &mut Rng, form: &[u8]) -> Vec<u8> {
    let mut all = form.to_vec();
    let mut body = form[5..].to_vec();
    let at = rng.within(0, body.len());
    match rng.below(7) {
        0 => all.truncate(rng.below(all.len())),
        1 => all[3] ^= rng.within(1, 255) as u8,
        2 => all[4] = rng.pick(&[0, 2, 255]),
        what => {
            match what {
                3 if at < body.len() => drop(body.remove(at)),
                4 => body.truncate(at),
                5 if at < body.len() => body[at] = if rng.chance(500) { rng.pick(&ODD) } else { rng.bits() as u8 },
                _ => body.insert(at, rng.pick(&ODD)),
            }
            all = framed(|out| out.extend(body));
        }
    }
    all
}

/// A call with an accepted record.
pub fn call(rng: &mut Rng, record: &[u8], code: &Code) -> Call {
    let unset = rng.pick(&[0, 0, 0, 0, 50, 200, 1000]);
    let store: Vec<Option<Value>> = code.types.iter().map(|t| (!rng.chance(unset)).then(|| value(rng, *t))).collect();
    let world = Drawn { rng, answers: vec![], taken: vec![], steps: 0 };
    let mut m = Machine { code, store: store.clone(), events: vec![], steps: 0, world };
    let ended = m.run(LONG).expect("answers that are drawn fit");
    let Drawn { rng, mut answers, taken, steps } = m.world;
    let limit = limit(rng, &taken, ended, steps);
    let drawn = answers.clone();
    change(rng, &mut answers);
    let changed = answers != drawn;
    let answers = framed(|out| answers.iter().for_each(|a| a.put(out)));
    let mut call = Call { record: record.to_vec(), store: store_bytes(&store), answers, limit, damaged: false };
    let what = rng.below(100);
    match what {
        0..=2 => call.store = malformed(rng, &call.store),
        3..=5 => call.answers = malformed(rng, &call.answers),
        6 if !store.is_empty() => {
            let (at, type_byte) = (rng.below(store.len()), rng.pick(&TYPES));
            let mut store = store;
            store[at] = Some(value(rng, type_byte));
            call.store = store_bytes(&store);
        }
        7 => {
            let at = rng.below(record.len());
            call.record[at] = rng.bits() as u8;
            call.damaged = true;
        }
        _ => {}
    }
    if changed || what < 8 {
        call.limit = limit.min(LONGEST);
    }
    call
}
