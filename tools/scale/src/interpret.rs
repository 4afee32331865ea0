//! A plain interpreter of function records, written from document 01 ("The plain machine") and Points 4 to 7 of document 02
//! as one more reading of them, and the mark that the engine is timed beside: instructions decoded once into a Vec, a match over
//! codes, the store a Vec of Option<Value>, events and final store written into Vecs. Store and answers are tested as they are
//! read. The record is not: it has to be one that check accepts, or a rewriting.

use crate::function::{has_callee, has_dest, id_bytes, targets, FLOAT};
use crate::house::{read_store, store_bytes, Answer, Answers, Unfit, Value};

#[derive(Clone, Copy, PartialEq, Debug)]
pub enum Ended {
    End,
    Ret,
    Halt,
    Unset,
    /// By the id of the division.
    Division(u64),
    Limit,
}

/// What a call comes to.
#[derive(PartialEq, Debug)]
pub struct Ran {
    pub events: Vec<u8>,
    pub store: Vec<u8>,
    pub steps: u64,
    pub ended: Ended,
}

// ---- the record

/// An instruction; parts that its code does not have are 0. A phi's block numbers are not kept: the machine does not look at them.
#[derive(Clone, Copy)]
pub struct Instr {
    pub id: u64,
    pub code: u8,
    pub dest: u16,
    literal: Option<Value>,
    count: usize,
    args: [u16; 8],
    callee: u16,
    targets: [u16; 2],
}

/// The instructions of all blocks one after the other, and where each block starts: a block that is done goes on with the next.
pub struct Code {
    id_bytes: usize,
    pub types: Vec<u8>,
    instrs: Vec<Instr>,
    starts: Vec<usize>,
}

fn number(bytes: &[u8], at: &mut usize, width: usize) -> u64 {
    *at += width;
    bytes[*at - width..*at].iter().fold(0, |n, b| n << 8 | u64::from(*b))
}

fn literal(kind: u64, word: u64, type_byte: u8) -> Value {
    match kind {
        0 if type_byte == FLOAT => Value::Held(word),
        0 => Value::Int(word as i64),
        1 => Value::Bool(word == 1),
        2 => Value::Float(word),
        _ => Value::Char(word),
    }
}

fn instr(bytes: &[u8], at: &mut usize, id_bytes: usize, types: &[u8]) -> Instr {
    let (id, code) = (number(bytes, at, id_bytes), number(bytes, at, 1) as u8);
    let mut i = Instr { id, code, dest: 0, literal: None, count: 0, args: [0; 8], callee: 0, targets: [0; 2] };
    if has_dest(code) {
        i.dest = number(bytes, at, 2) as u16;
    }
    if code == 0 {
        let kind = number(bytes, at, 1);
        i.literal = Some(literal(kind, number(bytes, at, 8), types[usize::from(i.dest)]));
        return i;
    }
    i.count = number(bytes, at, 1) as usize;
    for n in 0..i.count {
        i.args[n] = number(bytes, at, 2) as u16;
    }
    if has_callee(code) {
        i.callee = number(bytes, at, 2) as u16;
    }
    for n in 0..targets(code, i.count) {
        let block = number(bytes, at, 2) as u16;
        if let Some(target) = i.targets.get_mut(n) {
            *target = block;
        }
    }
    i
}

pub fn decode(bytes: &[u8]) -> Code {
    let mut at = 6;
    let mut code = Code { id_bytes: id_bytes(bytes), types: vec![], instrs: vec![], starts: vec![] };
    for _ in 0..number(bytes, &mut at, 2) {
        code.types.push(number(bytes, &mut at, 1) as u8);
        at += 1 + usize::from(bytes[at]);
    }
    for _ in 0..number(bytes, &mut at, 2) {
        code.starts.push(code.instrs.len());
        let n = number(bytes, &mut at, 2);
        at += 2;
        for _ in 0..n {
            code.instrs.push(instr(bytes, &mut at, code.id_bytes, &code.types));
        }
    }
    code
}

// ---- the machine

/// What answers the events: the next answer to an instruction, `wanted` the type of its dest.
pub trait World {
    fn answer(&mut self, wanted: Option<u8>) -> Option<Answer>;

    /// Sees each instruction before it is done.
    fn sees(&mut self, _: &Instr) {}
}

impl World for Answers<'_> {
    fn answer(&mut self, _: Option<u8>) -> Option<Answer> {
        self.next()
    }
}

/// Why no more is done: the run ended, or an answer does not fit.
enum Stop {
    Ended(Ended),
    Unfit,
}

const UNSET: Stop = Stop::Ended(Ended::Unset);

/// A run in which the store and the events grow.
pub struct Machine<'a, W> {
    pub code: &'a Code,
    pub store: Vec<Option<Value>>,
    pub events: Vec<u8>,
    pub steps: u64,
    pub world: W,
}

impl<W: World> Machine<'_, W> {
    pub fn run(&mut self, limit: u64) -> Result<Ended, Unfit> {
        let code = self.code;
        let mut at = 0;
        loop {
            let Some(i) = code.instrs.get(at) else { return Ok(Ended::End) };
            if self.steps == limit {
                return Ok(Ended::Limit);
            }
            self.steps += 1;
            self.world.sees(i);
            match self.step(i, at + 1) {
                Ok(next) => at = next,
                Err(Stop::Ended(ended)) => return Ok(ended),
                Err(Stop::Unfit) => return Err(Unfit),
            }
        }
    }

    fn arg(&self, i: &Instr, n: usize) -> Result<Value, Stop> {
        self.store[usize::from(i.args[n])].ok_or(UNSET)
    }

    fn int(&self, i: &Instr, n: usize) -> Result<i64, Stop> {
        match self.arg(i, n)? {
            Value::Int(x) => Ok(x),
            _ => unreachable!("check tests types"),
        }
    }

    fn bool(&self, i: &Instr, n: usize) -> Result<bool, Stop> {
        match self.arg(i, n)? {
            Value::Bool(x) => Ok(x),
            _ => unreachable!("check tests types"),
        }
    }

    /// Does an instruction; the place of the next one.
    #[inline]
    fn step(&mut self, i: &Instr, next: usize) -> Result<usize, Stop> {
        let value = match i.code {
            0 => i.literal,
            1 => Some(Value::Int(self.int(i, 0)?.wrapping_add(self.int(i, 1)?))),
            2 => Some(Value::Int(self.int(i, 0)?.wrapping_sub(self.int(i, 1)?))),
            3 => Some(Value::Int(self.int(i, 0)?.wrapping_mul(self.int(i, 1)?))),
            4 => match (self.int(i, 0)?, self.int(i, 1)?) {
                (_, 0) => return Err(Stop::Ended(Ended::Division(i.id))),
                (a, b) => Some(Value::Int(a.wrapping_div(b))),
            },
            5 => Some(Value::Bool(self.int(i, 0)? == self.int(i, 1)?)),
            6 => Some(Value::Bool(self.int(i, 0)? < self.int(i, 1)?)),
            7 => Some(Value::Bool(self.int(i, 0)? > self.int(i, 1)?)),
            8 => Some(Value::Bool(self.int(i, 0)? <= self.int(i, 1)?)),
            9 => Some(Value::Bool(self.int(i, 0)? >= self.int(i, 1)?)),
            10 => Some(Value::Bool(!self.bool(i, 0)?)),
            11 => Some(Value::Bool(self.bool(i, 0)? & self.bool(i, 1)?)),
            12 => Some(Value::Bool(self.bool(i, 0)? | self.bool(i, 1)?)),
            13 => Some(self.arg(i, 0)?),
            14 => match (self.arg(i, 0)?, self.int(i, 1)?) {
                (Value::Pointer(t, base, offset), n) => Some(Value::Pointer(t, base, offset.wrapping_add(n as u64))),
                _ => unreachable!("check tests types"),
            },
            64 => return Ok(self.code.starts[usize::from(i.targets[0])]),
            65 => return Ok(self.code.starts[usize::from(i.targets[usize::from(!self.bool(i, 0)?)])]),
            69 => return Ok(next),
            _ => return self.event(i).map(|()| next),
        };
        self.store[usize::from(i.dest)] = value;
        Ok(next)
    }

    fn event(&mut self, i: &Instr) -> Result<(), Stop> {
        let args = &i.args[..i.count];
        if args.iter().any(|a| self.store[usize::from(*a)].is_none()) {
            return Err(UNSET);
        }
        self.events.extend(&i.id.to_be_bytes()[8 - self.code.id_bytes..]);
        self.events.push(i.code);
        self.events.extend(i.callee.to_be_bytes());
        self.events.push(i.count as u8);
        for a in args {
            if let Some(v) = self.store[usize::from(*a)] {
                v.put(&mut self.events);
            }
        }
        if i.code == 66 {
            return Err(Stop::Ended(Ended::Ret));
        }
        let wanted = has_dest(i.code).then(|| self.code.types[usize::from(i.dest)]);
        match (self.world.answer(wanted), wanted) {
            (None | Some(Answer::Halt), _) => return Err(Stop::Ended(Ended::Halt)),
            (Some(Answer::GoOn), None) => {}
            (Some(Answer::Value(v)), Some(t)) if v.has_type(t) => self.store[usize::from(i.dest)] = Some(v),
            _ => return Err(Stop::Unfit),
        }
        Ok(())
    }
}

/// Runs an accepted record.
pub fn run(record: &[u8], store: &[u8], answers: &[u8], limit: u64) -> Result<Ran, Unfit> {
    let code = decode(record);
    let store = read_store(store, &code.types)?;
    let world = Answers::read(answers)?;
    let mut m = Machine { code: &code, store, events: vec![], steps: 0, world };
    let ended = m.run(limit)?;
    Ok(Ran { store: store_bytes(&m.store), events: m.events, steps: m.steps, ended })
}
