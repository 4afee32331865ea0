//! Runs of random functions: the engine held to the plain interpreter; the same runs with the record in the other version; and, where a
//! run is one that demand 3 speaks of, the run of the rewriting held to it. The engine refuses rewritings, since check does: the interpreter
//! runs them.

use crate::engine;
use crate::function::{has_dest, id_bytes, Encoded, POINTER};
use crate::generate::Generator;
use crate::guarded::Guarded;
use crate::house::{read_store, store_bytes, Answer, Answers, Unfit};
use crate::interpret::{self, Ended, Instr, Machine, Ran, World};
use crate::one::hex;
use crate::plain;
use crate::rng::Rng;
use crate::second;
use crate::worlds::{call, Call};
use std::time::Instant;

/// How many calls each function is run with.
const EACH: u64 = 8;

/// What is to come of a call with enough lent: the number, its values, and the bytes written.
struct Expected {
    number: u8,
    values: [u64; 5],
    events: Vec<u8>,
    store: Vec<u8>,
}

fn refused(number: u8, values: [u64; 2]) -> Expected {
    Expected { number, values: [values[0], values[1], 0, 0, 0], events: vec![], store: vec![] }
}

/// Events with ids of so many bytes in place of so many.
fn with_id_bytes(events: &[u8], from: usize, to: usize) -> Vec<u8> {
    let (mut out, mut at) = (vec![], 0);
    while at < events.len() {
        let id = &events[at..at + from];
        out.extend([&[0; 8], id].concat()[8 + from - to..].iter());
        let head = at + from;
        at = (0..events[head + 3]).fold(head + 4, |at, _| at + if events[at] >= POINTER { 17 } else { 9 });
        out.extend(&events[head..at]);
    }
    out
}

/// How it ended, and the id of a division.
fn numbers(ended: Ended) -> [u64; 2] {
    match ended {
        Ended::End => [0, 0],
        Ended::Ret => [1, 0],
        Ended::Halt => [2, 0],
        Ended::Unset => [3, 0],
        Ended::Division(id) => [4, id],
        Ended::Limit => [5, 0],
    }
}

/// The answers of a list, and how many saves were done: instructions with a dest from `first_made` on.
struct Counting<'a> {
    list: Answers<'a>,
    first_made: u16,
    saves: u64,
}

impl World for Counting<'_> {
    fn answer(&mut self, _: Option<u8>) -> Option<Answer> {
        self.list.next()
    }

    fn sees(&mut self, i: &Instr) {
        self.saves += u64::from(has_dest(i.code) && i.dest >= self.first_made);
    }
}

#[derive(Default)]
struct Tally {
    functions: u64,
    /// Those of version 2.
    wide: u64,
    /// Runs with the record widened, and with it narrowed.
    widened: u64,
    narrowed: u64,
    ended: [u64; 6],
    steps: u64,
    events: u64,
    unfit: u64,
    refused: u64,
    short: u64,
    /// Runs of which demand 3 speaks to their end, and the steps that the rewriting takes more.
    paired: u64,
    saves: u64,
    differ: u64,
}

impl Tally {
    fn same(&self) -> u64 {
        self.ended.iter().sum::<u64>() + self.unfit + self.refused
    }
}

/// Of a record: its rewriting, how many arguments its function has, and, where its ids have room there, the record in the other version.
struct Forms {
    rewriting: Vec<u8>,
    args: usize,
    other: Option<Vec<u8>>,
}

struct Runs {
    events: Guarded<u8>,
    left: Guarded<u8>,
    tally: Tally,
    turn: usize,
    smallest: Option<(Call, String)>,
}

impl Runs {
    /// Calls with so much lent: the answer, what is written, and the rest untouched.
    fn asked(&mut self, c: &Call, expected: &Expected, sizes: [usize; 2]) -> Result<(), String> {
        let needed = [expected.events.len(), expected.store.len()];
        let short = expected.number == 0 && (sizes[0] < needed[0] || sizes[1] < needed[1]);
        let at_14 = refused(14, needed.map(|n| n as u64));
        let expected = if short { &at_14 } else { expected };
        let left = &mut self.left;
        let answer = self.events.lend(sizes[0], |events| {
            left.lend(sizes[1], |left| engine::run(&c.record, &c.store, &c.answers, c.limit, events, left))
        })??;
        if answer != (expected.number, expected.values) {
            let wanted = (expected.number, expected.values);
            return Err(format!("with {sizes:?} bytes lent {answer:?}, by the interpreter {wanted:?}"));
        }
        for (lent, bytes, what) in [(&self.events, &expected.events, "events"), (&self.left, &expected.store, "store")]
        {
            let (first, beyond) = lent.lent().split_at(bytes.len());
            if first != bytes {
                return Err(format!("{what} {}, by the interpreter {}", hex(first), hex(bytes)));
            }
            if !lent.untouched(beyond) {
                return Err(format!("with {sizes:?} bytes lent one beyond the {what} was written"));
            }
        }
        self.tally.short += u64::from(short);
        Ok(())
    }

    /// With exactly as many bytes as are needed, and by turns with one too few of either, with more, and with none.
    fn alike(&mut self, c: &Call, expected: &Expected) -> Result<(), String> {
        let [e, l] = [expected.events.len(), expected.store.len()];
        self.turn += 1;
        let more = self.turn % 17;
        let others = [[e.saturating_sub(1), l], [e, l.saturating_sub(1)], [e + more, l + 3], [0, 0]];
        self.asked(c, expected, [e, l])?;
        self.asked(c, expected, others[self.turn % 4])
    }

    /// Demand 3, for a run that has ended without reading a name that is not set.
    fn paired(&mut self, c: &Call, ran: &Ran, rewriting: &[u8], args: usize) -> Result<(), String> {
        let (input, code) = (interpret::decode(&c.record), interpret::decode(rewriting));
        let read = |e: Unfit| format!("demand 3: {e:?}");
        let mut store = read_store(&c.store, &input.types).map_err(read)?;
        if store[..args].contains(&None) || matches!(ran.ended, Ended::Unset | Ended::Limit) {
            return Ok(());
        }
        let names = store.len();
        store.resize(code.types.len(), None);
        let world = Counting { list: Answers::read(&c.answers).map_err(read)?, first_made: names as u16, saves: 0 };
        let mut m = Machine { code: &code, store, events: vec![], steps: 0, world };
        let ended = m.run(2 * ran.steps + 1).map_err(read)?;
        let original = store_bytes(&m.store[..names]);
        if m.events != ran.events || original != ran.store || ended != ran.ended || m.steps != ran.steps + m.world.saves
        {
            return Err(format!(
                "demand 3: {ran:?}, the rewriting {ended:?} after {} steps, {} saves",
                m.steps, m.world.saves
            ));
        }
        self.tally.paired += 1;
        self.tally.saves += m.world.saves;
        Ok(())
    }

    /// A call that gave this, with the record in the other version: the same, but for the width of an event's id.
    fn in_other_version(&mut self, c: &Call, expected: &Expected, form: &[u8]) -> Result<(), String> {
        let other = Call { record: form.to_vec(), ..c.clone() };
        let events = with_id_bytes(&expected.events, id_bytes(&c.record), id_bytes(form));
        let mut values = expected.values;
        values[0] = events.len() as u64;
        let same = Expected { number: expected.number, values, events, store: expected.store.clone() };
        self.alike(&other, &same).map_err(|what| format!("in version {}: {what}", form[4]))?;
        *(if form[4] == 2 { &mut self.tally.widened } else { &mut self.tally.narrowed }) += 1;
        Ok(())
    }

    fn compare(&mut self, c: &Call, of: &Forms) -> Result<(), String> {
        if let Some((number, offset)) = c.damaged.then(|| second::check(&c.record).err()).flatten() {
            self.alike(c, &refused(number, [offset as u64, 0]))?;
            self.tally.refused += 1;
            return Ok(());
        }
        let other = of.other.as_ref().filter(|_| !c.damaged);
        let Ok(ran) = interpret::run(&c.record, &c.store, &c.answers, c.limit) else {
            let unfit = refused(13, [0, 0]);
            self.alike(c, &unfit)?;
            other.map_or(Ok(()), |form| self.in_other_version(c, &unfit, form))?;
            self.tally.unfit += 1;
            return Ok(());
        };
        let [ended, id] = numbers(ran.ended);
        let values = [ran.events.len() as u64, ran.store.len() as u64, ran.steps, ended, id];
        let expected = Expected { number: 0, values, events: ran.events.clone(), store: ran.store.clone() };
        self.alike(c, &expected)?;
        other.map_or(Ok(()), |form| self.in_other_version(c, &expected, form))?;
        if !c.damaged {
            self.paired(c, &ran, &of.rewriting, of.args)?;
        }
        self.tally.ended[ended as usize] += 1;
        self.tally.steps += ran.steps;
        self.tally.events += values[0];
        Ok(())
    }

    fn function(&mut self, record: &[u8], args: usize, rng: &mut Rng) -> Result<(), String> {
        let code = interpret::decode(record);
        let (rewriting, _) = lvn::rewriting(record).map_err(|r| format!("{r}: {}", hex(record)))?;
        let forms = Forms { rewriting, args, other: plain::converted(record, plain::other(record)).ok() };
        self.tally.functions += 1;
        self.tally.wide += u64::from(record[4] == 2);
        for _ in 0..EACH {
            let c = call(rng, record, &code);
            let Err(what) = self.compare(&c, &forms) else { continue };
            self.tally.differ += 1;
            if self.smallest.as_ref().is_none_or(|(least, _)| c.size() < least.size()) {
                self.smallest = Some((c, what));
            }
        }
        Ok(())
    }
}

/// Compares so many calls; whether nothing differs.
pub fn run(seed: u64, count: u64) -> bool {
    let start = Instant::now();
    let mut generator = Generator::new(seed);
    let (events, left) = (Guarded::new(0xA5), Guarded::new(0x5A));
    let mut runs = Runs { events, left, tally: Tally::default(), turn: 0, smallest: None };
    let mut encoded = Encoded::default();
    while runs.tally.same() + runs.tally.differ < count {
        let f = generator.function();
        encoded.fill(&f);
        if let Err(what) = runs.function(&encoded.bytes, f.args.into(), generator.rng()) {
            println!("{what}");
            return false;
        }
    }
    summary(&runs, seed, start.elapsed().as_secs_f64());
    runs.tally.differ == 0
}

fn summary(runs: &Runs, seed: u64, seconds: f64) {
    let t = &runs.tally;
    let [end, ret, halt, unset, division, limit] = t.ended;
    println!(
        "runs, seed {seed}, {seconds:.1} s: {} functions, {} of version 2, each with {EACH} stores, lists of answers and limits:",
        t.functions, t.wide
    );
    println!("  done as by the plain interpreter: end {end}, ret {ret}, halt {halt}, unset {unset}, division {division}, limit {limit};");
    println!("  {} steps and {} bytes of events; 13: {}, check's refusals: {};", t.steps, t.events, t.unfit, t.refused);
    println!("  lent exactly enough, more, none and a byte too little, between guard bytes; 14: {}", t.short);
    println!(
        "  {} also with the record widened, {} with it narrowed: alike but for the width of an event's id",
        t.widened, t.narrowed
    );
    println!("  demand 3: {} of these runs and those of the rewritings alike, with {} saves", t.paired, t.saves);
    if let Some((c, what)) = &runs.smallest {
        println!("smallest that differs: record, store, answers, limit");
        println!("{}\n{}\n{}\n{}\n{what}", hex(&c.record), hex(&c.store), hex(&c.answers), c.limit);
    }
    println!("{} runs the same, {} differ", t.same(), t.differ);
}
