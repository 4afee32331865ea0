//! All comparisons on one record: the library with the altered Rust and with
//! the second readings, and the altered Rust with the unaltered.

use crate::figures::Places;
use crate::guarded::Guarded;
use crate::phis::Phis;
use crate::unaltered::Unaltered;
use crate::versions::Versions;
use crate::{cut, number, plain, second};
use lvn::{Refused, Unwritten, Written};
use oracle::{Answer, Rust};

/// What both sides agree on.
pub enum Same {
    /// Rewritten alike: the bytes of the rewriting and its saves.
    Rewritten(usize, usize),
    /// A function on which the Rust panics: as the second reading has it, and
    /// as the Rust up to the division.
    Panics(Division),
    Refused(u8),
}

/// The constant division on which the Rust panics, and how many instructions
/// stand behind it.
pub struct Division {
    pub by_zero: bool,
    pub behind: usize,
}

/// What is lent to rewrite, to figures and to the conversions; and what is counted.
pub struct Lent {
    output: Guarded<u8>,
    pub places: Places,
    pub versions: Versions,
    pub unaltered: Unaltered,
    pub phis: Phis,
}

impl Lent {
    pub fn new() -> Self {
        Lent {
            output: Guarded::new(0xA5),
            places: Places::new(),
            versions: Versions::new(),
            unaltered: Unaltered::default(),
            phis: Phis::default(),
        }
    }
}

fn as_fault(answer: Result<(), Refused>) -> Result<(), second::Fault> {
    answer.map_err(|r| (r.number, r.offset))
}

/// Compares all answers on a record. An error says what differs.
pub fn compare(bytes: &[u8], lent: &mut Lent) -> Result<Same, String> {
    let expected = second::check(bytes);
    let found = as_fault(lvn::check(bytes));
    if found != expected {
        return Err(format!("check: {found:?} here, {expected:?} by the second reading"));
    }
    if let Err((number, offset)) = expected {
        refused(bytes, Refused { number, offset }, lent)?;
        return Ok(Same::Refused(number));
    }
    let answer = oracle::rewrite(Rust::Altered, bytes);
    lent.unaltered.ask(bytes, &answer)?;
    let second = number::rewriting(bytes);
    let same = accepted(bytes, &second, answer, lent)?;
    in_both_versions(bytes, &second, lent)?;
    lent.phis.count(bytes, &second);
    Ok(same)
}

/// An accepted record, by the second reading and by the altered Rust's answer.
fn accepted(bytes: &[u8], second: &[u8], answer: Answer, lent: &mut Lent) -> Result<Same, String> {
    let saves = rewritten(bytes, second, lent)?;
    names(bytes, second)?;
    match answer {
        Answer::Rewriting(rewriting) if rewriting == second => Ok(Same::Rewritten(second.len(), saves)),
        Answer::Rewriting(rewriting) => {
            Err(format!("written\n{}\nby the Rust\n{}", hex(second), hex(&rewriting)))
        }
        Answer::Panic => division(bytes, second, lent).map(Same::Panics),
        Answer::Bad => Err("the oracle cannot read the record or write its rewriting".to_string()),
    }
}

/// A refusal of check, by rewrite, by figures and by the conversions: nothing is
/// written.
fn refused(bytes: &[u8], refused: Refused, lent: &mut Lent) -> Result<(), String> {
    let out = &mut lent.output;
    for size in [0, 200] {
        let answer = out.lend(size, |o| lvn::rewrite(bytes, o))?;
        if answer != Err(Unwritten::Refused(refused)) || !out.untouched(out.lent()) {
            return Err(format!("rewrite: {answer:?}, expected {refused:?}"));
        }
    }
    lent.places.refused(bytes, refused)?;
    lent.versions.refused(bytes, refused.number, refused.offset)
}

/// The conversions of an accepted record; and the record in the other version,
/// where its ids have room there: it is accepted, and its rewriting is this one
/// in that version.
fn in_both_versions(bytes: &[u8], rewriting: &[u8], lent: &mut Lent) -> Result<(), String> {
    let Some(form) = lent.versions.accepted(bytes, turn(bytes))? else {
        return Ok(());
    };
    let what = |what: String| format!("in version {}, {}: {what}", form[4], hex(&form));
    as_fault(lvn::check(&form)).map_err(|fault| what(format!("check: {fault:?}")))?;
    let no_room = |at| what(format!("an id of its rewriting at {at} has no room"));
    let converted = plain::converted(rewriting, form[4]).map_err(no_room)?;
    rewritten(&form, &converted, lent).map_err(what)?;
    names(&form, &converted).map_err(what)
}

/// The rewriting with outputs of each size, and the figures; all saves.
fn rewritten(bytes: &[u8], rewriting: &[u8], lent: &mut Lent) -> Result<usize, String> {
    let saves = name_count(rewriting) - name_count(bytes);
    outputs(bytes, rewriting, saves, &mut lent.output)?;
    lent.places.accepted(bytes, rewriting, saves, turn(bytes))?;
    Ok(saves)
}

/// Outputs one byte short, exact, longer, and of eight times the input.
fn outputs(bytes: &[u8], rewriting: &[u8], saves: usize, out: &mut Guarded<u8>) -> Result<(), String> {
    let need = rewriting.len();
    let short = out.lend(need - 1, |o| lvn::rewrite(bytes, o))?;
    if short != Err(Unwritten::Room(need)) || !out.untouched(out.lent()) {
        return Err(format!("an output one byte short: {short:?}, needed {need}"));
    }
    for more in [0, 1 + need % 61, (8 * bytes.len()).saturating_sub(need)] {
        let answer = out.lend(need + more, |o| lvn::rewrite(bytes, o))?;
        if answer != Ok(Written { bytes: need, saves }) {
            return Err(format!("{answer:?}, by the second reading {need} bytes and {saves} saves"));
        }
        let (written, beyond) = out.lent().split_at(need);
        if written != rewriting {
            return Err(format!("written\n{}\nby the second reading\n{}", hex(written), hex(rewriting)));
        }
        if !out.untouched(beyond) {
            return Err("a byte beyond the rewriting was written".to_string());
        }
    }
    Ok(())
}

pub fn name_count(record: &[u8]) -> usize {
    usize::from(record[6]) * 256 + usize::from(record[7])
}

/// A number by which a record takes its turn.
fn turn(bytes: &[u8]) -> usize {
    bytes.iter().fold(0, |n, b| n * 31 % 1009 + usize::from(*b))
}

/// Two name texts, by turns around the ends of both lists of names, of the
/// rewriting, of one cut short, of one that says the other version and of the
/// input in its place.
fn names(bytes: &[u8], rewriting: &[u8]) -> Result<(), String> {
    let (few, all) = (name_count(bytes), name_count(rewriting));
    let turn = turn(bytes);
    let some = turn % (all + 1);
    let cut = &rewriting[..rewriting.len() - 1 - turn % 9];
    let other = [&rewriting[..4], &[plain::other(rewriting)], &rewriting[5..]].concat();
    let tries = [
        (rewriting, some),
        (rewriting, few),
        (rewriting, all.wrapping_sub(1)),
        (rewriting, all),
        (cut, some),
        (bytes, few.wrapping_sub(1)),
        (&other, some),
    ];
    for (record, index) in [tries[turn % 7], tries[(turn + 1) % 7]] {
        let found = lvn::name_text(bytes, record, index).map_err(|r| (r.number, r.offset));
        let expected = second::name_text(bytes, record, index);
        if found != expected {
            return Err(format!("name text {index}: {found:?} here, {expected:?} by the second reading"));
        }
    }
    Ok(())
}

/// Of a record on which the Rust panics: up to the instruction on which it
/// does, both rewrite alike; that instruction is a division by 0, which stays,
/// or one of -2^63 by -1, which is written as a const. With the const in place
/// of that division the whole is to be the same again, and there the Rust can
/// be asked for more.
fn division(bytes: &[u8], whole: &[u8], lent: &mut Lent) -> Result<Division, String> {
    let places = cut::places(bytes);
    let rust = |record: &[u8]| oracle::rewrite(Rust::Altered, record);
    let at = places.partition_point(|p| rust(&cut::up_to(bytes, *p, true)) != Answer::Panic);
    let first = places[at];
    let before = cut::up_to(bytes, first, false);
    accepted(&before, &number::rewriting(&before), rust(&before), lent)?;
    let with = cut::up_to(bytes, first, true);
    let (rewriting, _) = lvn::rewriting(&with).map_err(|r| format!("with the division: {r}"))?;
    let (read, end) = (&bytes[first.start..first.end], rewriting.len() - 4 * first.behind);
    let (id, code) = read.split_at(first.code - first.start);
    let least = [id, &[0], &code[1..3], &[0], &i64::MIN.to_be_bytes()].concat();
    // All but its two arguments, which are replaced.
    let by_zero = rewriting[..end - 4].ends_with(&read[..read.len() - 4]);
    if code[0] != 4 || !by_zero && !rewriting[..end].ends_with(&least) {
        return Err(format!("the Rust panics on {}, and {} is written", hex(read), hex(&rewriting)));
    }
    if !by_zero {
        let instead = cut::instead(bytes, first, &least);
        let answer = rust(&instead);
        if number::rewriting(&instead) != whole {
            return Err("with the const in place of the division another rewriting".to_string());
        }
        accepted(&instead, whole, answer, lent)?;
    }
    Ok(Division { by_zero, behind: places.len() - at - 1 })
}

/// A smaller record that still differs.
pub fn shrink(bytes: &[u8], lent: &mut Lent) -> Vec<u8> {
    let mut least = bytes.to_vec();
    while second::check(&least).is_ok() {
        let smaller = cut::places(&least).into_iter().map(|p| cut::without(&least, p));
        match smaller.into_iter().find(|s| compare(s, lent).is_err()) {
            Some(record) => least = record,
            None => break,
        }
    }
    least
}

pub fn hex(bytes: &[u8]) -> String {
    bytes.iter().map(|b| format!("{b:02x}")).collect()
}
