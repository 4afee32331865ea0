//! A second reading of document 01 and of Points 5 and 7 of document 02: check and
//! name text, written from their words for this comparison, with nothing taken from
//! the code it is compared with.

use std::collections::HashSet;

/// A refusal: number and offset.
pub type Fault = (u8, usize);

/// What is known of a code: the least and the greatest argument count, and the
/// types of its arguments and of its dest. In the types: i int, b bool, f
/// float, c char; p a pointer, t the type that p points to, s the same type as
/// the first; * any type; = one type for all, dest's.
fn shape(code: u8) -> Option<(usize, usize, &'static str)> {
    Some(match code {
        1..=4 => (2, 2, "ii>i"),
        5..=9 => (2, 2, "ii>b"),
        10 => (1, 1, "b>b"),
        11 | 12 => (2, 2, "bb>b"),
        13 => (1, 1, "*>s"),
        14 => (2, 2, "pi>s"),
        20 => (0, 8, "*"),
        21..=24 => (2, 2, "ff>f"),
        25..=29 => (2, 2, "ff>b"),
        30..=34 => (2, 2, "cc>b"),
        35 => (1, 1, "c>i"),
        36 => (1, 1, "i>c"),
        37 => (1, 1, "i>p"),
        38 => (1, 1, "p>t"),
        39 => (0, 8, "="),
        64 => (0, 0, ""),
        65 => (1, 1, "b"),
        66 => (0, 1, "*"),
        67 | 68 => (0, 8, "*"),
        69 => (0, 0, ""),
        70 => (2, 2, "pt"),
        71 => (1, 1, "p"),
        _ => return None,
    })
}

/// Whether the types, dest's last, are those of a shape.
fn fits(types: &[u8], wanted: &str) -> bool {
    match wanted {
        "*" => return true,
        "=" => return types.iter().all(|t| types.last() == Some(t)),
        _ => {}
    }
    let letters = wanted.bytes().filter(|l| *l != b'>');
    letters.zip(types).all(|(letter, is)| match letter {
        b'i' => *is == 0x00,
        b'b' => *is == 0x01,
        b'f' => *is == 0x02,
        b'c' => *is == 0x03,
        b'p' => *is >= 0x10,
        b't' => types[0] >= 0x10 && *is == types[0] - 0x10,
        b's' => *is == types[0],
        _ => true,
    })
}

/// An underscore, one or more bytes, `_lvn` and one or more digits.
pub fn reserved(text: &[u8]) -> bool {
    let stem = text.len() - text.iter().rev().take_while(|b| b.is_ascii_digit()).count();
    let made = |cut: usize| text[..cut].ends_with(b"_lvn") && cut >= 6 && text[0] == b'_';
    stem < text.len() && made(stem)
}

fn well_formed(text: &[u8]) -> bool {
    let allowed = |b: &u8| b.is_ascii_alphanumeric() || *b == b'_' || *b == b'.';
    text.iter().all(allowed) && !text[0].is_ascii_digit()
}

struct Input<'a> {
    bytes: &'a [u8],
    at: usize,
}

impl<'a> Input<'a> {
    /// The next field: its offset and its bytes. Past the end is refusal 1.
    fn part(&mut self, width: usize) -> Result<(usize, &'a [u8]), Fault> {
        let at = self.at;
        let part = self.bytes.get(at..at + width).ok_or((1, at))?;
        self.at += width;
        Ok((at, part))
    }

    /// The next field as a number, refused unless it passes.
    fn number(&mut self, width: usize, refusal: u8, passes: impl Fn(u64) -> bool) -> Result<u64, Fault> {
        let (at, part) = self.part(width)?;
        let value = part.iter().fold(0, |n, b| n * 256 + u64::from(*b));
        if passes(value) {
            Ok(value)
        } else {
            Err((refusal, at))
        }
    }
}

/// An instruction as far as its types are concerned.
struct Typed {
    at: usize,
    types: Vec<u8>,
    /// The literal's kind of a const.
    literal: Option<u64>,
    wanted: &'static str,
}

fn instruction(r: &mut Input, id: usize, names: &[u8], blocks: u64, last: bool) -> Result<Typed, Fault> {
    let at = r.at;
    let known = |n: u64| n < names.len() as u64;
    r.number(id, 0, |_| true)?;
    let code_at = r.at;
    let code = r.number(1, 5, |c| c == 0 || shape(c as u8).is_some())? as u8;
    if !last && (64..=66).contains(&code) {
        return Err((8, code_at));
    }
    let dest = if code < 64 { Some(names[r.number(2, 6, known)? as usize]) } else { None };
    if code == 0 {
        let kind = r.number(1, 3, |k| k <= 3)?;
        r.number(8, 3, |v| match kind {
            1 => v <= 1,
            3 => v <= 0x10FFFF && !(0xD800..=0xDFFF).contains(&v),
            _ => true,
        })?;
        return Ok(Typed { at, types: vec![dest.unwrap()], literal: Some(kind), wanted: "" });
    }
    let (least, most, wanted) = shape(code).unwrap();
    let count = r.number(1, 3, |c| (least as u64..=most as u64).contains(&c))?;
    let mut types = vec![];
    for _ in 0..count {
        types.push(names[r.number(2, 6, known)? as usize]);
    }
    if code == 20 || code == 67 {
        r.number(2, 0, |_| true)?;
    }
    let targets = match code {
        39 => count,
        64 => 1,
        65 => 2,
        _ => 0,
    };
    for _ in 0..targets {
        r.number(2, 6, |b| b < blocks)?;
    }
    types.extend(dest);
    Ok(Typed { at, types, literal: None, wanted })
}

/// The first fault of a record.
pub fn check(bytes: &[u8]) -> Result<(), Fault> {
    let mut r = Input { bytes, at: 0 };
    let rest = bytes.len() as u64;
    if r.number(4, 1, |l| l + 4 == rest).is_err() {
        return Err((1, 0));
    }
    let id = match r.number(1, 2, |v| v == 1 || v == 2)? {
        1 => 4,
        _ => 8,
    };
    let args = r.number(1, 3, |a| a <= 16)?;
    let count = r.number(2, 3, |n| n <= 256 && args <= n)?;
    let (mut names, mut texts) = (vec![], HashSet::new());
    for _ in 0..count {
        names.push(r.number(1, 3, |t| t % 16 <= 3)? as u8);
        let length = r.number(1, 3, |l| (1..=32).contains(&l))?;
        let (at, text) = r.part(length as usize)?;
        if !well_formed(text) || reserved(text) || !texts.insert(text) {
            return Err((4, at));
        }
    }
    let blocks = r.number(2, 3, |b| b <= 64)?;
    let mut instrs = vec![];
    for _ in 0..blocks {
        let n = r.number(2, 3, |n| n <= 256)?;
        r.number(2, 3, |saves| saves == 0)?;
        for i in 1..=n {
            instrs.push(instruction(&mut r, id, &names, blocks, i == n)?);
        }
    }
    if r.at < bytes.len() {
        return Err((1, r.at));
    }
    for i in &instrs {
        let right = match i.literal {
            Some(kind) => u64::from(i.types[0]) == kind || (kind == 0 && i.types[0] == 2),
            None => fits(&i.types, i.wanted),
        };
        if !right {
            return Err((7, i.at));
        }
    }
    Ok(())
}

/// The names of a record whose head is there: each text, until the end.
fn texts(bytes: &[u8]) -> Result<Vec<&[u8]>, Fault> {
    let mut r = Input { bytes, at: 6 };
    let mut found = vec![];
    for _ in 0..r.number(2, 0, |_| true)? {
        r.part(1)?;
        let length = r.number(1, 0, |_| true)?;
        found.push(r.part(length as usize)?.1);
    }
    Ok(found)
}

/// The text of a name of a record or of its rewriting.
pub fn name_text<'a>(input: &'a [u8], rewriting: &'a [u8], index: usize) -> Result<&'a [u8], Fault> {
    check(input)?;
    let foreign = Err((11, 0));
    let length = u32::try_from(rewriting.len().wrapping_sub(4));
    if rewriting.len() < 8 || rewriting[..4] != length.unwrap_or(0).to_be_bytes() || rewriting[4] != input[4] {
        return foreign;
    }
    let Ok(made) = texts(rewriting) else {
        return foreign;
    };
    let original = texts(input)?;
    if made.len() < original.len() {
        return foreign;
    }
    if index >= made.len() {
        return Err((6, 0));
    }
    Ok(original.get(index).copied().unwrap_or(made[index]))
}
