//! Damaged copies of records. What check is to say of one is not known here:
//! the second reading answers it.

use crate::function::{mend_length, Encoded, Field, Kind, WIDE};
use crate::rng::Rng;

const TEXTS: [&[u8]; 9] = [
    b"_x_lvn0", b"___lvn0", b"_x_lvn00", b"_lvn0_lvn0", b"__lvn0", b"_lvn0", b"9", b"a b", b"\x80",
];

/// Values around the tests of a field.
fn values(kind: Kind, record: &Encoded, rng: &mut Rng) -> u64 {
    let names = u64::from(record.bytes[6]) * 256 + u64::from(record.bytes[7]);
    let some: &[u64] = match kind {
        Kind::Length => &[0, 4, 6, u32::MAX as u64],
        Kind::Version => &[0, 1, 2, 3, 255],
        Kind::Args => &[0, 1, 16, 17, 255],
        Kind::Names => &[0, 1, 255, 256, 257, 65535],
        Kind::Type => &[0, 1, 2, 3, 4, 15, 16, 0x1F, 0xF3, 0xF4],
        Kind::TextLength => &[0, 1, 31, 32, 33, 255],
        Kind::Blocks => &[0, 1, 63, 64, 65, 65535],
        Kind::Body => &[0, 1, 2, 255, 256, 257, 65535],
        Kind::Saves => &[0, 1, 65535],
        Kind::Code => &[
            0, 1, 4, 5, 9, 10, 12, 13, 14, 15, 19, 20, 24, 25, 29, 30, 34, 35, 38, 39, 40, 63, 64,
            65, 66, 67, 69, 70, 71, 72, 74, 255,
        ],
        Kind::LiteralKind => &[0, 1, 2, 3, 4, 255],
        Kind::Literal => &[0, 1, 2, 0xD7FF, 0xD800, 0xDFFF, 0xE000, 0x10FFFF, 0x110000, 1 << 63],
        Kind::Count => &[0, 1, 2, 3, 8, 9, 255],
        Kind::Target => &[0, 1, 2, 63, 64, 65535],
        Kind::Dest | Kind::Arg => return rng.pick(&[0, 1, 2, 3, names.saturating_sub(1), names, 65535]),
        Kind::Id => &[0, WIDE - 1, WIDE, WIDE + 1, u64::MAX],
        Kind::Text | Kind::Callee => &[0, 0x20, 0x30, 0x5F, 0x61, 0xFF],
    };
    rng.pick(some)
}

fn set(bytes: &mut [u8], field: Field, value: u64) {
    let width = field.width.min(8);
    bytes[field.at..field.at + width].copy_from_slice(&value.to_be_bytes()[8 - width..]);
}

/// A text in the place of another, and the length before it.
fn retext(bytes: &mut Vec<u8>, field: Field, text: &[u8]) {
    bytes.splice(field.at..field.at + field.width, text.iter().copied());
    bytes[field.at - 1] = text.len() as u8;
}

/// A damaged copy. The record has at least its eight first bytes.
pub fn damaged(record: &Encoded, rng: &mut Rng) -> Vec<u8> {
    let mut bytes = record.bytes.clone();
    let mend = rng.chance(950);
    let texts = || record.fields.iter().filter(|f| f.kind == Kind::Text).count();
    match rng.below(12) {
        0 => bytes.truncate(rng.below(bytes.len())),
        1 => {
            let more = if rng.chance(800) { 1 } else { rng.within(1, 300) };
            bytes.extend((0..more).map(|_| rng.bits() as u8));
        }
        2 => {
            let at = rng.below(bytes.len());
            bytes[at] = rng.bits() as u8;
        }
        3 => {
            let at = rng.below(bytes.len());
            bytes.remove(at);
        }
        4 => {
            let at = rng.below(bytes.len());
            bytes.insert(at, rng.bits() as u8);
        }
        5 if texts() > 0 => {
            let at = rng.below(texts());
            let fields = || record.fields.iter().filter(|f| f.kind == Kind::Text);
            let field = *fields().nth(at).unwrap();
            let other = *fields().nth(rng.below(at + 1)).unwrap();
            let copy = record.bytes[other.at..other.at + other.width].to_vec();
            let text = if rng.chance(500) { &copy } else { rng.pick(&TEXTS) };
            retext(&mut bytes, field, text);
        }
        _ => {
            let field = record.fields[rng.below(record.fields.len())];
            set(&mut bytes, field, values(field.kind, record, rng));
            if field.kind == Kind::Length {
                return bytes;
            }
        }
    }
    if mend {
        mend_length(&mut bytes);
    }
    bytes
}
