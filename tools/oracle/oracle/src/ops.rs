//! The operation codes of a record and the operations of the Rust.

use bril_rs::{EffectOps, ValueOps};

pub const CONST: u8 = 0;
pub const VALUE_CALL: u8 = 20;
pub const PHI: u8 = 39;
pub const EFFECT_CALL: u8 = 67;

pub const VALUES: [(u8, ValueOps); 34] = [
    (1, ValueOps::Add),
    (2, ValueOps::Sub),
    (3, ValueOps::Mul),
    (4, ValueOps::Div),
    (5, ValueOps::Eq),
    (6, ValueOps::Lt),
    (7, ValueOps::Gt),
    (8, ValueOps::Le),
    (9, ValueOps::Ge),
    (10, ValueOps::Not),
    (11, ValueOps::And),
    (12, ValueOps::Or),
    (13, ValueOps::Id),
    (14, ValueOps::PtrAdd),
    (VALUE_CALL, ValueOps::Call),
    (21, ValueOps::Fadd),
    (22, ValueOps::Fsub),
    (23, ValueOps::Fmul),
    (24, ValueOps::Fdiv),
    (25, ValueOps::Feq),
    (26, ValueOps::Flt),
    (27, ValueOps::Fgt),
    (28, ValueOps::Fle),
    (29, ValueOps::Fge),
    (30, ValueOps::Ceq),
    (31, ValueOps::Clt),
    (32, ValueOps::Cgt),
    (33, ValueOps::Cle),
    (34, ValueOps::Cge),
    (35, ValueOps::Char2int),
    (36, ValueOps::Int2char),
    (37, ValueOps::Alloc),
    (38, ValueOps::Load),
    (PHI, ValueOps::Phi),
];

pub const EFFECTS: [(u8, EffectOps); 8] = [
    (64, EffectOps::Jump),
    (65, EffectOps::Branch),
    (66, EffectOps::Return),
    (EFFECT_CALL, EffectOps::Call),
    (68, EffectOps::Print),
    (69, EffectOps::Nop),
    (70, EffectOps::Store),
    (71, EffectOps::Free),
];

/// The operation of a code.
pub fn op<T: Copy>(table: &[(u8, T)], code: u8) -> Option<T> {
    table.iter().find(|(c, _)| *c == code).map(|(_, op)| *op)
}

/// The code of an operation.
pub fn code<T: PartialEq>(table: &[(u8, T)], op: &T) -> Option<u8> {
    table.iter().find(|(_, o)| o == op).map(|(c, _)| *c)
}
