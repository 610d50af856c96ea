//! Word arithmetic: results and flags, in exact integers.

use super::config::Config;
use super::rows::{Base, Operand, Shift, Unary};

/// A result and the flags it would set; None for a flag that it does not touch.
#[derive(Clone, Copy, Debug, PartialEq, Eq)]
pub struct Outcome {
    pub value: u32,
    pub z: Option<bool>,
    pub n: Option<bool>,
}

fn outcome(value: u32, z: bool, n: bool) -> Outcome {
    Outcome { value, z: Some(z), n: Some(n) }
}

/// The signed number that a word stands for.
pub fn signed(c: &Config, value: u32) -> i64 {
    let value = i64::from(value);
    if value >= 1 << (c.reg_width - 1) {
        value - (1 << c.reg_width)
    } else {
        value
    }
}

fn cut_signed(c: &Config, value: i64) -> u32 {
    value.rem_euclid(1 << c.reg_width) as u32
}

/// "Immediates: W = 32: sign extended, zero extended, or times 65,536. W = 16 (ours) and 8: low W bits, all three alike."
pub fn immediate(c: &Config, operand: Operand, value: u32) -> u32 {
    if c.reg_width != 32 {
        return c.cut(u64::from(value));
    }
    match operand {
        Operand::Signed if value >= 0x8000 => value + 0xffff_0000,
        Operand::Shifted => value * 0x1_0000,
        _ => value,
    }
}

/// TST to SUBC: `a` is %d, `b` the other operand, `carry` the old N. MUL is apart.
pub fn base(c: &Config, op: Base, a: u32, b: u32, carry: bool) -> Outcome {
    let (x, y, n) = (i64::from(a), i64::from(b), i64::from(carry));
    let logic = |value: u32| Outcome { value, z: Some(value == 0), n: None };
    let sum = |exact: i64| {
        let value = cut_signed(c, exact);
        outcome(value, value == 0, exact >= 1 << c.reg_width)
    };
    let difference = |exact: i64| {
        let value = cut_signed(c, exact);
        outcome(value, value == 0, exact < 0)
    };
    match op {
        Base::Tst | Base::And => logic(a & b),
        Base::Or => logic(a | b),
        Base::Xor => logic(a ^ b),
        Base::Add => sum(x + y),
        Base::Addc => sum(x + y + n),
        Base::Sub | Base::Cmp => difference(x - y),
        Base::Subc => difference(x - y - n),
        Base::Subs | Base::Cmps => difference(signed(c, a) - signed(c, b)),
        Base::Mul => unreachable!("MUL sets no flag and has a high word: see multiply"),
    }
}

/// "MUL: low 16 bits of each, product's low W bits, no flag; SPR7 takes product bits W+15 to W if W ≤ 16, else 0."
pub fn multiply(c: &Config, a: u32, b: u32) -> (u32, u32) {
    let product = u64::from(a % 0x1_0000) * u64::from(b % 0x1_0000);
    let high = if c.reg_width <= 16 { (product >> c.reg_width) % 0x1_0000 } else { 0 };
    (c.cut(product), high as u32)
}

/// "Z is 1 when the old MSbit (left) or LSbit (right) is 0 ... N is the result's MSbit."
fn moved(c: &Config, old: u32, left: bool, value: u32) -> Outcome {
    let out = if left { c.top_bit(old) } else { old & 1 == 1 };
    outcome(value, !out, c.top_bit(value))
}

pub fn shift(c: &Config, op: Shift, a: u32, count: u32) -> Outcome {
    match op {
        Shift::Right => moved(c, a, false, a >> count),
        Shift::RightSigned => moved(c, a, false, cut_signed(c, signed(c, a).div_euclid(1 << count))),
        Shift::Left => moved(c, a, true, c.cut(u64::from(a) << count)),
    }
}

pub fn unary(c: &Config, op: Unary, s: u32) -> Outcome {
    let w = c.reg_width;
    match op {
        Unary::RotateRight => moved(c, s, false, s / 2 + (s % 2) * (1 << (w - 1))),
        Unary::RotateLeft => moved(c, s, true, c.cut(2 * u64::from(s)) + u32::from(c.top_bit(s))),
        Unary::Left16 => moved(c, s, true, c.cut(u64::from(s) << 16)),
        Unary::Absolute => {
            let value = cut_signed(c, signed(c, s).abs());
            outcome(value, value == 0, c.top_bit(s))
        }
        Unary::LeadingZeros => {
            let count = (0..16).take_while(|i| s >> (w - 1 - i) & 1 == 0).count() as u32;
            outcome(count, count == 16, c.top_bit(s))
        }
    }
}

/// Byte `number` of a word.
pub fn byte_of(value: u32, number: u32) -> u32 {
    value >> (8 * number) & 0xff
}

/// "Z, N from the source byte".
fn byte_outcome(value: u32, byte: u32) -> Outcome {
    outcome(value, byte == 0, byte >= 0x80)
}

/// "BST keeps the other bytes."
pub fn store_byte(d: u32, s: u32, number: u32) -> Outcome {
    let byte = byte_of(s, 0);
    byte_outcome(d - (byte_of(d, number) << (8 * number)) + (byte << (8 * number)), byte)
}

pub fn load_byte(s: u32, number: u32) -> Outcome {
    let byte = byte_of(s, number);
    byte_outcome(byte, byte)
}

pub fn load_byte_signed(c: &Config, s: u32, number: u32) -> Outcome {
    let byte = byte_of(s, number);
    let exact = if byte >= 0x80 { i64::from(byte) - 0x100 } else { i64::from(byte) };
    byte_outcome(cut_signed(c, exact), byte)
}
