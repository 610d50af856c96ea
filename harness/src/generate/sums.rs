//! Programs that add and subtract numbers of several words: ADD and ADDC, SUB and SUBC in a row, of registers and immediates, with the flags
//! updated and left; mostly of registers that lie apart, and with words near 0 and near 2^W, so that carries and borrows are frequent.

use super::configs::{self, Size};
use super::contexts::{copy, jump};
use super::programs::straight;
use super::states::{self, Lists};
use super::words;
use crate::model::config::Config;
use crate::model::rows::{Base, Kind, Operand};
use crate::random::Random;

const IM_SIZE: usize = 0;
const PC: usize = 0;
const MODE: usize = 10;

/// The most words that the numbers of a program have: as many as the smallest bank has registers.
const MOST_WORDS: u32 = 8;

const SUMS: [Base; 2] = [Base::Add, Base::Addc];
const DIFFERENCES: [Base; 2] = [Base::Sub, Base::Subc];
const IMMEDIATES: [Operand; 3] = [Operand::Signed, Operand::Unsigned, Operand::Shifted];

/// A lawful configuration with room for a few numbers.
pub fn config(r: &mut Random) -> Vec<u32> {
    let mut config = configs::lawful(r, Size::Small);
    config[IM_SIZE] = r.pick(&[4, 9, 12, 16, 24, 32, 48, 64]);
    config
}

/// A word near 0, near 2^W or near its half, or any.
fn near(r: &mut Random, c: &Config) -> u32 {
    let limit = 1u64 << c.reg_width;
    c.cut(match r.below(10) {
        0..=2 => u64::from(r.below(3)),
        3..=5 => limit - u64::from(r.from_to(1, 3)),
        6 => limit / 2 - u64::from(r.below(2)),
        _ => r.wide(),
    })
}

/// An immediate at an edge of 8 or of 16 bits, or any.
fn immediate(r: &mut Random) -> u32 {
    if r.chance(70) {
        r.pick(&[0, 0, 1, 2, 0x7f, 0x80, 0xfe, 0xff, 0x100, 0x7fff, 0x8000, 0xff00, 0xfffe, 0xffff, 0xffff])
    } else {
        r.below(0x1_0000)
    }
}

/// Words for all registers, of which many are equal.
pub fn plant(r: &mut Random, c: &Config, registers: &mut [u32]) {
    let equal = near(r, c);
    registers.iter_mut().for_each(|cell| *cell = if r.chance(25) { equal } else { near(r, c) });
}

/// The word of an operation on %d, with %s or, without it, an immediate.
fn operation(r: &mut Random, c: &Config, base: Base, keeps: bool, d: u32, s: Option<u32>) -> u32 {
    let operand = if s.is_some() { Operand::Register } else { r.pick(&IMMEDIATES) };
    let value = immediate(r);
    words::of_kind(r, c, Kind::Base(base, operand), |i| {
        (i.flag, i.destination) = (u32::from(keeps), d);
        match s {
            Some(s) => i.source = s,
            None => i.value = value,
        }
    })
}

/// The registers of two numbers of `words` words. Where they lie apart each %d is another, and mostly no %s is one of them.
struct Registers {
    first: u32,
    stride: u32,
    words: u32,
    apart: bool,
}

impl Registers {
    fn new(r: &mut Random, c: &Config, words: u32) -> Registers {
        // REG_SIZE is a power of two: an odd stride leads to all registers.
        let stride = 2 * r.below(c.reg_size / 2) + 1;
        Registers { first: r.below(c.reg_size), stride, words, apart: r.chance(75) }
    }

    fn number(&self, c: &Config, place: u32) -> u32 {
        (self.first + self.stride * place) % c.reg_size
    }

    /// %d of a word, counted from the lowest, and its %s where it has one.
    fn of(&self, r: &mut Random, c: &Config, word: u32) -> (u32, Option<u32>) {
        const FEW: u32 = 3;
        let d = if self.apart { word } else { r.below(FEW) };
        let others = c.reg_size - self.words;
        let s = match r.below(100) {
            0..=24 => None,
            _ if !self.apart => Some(r.below(FEW)),
            25..=34 => Some(d),
            35..=44 => Some(r.from_to(d, self.words - 1)),
            45..=47 => Some(r.below(self.words)),
            48..=55 if others > 0 => Some(self.words),
            _ if others > 0 => Some(self.words + r.below(others)),
            _ => Some(d),
        };
        (self.number(c, d), s.map(|s| self.number(c, s)))
    }
}

/// Two numbers added or subtracted, the lowest words first. Some leave the flags on the way, change the direction, or have another word
/// between.
fn stretch(r: &mut Random, c: &Config) -> Vec<u32> {
    let (own, other) = if r.chance(50) { (SUMS, DIFFERENCES) } else { (DIFFERENCES, SUMS) };
    let length = match r.below(100) {
        0..=54 => 2,
        55..=69 => 3,
        70..=89 => r.from_to(4, MOST_WORDS),
        _ => MOST_WORDS,
    };
    let registers = Registers::new(r, c, length);
    let (steady, straying) = (r.chance(60), r.chance(20));
    let mut code = Vec::new();
    for word in 0..length {
        let bases = if straying && r.chance(30) { other } else { own };
        let (base, keeps) = (bases[usize::from(word > 0)], !steady && r.chance(35));
        let (d, s) = registers.of(r, c, word);
        code.push(operation(r, c, base, keeps, d, s));
        if straying && r.chance(30) {
            code.extend(between(r, c));
        }
    }
    code
}

/// A word that leaves N, or one that need not.
fn between(r: &mut Random, c: &Config) -> Vec<u32> {
    if r.chance(60) {
        refill(r, c)
    } else {
        vec![straight(r, c)]
    }
}

/// MOV of a word near an edge, or of another register.
fn refill(r: &mut Random, c: &Config) -> Vec<u32> {
    let (d, s, value) = (r.below(c.reg_size), r.below(c.reg_size), immediate(r));
    let mark = r.pick(&IMMEDIATES);
    vec![if r.chance(30) { copy(d, s) } else { words::of_kind(r, c, Kind::Mov(mark), |i| (i.destination, i.value) = (d, value)) }]
}

/// A compare, whose N an ADDC or SUBC behind it takes.
fn compare(r: &mut Random, c: &Config) -> Vec<u32> {
    let (base, d, s) = (r.pick(&[Base::Cmp, Base::Cmps, Base::Subs]), r.below(c.reg_size), r.below(c.reg_size));
    vec![operation(r, c, base, false, d, Some(s))]
}

/// A jump over the next words, or into them, where the image goes on so far.
fn skip(r: &mut Random, c: &Config, at: u32) -> Vec<u32> {
    let (condition, target) = (words::condition(r, c), (at + r.from_to(1, 5)).min(c.im_size - 1));
    vec![words::of_kind(r, c, Kind::Jump(condition), |i| i.value = target)]
}

/// An image of IM_SIZE words that mostly begins again at its end.
pub fn program(r: &mut Random, c: &Config) -> Vec<u32> {
    let size = c.im_size as usize;
    let mut image = Vec::new();
    while image.len() < size {
        let at = image.len() as u32;
        image.extend(match r.below(100) {
            0..=74 => stretch(r, c),
            75..=87 => refill(r, c),
            88..=91 => compare(r, c),
            92..=95 => skip(r, c, at),
            _ => vec![straight(r, c)],
        });
    }
    image.truncate(size);
    if r.chance(90) {
        image[size - 1] = jump(0);
    }
    image
}

/// A machine in its ranges, mostly in normal mode, at the image's beginning or anywhere.
pub fn machine(r: &mut Random, c: &Config, lists: &Lists) -> Vec<u32> {
    let mut machine = states::machine(r, c, lists);
    if r.chance(50) {
        machine[PC] = 0;
    }
    if r.chance(95) {
        machine[MODE] = 0;
    }
    machine
}
