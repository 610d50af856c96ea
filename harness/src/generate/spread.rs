//! Programs spread over a large image: a few stretches of code far apart, which jump from one to the other.

use super::programs::{has_movx, load_indexes, mov_special, movx, straight, SPR_OFF, SPR_ON};
use super::words;
use crate::model::config::Config;
use crate::model::rows::{Base, Condition, Kind, Operand};
use crate::model::words::{read, Instruction};
use crate::random::Random;

/// An image of IM_SIZE words, and where its stretches begin.
pub struct Spread {
    pub image: Vec<u32>,
    pub places: Vec<u32>,
}

/// Where stretches begin: alike modulo 4,096 or 512 or a smaller number, or anywhere; and at the end, so that code runs off the image.
fn places(r: &mut Random, size: u32) -> Vec<u32> {
    let apart = r.pick(&[4_096, 4_096, 512, 512, 256, 64, 1]);
    let first = r.below(apart.min(size));
    let mut list = vec![0, first];
    for _ in 0..r.from_to(1, 4) {
        list.push(first + apart * r.below((size - first).div_ceil(apart)));
    }
    if r.chance(50) {
        list.push(size - r.from_to(1, 8).min(size));
    }
    list
}

/// A word that cannot be read, by 5, 6 or 7.
fn refused(r: &mut Random, c: &Config) -> u32 {
    let number = r.from_to(5, 7);
    let mut word = words::any(r, c);
    for _ in 0..1_000 {
        if read(c, word) == Err(number) {
            break;
        }
        word = words::any(r, c);
    }
    word
}

/// A word that goes on to the next address and leaves a register alone.
fn straight_beside(r: &mut Random, c: &Config, register: u32) -> u32 {
    loop {
        let word = straight(r, c);
        let writes_elsewhere = |i: Instruction| i.destination != register && i.row().kind != Kind::MovxFrom;
        if read(c, word).is_ok_and(writes_elsewhere) {
            return word;
        }
    }
}

/// A stretch from `at` on: some words, a while of special-register mode, and a way to another stretch; at times an LDYX before and a MOVX
/// behind them. Where the program is not to leap all the time, often in a loop that counts a register down, and with a word that cannot be
/// read before the way out.
fn stretch(r: &mut Random, c: &Config, at: u32, places: &[u32], leaping: bool) -> Vec<u32> {
    let counter = r.below(c.reg_size);
    let turns = if !leaping && r.chance(70) { r.pick(&[2, 3, 7, 16, 60, 127]) } else { 0 };
    let counted = |r: &mut Random, kind: Kind, value: u32| {
        words::of_kind(r, c, kind, |i| (i.flag, i.destination, i.value) = (0, counter, value))
    };
    let mut code = Vec::new();
    if turns > 0 {
        code.push(counted(r, Kind::Mov(Operand::Signed), turns));
    }
    if has_movx(c) && r.chance(15) {
        code.push(load_indexes(r, c));
    }
    let back = at + code.len() as u32;
    for _ in 0..r.from_to(1, 6) {
        code.push(straight_beside(r, c, counter));
    }
    if c.alu_spr == 1 && r.chance(35) {
        code.push(SPR_ON);
        for _ in 0..r.below(4) {
            let mov = mov_special(r, c);
            code.extend((mov >> 16 & 0x7f != counter).then_some(mov));
        }
        code.push(SPR_OFF);
    }
    if turns > 0 {
        code.push(counted(r, Kind::Base(Base::Sub, Operand::Signed), 1));
        code.push(words::of_kind(r, c, Kind::Jump(Condition::Nz), |i| i.value = back));
    }
    if has_movx(c) && r.chance(20) {
        code.push(movx(r, c));
    }
    if !leaping && r.chance(35) {
        code.push(refused(r, c));
    }
    let elsewhere: Vec<u32> = places.iter().copied().filter(|&place| place != at).collect();
    let other = r.pick(if elsewhere.is_empty() { places } else { &elsewhere });
    let way = match r.below(20) {
        0 => Kind::Return,
        1 | 2 => Kind::Call,
        3 => Kind::Jump(words::condition(r, c)),
        _ => Kind::Jump(Condition::Always),
    };
    code.push(words::of_kind(r, c, way, |i| {
        if way != Kind::Return {
            i.value = other;
        }
    }));
    code
}

/// The stretches may overlap, and words between them are zeros or can mostly be read.
pub fn spread(r: &mut Random, c: &Config) -> Spread {
    let size = c.im_size as usize;
    let places = places(r, c.im_size);
    let between = words::readable(r, c);
    let mut image = vec![if r.chance(50) { 0 } else { between }; size];
    let leaping = r.chance(50);
    for &at in places.iter().rev() {
        let code = stretch(r, c, at, &places, leaping);
        let room = code.len().min(size - at as usize);
        image[at as usize..at as usize + room].copy_from_slice(&code[..room]);
    }
    Spread { image, places }
}
