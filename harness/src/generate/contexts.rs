//! Programs that switch contexts: routines that JSRWP enters, nested, in banks that overlap, coincide or lie apart; some leave their register
//! zero alone, some overwrite it, some put it back from a copy.

use super::configs::{self, Size};
use super::programs::{mov_special, straight, SPR_OFF, SPR_ON};
use super::states::{self, Lists};
use super::words;
use crate::model::config::Config;
use crate::model::machine::Machine;
use crate::model::rows::{Base, Kind, Operand};
use crate::random::Random;

/// A stretch of the image: where it begins, where its way out stands, WP/16 of the bank it is mostly entered in, and whether JSR enters it.
#[derive(Clone, Copy, Debug)]
struct Routine {
    start: u32,
    out: u32,
    unit: u32,
    plain: bool,
}

/// What the words of a program are made by; the first of its routines is main. In a careful program nothing writes a register zero but JSRWP
/// and what puts a copy back.
struct Plan<'a> {
    c: &'a Config,
    routines: Vec<Routine>,
    careful: bool,
}

/// An image of IM_SIZE words.
pub struct Contexts {
    pub image: Vec<u32>,
    routines: Vec<Routine>,
}

/// The fewest words of a routine.
const LEAST: u32 = 7;

const RET: u32 = 0xf000_0000;
const RETWP: u32 = 0xf001_0000;

/// A lawful configuration with banks.
pub fn config(r: &mut Random) -> Vec<u32> {
    let mut config = configs::lawful(r, Size::Small);
    let reg_size = r.pick(&[8u32, 16, 16, 32, 32, 64, 64, 128, 128]);
    let most = (1024 / reg_size).ilog2();
    let im_size = if r.chance(1) { 32_768 } else { r.pick(&[20, 24, 32, 40, 48, 64, 100]) };
    let few = r.chance(80);
    let rm_size = reg_size << r.from_to(1, if few { most.min(3) } else { most });
    (config[0], config[1], config[2], config[3]) = (im_size, 32, reg_size, rm_size);
    config
}

fn last_unit(c: &Config) -> u32 {
    (c.rm_size - c.reg_size) / 16
}

/// A unit whose bank shares cells with that of another one, where there is such a unit.
fn overlapping(r: &mut Random, c: &Config, unit: u32) -> u32 {
    let apart = r.from_to(1, (c.reg_size / 16).max(2) - 1);
    if r.chance(50) { unit + apart } else { unit.saturating_sub(apart) }.min(last_unit(c))
}

/// Routines of equal room, the last up to the image's end.
fn routines(r: &mut Random, c: &Config) -> Vec<Routine> {
    let count = r.from_to(2, 7).min(c.im_size / LEAST);
    let room = (c.im_size / count).min(40);
    let mut unit = r.below(last_unit(c) + 1);
    let mut list = Vec::new();
    for which in 0..count {
        let start = match which {
            0 => 0,
            _ if which + 1 == count => c.im_size - room,
            _ => which * room,
        };
        unit = match r.below(100) {
            0..=59 => overlapping(r, c, unit),
            60..=67 => unit,
            _ => r.below(last_unit(c) + 1),
        };
        list.push(Routine { start, out: start + room - 1, unit, plain: which > 1 && which + 1 < count && r.chance(20) });
    }
    list
}

/// A context as JSRWP stores it, with anything in 25-22, that leads to a routine.
fn context(r: &mut Random, c: &Config, routines: &[Routine]) -> u32 {
    let (to, bank) = (r.pick(routines), r.pick(routines));
    let unit = if r.chance(92) { bank.unit } else { r.below(64) };
    let address = match r.below(20) {
        0..=5 => to.start,
        6..=15 => to.out,
        16..=18 => r.from_to(to.start, to.out),
        _ => c.im_size,
    };
    unit << 26 | r.below(0x400) << 16 | address
}

/// MOV %d,%s
pub(super) fn copy(d: u32, s: u32) -> u32 {
    0xa000_0000 | d << 16 | s
}

pub(super) fn jump(target: u32) -> u32 {
    0xc000_0000 | target
}

fn jsr(target: u32) -> u32 {
    0xf080_0000 | target
}

fn jsrwp(address: u32, unit: u32) -> u32 {
    0xf100_0000 | unit << 16 | address
}

/// A register for results: no %00, nor one of an overlapping bank.
fn scratch(r: &mut Random) -> u32 {
    r.from_to(1, 5)
}

/// A register that is register zero of an overlapping bank, where there is such a one.
fn foreign_zero(r: &mut Random, c: &Config) -> u32 {
    if c.reg_size > 16 {
        16 * r.from_to(1, c.reg_size / 16 - 1)
    } else {
        scratch(r)
    }
}

/// A word that updates the flags.
fn flagged(r: &mut Random, c: &Config) -> u32 {
    let base = r.pick(&[Base::Cmp, Base::Cmp, Base::Cmps, Base::Add, Base::Sub, Base::Tst, Base::Addc]);
    let operand = r.pick(&[Operand::Register, Operand::Signed, Operand::Unsigned, Operand::Shifted]);
    let (d, s) = (scratch(r), scratch(r));
    words::of_kind(r, c, Kind::Base(base, operand), |i| {
        (i.flag, i.destination) = (0, d);
        if operand == Operand::Register {
            i.source = s;
        }
    })
}

impl Plan<'_> {
    /// A register for a copy of %00; at times one in which a nested JSRWP may store its own context.
    fn copy_register(&self, r: &mut Random) -> u32 {
        if !self.careful && r.chance(25) {
            foreign_zero(r, self.c)
        } else {
            r.from_to(6, self.c.reg_size.min(16) - 1)
        }
    }

    /// Words that put a context into a register: two that make it up, or one that changes what is there or takes it from another register.
    fn overwrite(&self, r: &mut Random, d: u32) -> Vec<u32> {
        let word = context(r, self.c, &self.routines);
        let of =
            |r: &mut Random, kind: Kind, value: u32| words::of_kind(r, self.c, kind, |i| (i.destination, i.value) = (d, value));
        match r.below(10) {
            0..=5 => {
                let low = Kind::Base(r.pick(&[Base::Or, Base::Add, Base::Xor]), Operand::Unsigned);
                vec![of(r, Kind::Mov(Operand::Shifted), word >> 16), of(r, low, word & 0xffff)]
            }
            6 => {
                let (base, by) = (r.pick(&[Base::Add, Base::Sub]), r.from_to(1, 3));
                vec![of(r, Kind::Base(base, Operand::Signed), by)]
            }
            7 | 8 => vec![of(r, Kind::Base(Base::Xor, Operand::Shifted), word >> 16 & 0x3ff)],
            _ => vec![copy(d, self.copy_register(r))],
        }
    }

    /// A JSRWP from one routine: mostly to a later one, so that nesting ends, and mostly into its bank.
    fn switch(&self, r: &mut Random, which: usize) -> u32 {
        let own = self.routines[which];
        let later: Vec<Routine> = self.routines[which + 1..].iter().copied().filter(|to| !to.plain).collect();
        let to = if later.is_empty() || r.chance(1) { r.pick(&self.routines) } else { r.pick(&later) };
        let unit = match r.below(100) {
            0..=6 => own.unit,
            7..=34 => overlapping(r, self.c, own.unit),
            35..=38 => r.below(last_unit(self.c) + 2).min(63),
            _ => to.unit,
        };
        jsrwp(to.start, unit)
    }

    /// A few words that go on to the words behind them, or come back to them. `at` is their address, `kept` holds a copy of %00.
    fn part(&self, r: &mut Random, which: usize, kept: Option<u32>, at: u32) -> Vec<u32> {
        let (c, routines, out) = (self.c, &self.routines, self.routines[which].out);
        let is_last = which + 1 == routines.len();
        match r.below(100) {
            0..=33 if !is_last || r.chance(2) => vec![self.switch(r, which)],
            34..=40 if c.alu_spr == 1 => vec![SPR_OFF],
            41..=44 if c.alu_spr == 1 => {
                let mut code = vec![SPR_ON];
                code.extend((0..r.below(2)).map(|_| mov_special(r, c)).filter(|mov| !self.careful || mov >> 16 & 0xf != 0));
                code.push(SPR_OFF);
                code
            }
            45..=52 if which > 0 && !self.careful => self.overwrite(r, 0),
            53..=57 if !self.careful => {
                let d = foreign_zero(r, c);
                self.overwrite(r, d)
            }
            58..=62 => kept.map(|kept| copy(0, kept)).into_iter().collect(),
            63..=67 => routines.iter().find(|to| to.plain).map(|to| jsr(to.start)).into_iter().collect(),
            68..=73 => {
                let (condition, target) = (words::condition(r, c), (at + r.from_to(1, 4)).min(out));
                vec![words::of_kind(r, c, Kind::Jump(condition), |i| i.value = target)]
            }
            74..=76 => {
                let (condition, to) = (words::condition(r, c), r.pick(routines));
                vec![words::of_kind(r, c, Kind::Jump(condition), |i| i.value = to.out)]
            }
            77..=79 if !self.careful => vec![straight(r, c)],
            _ => vec![flagged(r, c)],
        }
    }

    /// How a routine ends. A JSRWP at the end of the last one stores IM_SIZE as the address to return to.
    fn way_out(&self, r: &mut Random, which: usize) -> u32 {
        let other = r.pick(&self.routines);
        match r.below(100) {
            0..=84 if which == 0 => jump(0),
            0..=88 if self.routines[which].plain => RET,
            0..=88 => RETWP,
            89..=92 if which + 1 == self.routines.len() => jsrwp(other.out, other.unit),
            89..=94 => jump(other.out),
            95..=96 => jump(other.start),
            _ => RET,
        }
    }

    fn routine(&self, r: &mut Random, which: usize) -> Vec<u32> {
        let Routine { start, out, .. } = self.routines[which];
        let room = (out - start) as usize;
        let kept = r.chance(60).then(|| self.copy_register(r));
        let mut code: Vec<u32> = kept.map(|kept| copy(kept, 0)).into_iter().collect();
        let mut end: Vec<u32> = kept.filter(|_| r.chance(60)).map(|kept| copy(0, kept)).into_iter().collect();
        if which > 0 && !self.careful && r.chance(20) {
            end.extend(self.overwrite(r, 0));
        }
        if which + 1 < self.routines.len() && (which == 0 || r.chance(60)) {
            code.push(self.switch(r, which));
        }
        for _ in 0..r.from_to(1, 7) {
            let more = self.part(r, which, kept, start + code.len() as u32);
            if code.len() + more.len() + end.len() < room {
                code.extend(more);
            }
        }
        code.extend(end);
        // What is left is passed over.
        if code.len() < room {
            code.push(jump(out));
        }
        code.resize(room, copy(0, 0));
        code.push(self.way_out(r, which));
        code
    }
}

/// A program of two to seven routines.
pub fn program(r: &mut Random, c: &Config) -> Contexts {
    let plan = Plan { c, routines: routines(r, c), careful: r.chance(50) };
    let mut image = vec![0; c.im_size as usize];
    for (which, routine) in plan.routines.iter().enumerate() {
        let code = plan.routine(r, which);
        image[routine.start as usize..][..code.len()].copy_from_slice(&code);
    }
    Contexts { image, routines: plan.routines }
}

/// Puts contexts into register zero of some banks, so that a RETWP before any JSRWP leads somewhere.
pub fn plant(r: &mut Random, c: &Config, program: &Contexts, registers: &mut [u32]) {
    for unit in 0..=last_unit(c) {
        if r.chance(60) {
            registers[16 * unit as usize] = context(r, c, &program.routines);
        }
    }
}

const PC: usize = 0;
const WP: usize = 1;
const MODE: usize = 10;

/// A machine at reset, or one in its ranges at the start of a routine, with flags and masks at random.
pub fn machine(r: &mut Random, c: &Config, program: &Contexts, lists: &Lists) -> Vec<u32> {
    if r.chance(15) {
        return Machine::at_reset().to_words().to_vec();
    }
    let mut machine = states::machine(r, c, lists);
    let routine = if r.chance(75) { program.routines[0] } else { r.pick(&program.routines) };
    machine[PC] = routine.start;
    if r.chance(90) {
        (machine[WP], machine[MODE]) = (16 * routine.unit, 0);
    }
    machine
}
