//! Machines, memories and logs.

use crate::model::config::Config;
use crate::model::machine::{Machine, LOADED_AT, MACHINE_WORDS};
use crate::random::Random;

/// The lists that a step or a run is given.
#[derive(Clone, Debug, PartialEq, Eq)]
pub struct Lists {
    pub image: Vec<u32>,
    pub inputs: Vec<u32>,
    pub machine: Vec<u32>,
    pub registers: Vec<u32>,
    pub memory: Vec<u32>,
    pub log_addresses: Vec<u32>,
    pub log_values: Vec<u32>,
}

/// A value for a register cell: a small number, an edge, a data address, a context or anything.
pub fn cell(r: &mut Random, c: &Config) -> u32 {
    let value = match r.below(8) {
        0 => r.below(4),
        1 | 2 => r.below(c.dm_size.max(1)),
        3 => r.odd(),
        4 => r.below(c.dm_size.max(1)) | r.word() << 16,
        5 => r.below(c.rm_size / 16 + 1) << 26 | r.word() & 0x03ff_0000 | r.below(c.im_size + 1),
        6 => r.below(c.im_size + 1) | r.below(2) << 23,
        _ => r.word(),
    };
    c.cut(u64::from(value))
}

/// The places of RX and RY in a record, which are 0 until the mark of K4 is 1.
const RX: usize = 2;
const RY: usize = 3;

/// A machine in its ranges.
pub fn machine(r: &mut Random, c: &Config, lists: &Lists) -> Vec<u32> {
    let mut m = Machine::at_reset();
    if r.chance(15) {
        return m.to_words().to_vec();
    }
    let limit = c.stack_limit();
    m.pc = match r.below(24) {
        0 => r.below(1 << 23),
        1 => c.im_size,
        _ => r.below(c.im_size),
    };
    let last_unit = (c.rm_size - c.reg_size) / 16;
    m.wp = 16 * r.below(last_unit + 1);
    m.loaded = u32::from(r.chance(75));
    if m.loaded == 1 {
        m.rx = r.below(c.reg_size);
        m.ry = if r.chance(30) { m.rx } else { r.below(c.reg_size) };
    }
    m.n = r.below(2);
    m.z = r.below(2);
    m.spr7 = if c.reg_width == 32 { 0 } else { c.cut(r.wide()) };
    m.imask = r.below(16);
    m.saved_mask = r.below(16);
    m.depth = match r.below(4) {
        0 => 0,
        1 => limit,
        _ => r.below(limit + 1),
    };
    for place in 0..m.depth as usize {
        m.stack[place] = r.below(c.im_size + 1);
    }
    m.mode = u32::from(r.chance(15));
    if r.chance(30) {
        m.posted = 1;
        m.posted_address = r.pick(&lists.registers);
    }
    let position = |r: &mut Random, length: usize| match r.below(4) {
        0 => length as u64,
        1 => 0,
        _ => u64::from(r.below(length as u32 + 1)),
    };
    m.input_position = position(r, lists.inputs.len());
    m.log_position = position(r, lists.log_addresses.len());
    m.to_words().to_vec()
}

/// Lists as long as the configuration says, all cells within the width, the machine at reset.
pub fn lists(r: &mut Random, c: &Config, image: Vec<u32>) -> Lists {
    let log = r.pick(&[0, 0, 1, 2, 5, 12, 40]);
    let input_count = r.pick(&[0, 0, 1, 2, 5, 12, 40]);
    let plain = r.chance(10);
    let cells = |r: &mut Random, count: u32| -> Vec<u32> { (0..count).map(|_| if plain { 0 } else { cell(r, c) }).collect() };
    Lists {
        image,
        inputs: (0..input_count).map(|_| r.odd()).collect(),
        machine: Machine::at_reset().to_words().to_vec(),
        registers: cells(r, c.rm_size),
        memory: cells(r, c.dm_size),
        log_addresses: (0..log).map(|_| r.word()).collect(),
        log_values: (0..log).map(|_| r.word()).collect(),
    }
}

fn stretch(r: &mut Random, list: &mut Vec<u32>) {
    let length = match r.below(4) {
        0 => list.len() + 1,
        1 => list.len() + r.from_to(2, 9) as usize,
        2 => 0,
        _ => list.len().saturating_sub(1),
    };
    list.resize(length, 0);
}

/// Damages for 2 and 3: a list's length, a field of the record, or a cell too wide. May hit something that is in its ranges still.
pub fn damage(r: &mut Random, lists: &mut Lists) {
    if lists.machine.len() != MACHINE_WORDS {
        return;
    }
    match r.below(14) {
        0 => stretch(r, &mut lists.image),
        1 => stretch(r, &mut lists.registers),
        2 => stretch(r, &mut lists.memory),
        3 => stretch(r, &mut lists.log_addresses),
        4 => stretch(r, &mut lists.log_values),
        5 if r.chance(30) => lists.machine.resize(r.pick(&[0, 1, 17, 99, 101, 120]), 0),
        5 | 6 => {
            let list = if r.chance(50) { &mut lists.registers } else { &mut lists.memory };
            if !list.is_empty() {
                let place = r.below(list.len() as u32) as usize;
                list[place] = r.odd();
            }
        }
        7 => lists.machine[r.from_to(LOADED_AT as u32 + 1, MACHINE_WORDS as u32 - 1) as usize] = r.odd(),
        8 => lists.machine[r.from_to(17, 79) as usize] = r.odd(),
        9 => lists.machine[LOADED_AT] = if r.chance(50) { 2 } else { r.odd() },
        // Not loaded, but with an index: less than the fewest registers, so that nothing else is wrong with it.
        10 => {
            let index = r.from_to(1, 7);
            let (rx, ry) = r.pick(&[(index, 0), (0, index), (index, index)]);
            (lists.machine[RX], lists.machine[RY], lists.machine[LOADED_AT]) = (rx, ry, 0);
        }
        _ => {
            let place = r.below(17) as usize;
            lists.machine[place] = match r.below(3) {
                0 => lists.machine[place].wrapping_add(1),
                1 => lists.machine[place] ^ 1 << r.below(32),
                _ => r.odd(),
            };
        }
    }
}

/// A run's budget: small ones mostly, and the edges.
pub fn budget(r: &mut Random) -> u64 {
    match r.below(16) {
        0 => 0,
        1 => 1,
        2 => 1_000_001,
        3 if r.chance(50) => r.pick(&[u64::MAX, 1 << 32, (1 << 32) + 5, 1 << 63, 2_000_000]),
        4 => u64::from(r.below(2000)),
        _ => u64::from(r.below(40)),
    }
}
