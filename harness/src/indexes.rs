//! LDYX and MOVX by K4's mark, and records that break its rule: what steps and runs must meet of them.

use crate::generate::states::Lists;
use crate::model::config::Config;
use crate::model::machine::{self, Env, Machine, LOADED_AT};
use crate::model::rows::Kind;
use crate::model::words::{read, Instruction};
use std::collections::BTreeMap;

const WAYS: [&str; 2] = ["step", "run"];

/// Of MOVX to data memory, and from it: stops by 27, 13 and 8, and those that were carried out.
const MOVX: [[&str; 5]; 2] = [
    ["MOVX to: 27", "MOVX to past DM_SIZE: 27", "MOVX to, loaded: 13", "MOVX to, not loaded: 8", "MOVX to, done"],
    ["MOVX from: 27", "MOVX from past DM_SIZE: 27", "MOVX from, loaded: 13", "MOVX from, not loaded: 8", "MOVX from, done"],
];

/// LDYX that was carried out, by bit 26: not loaded before it, and loaded.
const LDYX: [[&str; 2]; 2] = [["first LDYX,S", "LDYX,S again"], ["first LDYX", "LDYX again"]];

/// Records that 3 refuses for this alone.
const RANGES: [&str; 4] = ["mark above 1", "RX though not loaded", "RY though not loaded", "word past 80 not zero"];

/// How often each was met, by way and name.
#[derive(Default)]
pub struct Indexes(BTreeMap<(&'static str, &'static str), u64>);

/// MOVX's place in the table and the register of its data address; None of other words.
fn movx(instruction: &Instruction) -> Option<(usize, u32)> {
    match instruction.row().kind {
        Kind::MovxTo => Some((0, instruction.destination)),
        Kind::MovxFrom => Some((1, instruction.source)),
        _ => None,
    }
}

/// What may be wrong with a record, by its place in `RANGES`, and the record without it.
fn mended(m: Machine) -> (usize, Machine) {
    match (m.loaded, m.rx, m.ry) {
        (2.., _, _) => (0, Machine { loaded: 1, ..m }),
        (0, 1.., 0) => (1, Machine { rx: 0, ..m }),
        (0, 0, 1..) => (2, Machine { ry: 0, ..m }),
        _ => (3, Machine { rest: Default::default(), ..m }),
    }
}

impl Indexes {
    fn count(&mut self, way: &'static str, what: &'static str) {
        *self.0.entry((way, what)).or_default() += 1;
    }

    /// A step that was carried out, by the record before it.
    pub fn note_done(&mut self, way: &'static str, instruction: &Instruction, before: &[u32]) {
        let loaded = before[LOADED_AT] as usize;
        if let Some((place, _)) = movx(instruction) {
            self.count(way, MOVX[place][4]);
        } else if instruction.row().kind == Kind::LoadIndexes {
            self.count(way, LDYX[instruction.flag as usize][loaded]);
        }
    }

    /// A stop by 8, 13 or 27, by what the refused step was given.
    pub fn note_stop(&mut self, way: &'static str, c: &Config, lists: &Lists, number: u32) {
        let Some(m) = Machine::from_words(&lists.machine) else { return };
        let Some((place, register)) = read(c, lists.image[m.pc as usize]).ok().as_ref().and_then(movx) else { return };
        let past = lists.registers[(m.wp + register) as usize] % 0x1_0000 >= c.dm_size;
        let what = match (number, m.loaded) {
            (27, 0) => usize::from(past),
            (13, 1) => 2,
            (8, 0) => 3,
            _ => return,
        };
        self.count(way, MOVX[place][what]);
    }

    /// A record that 3 refused: counted where it passes with the one thing mended.
    pub fn note_ranges(&mut self, way: &'static str, c: &Config, mut lists: Lists) {
        let Some((what, m)) = Machine::from_words(&lists.machine).map(mended) else { return };
        let env = Env { config: c, image: &lists.image, inputs: &lists.inputs };
        let lent = machine::Lists {
            registers: &mut lists.registers,
            memory: &mut lists.memory,
            log_addresses: &mut lists.log_addresses,
            log_values: &mut lists.log_values,
        };
        if machine::admit(&env, &m.to_words(), &lent).is_ok() {
            self.count(way, RANGES[what]);
        }
    }

    /// How many MOVX were carried out so far.
    pub fn carried_out(&self) -> u64 {
        let done = WAYS.iter().flat_map(|way| MOVX.map(|names| (*way, names[4])));
        done.filter_map(|key| self.0.get(&key)).sum()
    }

    /// What must be met and never was.
    pub fn unmet(&self) -> Vec<String> {
        let unmet = all().filter(|key| !self.0.contains_key(key));
        unmet.map(|(way, what)| format!("{what} was never met by a {way}")).collect()
    }

    pub fn print(&self) {
        for way in WAYS {
            let of_way = all().filter(|(of, _)| *of == way);
            let each = of_way.map(|key| format!("{} {}", key.1, self.0.get(&key).copied().unwrap_or_default()));
            println!("K4, {way}: {}", each.collect::<Vec<_>>().join("; "));
        }
    }
}

fn all() -> impl Iterator<Item = (&'static str, &'static str)> {
    let names = || MOVX.into_iter().flatten().chain(LDYX.into_iter().flatten()).chain(RANGES);
    WAYS.into_iter().flat_map(move |way| names().map(move |name| (way, name)))
}
