//! Instruction words and parts.

use crate::model::config::Config;
use crate::model::rows::{place, rows, Condition, Field, Kind, Need, Operand};
use crate::model::words::{assemble, Instruction};
use crate::random::Random;

/// A part for a field, within its limit where the configuration has one.
fn part(r: &mut Random, c: &Config, field: Field) -> u32 {
    match field {
        Field::Flag => u32::from(r.chance(25)),
        Field::Destination | Field::Source => r.below(c.reg_size.clamp(1, 128)),
        Field::Unit => r.below((c.rm_size / 16 + 1).clamp(1, 64)),
        Field::Byte => r.below((c.reg_width / 8).clamp(1, 4)),
        Field::Count if c.alu_level == 0 => 1,
        Field::Count => r.below(16),
        Field::Address => r.below(c.dm_size.clamp(1, 65536)),
        Field::Target | Field::Entry if r.chance(10) => c.im_size.clamp(1, 0x8000) - 1,
        Field::Target | Field::Entry => r.below(c.im_size.clamp(1, 0x8000)),
        Field::Immediate if r.chance(60) => r.odd() & 0xffff,
        Field::Immediate => r.below(0x1_0000),
    }
}

fn set(instruction: &mut Instruction, field: Field, value: u32) {
    match field {
        Field::Flag => instruction.flag = value,
        Field::Destination | Field::Unit => instruction.destination = value,
        Field::Source => instruction.source = value,
        Field::Byte => instruction.byte = value,
        Field::Immediate | Field::Count | Field::Address | Field::Target | Field::Entry => instruction.value = value,
    }
}

/// Parts of a row, each within its limit.
pub fn parts_of(r: &mut Random, c: &Config, row: usize) -> Instruction {
    let mut instruction = Instruction { row: row as u32, ..Instruction::default() };
    for &field in rows()[row].fields {
        let value = part(r, c, field);
        set(&mut instruction, field, value);
    }
    instruction
}

/// The number of a row: supported ones mostly, and those that a program needs more of more often.
pub fn row(r: &mut Random) -> usize {
    let pick = r.below(rows().len() as u32) as usize;
    match rows()[pick].need {
        Need::Unsupported if r.chance(85) => row(r),
        _ => pick,
    }
}

/// The rows that stops 8 to 15 ask about.
pub fn stopping_row(r: &mut Random) -> usize {
    loop {
        let pick = row(r);
        let rare = matches!(rows()[pick].kind, Kind::Base(..) | Kind::Jump(_) | Kind::JumpRegister(_));
        if !rare || r.chance(8) {
            return pick;
        }
    }
}

/// A word that can mostly be read.
pub fn readable(r: &mut Random, c: &Config) -> u32 {
    let row = if r.chance(50) { row(r) } else { stopping_row(r) };
    assemble(&parts_of(r, c, row))
}

/// The first number that is too great for a field; None where only its width bounds it.
fn limit(c: &Config, field: Field) -> Option<u32> {
    match field {
        Field::Destination | Field::Source => Some(c.reg_size),
        Field::Unit => Some(64),
        Field::Byte => Some(c.reg_width / 8),
        Field::Count => Some(if c.alu_level == 0 { 2 } else { 16 }),
        Field::Address => Some(c.dm_size),
        Field::Target | Field::Entry => Some(c.im_size),
        Field::Flag | Field::Immediate => None,
    }
}

/// A word with one field at its limit or a little past it, where the field has room for that.
fn past_limit(r: &mut Random, c: &Config) -> u32 {
    let row = row(r);
    let mut instruction = parts_of(r, c, row);
    if let Some(&field) = rows()[row].fields.get(r.below(4) as usize) {
        let past = limit(c, field).map(|limit| limit + if r.chance(70) { 0 } else { r.below(limit.max(1)) });
        if let Some(past) = past.filter(|&past| past < 1 << place(field).1) {
            set(&mut instruction, field, past);
        }
    }
    assemble(&instruction)
}

/// A JMP, JSR or JSRWP whose direct target is at the image's edge.
pub fn edge(r: &mut Random, c: &Config) -> Instruction {
    let row = loop {
        let row = row(r);
        let direct = |field: &Field| matches!(field, Field::Target | Field::Entry);
        if rows()[row].fields.iter().any(direct) && rows()[row].need != Need::Unsupported {
            break row;
        }
    };
    let size = c.im_size.clamp(1, 0x8000);
    Instruction { value: r.pick(&[size - 1, size, size, size + 1]), ..parts_of(r, c, row) }
}

/// A word that may be anything.
pub fn any(r: &mut Random, c: &Config) -> u32 {
    if r.chance(8) {
        return assemble(&edge(r, c));
    }
    let word = readable(r, c);
    match r.below(20) {
        0..=9 => word,
        10..=12 => past_limit(r, c),
        13..=15 => word ^ 1 << r.below(32),
        16 => word ^ 1 << r.below(32) ^ 1 << r.below(32),
        17 => word & 0xffff_0000 | r.below(0x1_0000),
        18 => r.below(512) << 23 | r.below(1 << 7) << 16 | r.below(1 << 7),
        _ => r.word(),
    }
}

/// A word for special-register mode: mostly one that stop 8 allows.
pub fn special(r: &mut Random, c: &Config) -> u32 {
    if r.chance(25) {
        return 0xf004_0000;
    }
    let mov = rows().iter().position(|row| row.kind == Kind::Mov(Operand::Register)).expect("MOV is there");
    let mut instruction = parts_of(r, c, mov);
    if r.chance(90) {
        instruction.source = r.pick(&[0, 1, 2, 3, 7]);
    }
    assemble(&instruction)
}

/// A list for writing: parts of a row, most often damaged in a part or two.
pub fn parts(r: &mut Random, c: &Config) -> Vec<u32> {
    let row = row(r);
    let instruction = if r.chance(5) { edge(r, c) } else { parts_of(r, c, row) };
    let mut list = instruction.to_words().to_vec();
    if r.chance(60) {
        return list;
    }
    for _ in 0..r.from_to(1, 2) {
        let place = r.below(6) as usize;
        list[place] = match r.below(4) {
            0 => list[place].wrapping_add(1),
            1 => list[place] ^ 1 << r.below(32),
            2 if place == 0 => r.from_to(120, 140),
            _ => r.odd(),
        };
    }
    if r.chance(3) {
        let length = r.pick(&[0, 1, 5, 7]);
        list.resize(length, 0);
    }
    list
}

/// The word of a row of this kind with parts within their limits; `edit` may change them.
pub fn of_kind(r: &mut Random, c: &Config, kind: Kind, edit: impl Fn(&mut Instruction)) -> u32 {
    let row = rows().iter().position(|row| row.kind == kind).expect("each kind has a row");
    let mut instruction = parts_of(r, c, row);
    edit(&mut instruction);
    debug_assert!(rows()[row].fields.iter().all(|&field| place(field).1 <= 23));
    assemble(&instruction)
}

/// A condition other than always.
pub fn condition(r: &mut Random, c: &Config) -> Condition {
    use Condition::*;
    if c.iop_if == 1 && r.chance(10) {
        return Bio;
    }
    r.pick(&[Z, Nz, Gt, Lt, Ge, Le])
}
