//! Programs with their sheets: ones that pass the check, and ones that break a rule or two.

use super::words;
use crate::model::config::Config;
use crate::model::rows::{rows, Condition, Kind, Operand};
use crate::model::sheet::mark;
use crate::model::step::{reads_port, writes_port};
use crate::model::words::{assemble, read};
use crate::random::Random;
use std::ops::Range;

/// An image and its sheet, both IM_SIZE long.
#[derive(Clone, Debug)]
pub struct Program {
    pub image: Vec<u32>,
    pub sheet: Vec<u8>,
}

const UNUSED: u8 = 255;
const SUBROUTINE: u8 = 64;
const SPECIAL: u8 = 128;
const NO_OPERATION: u32 = 0xa000_0000;
const LOOKED_THROUGH: u32 = 100;
pub const SPR_ON: u32 = 0xf005_0000;
pub const SPR_OFF: u32 = 0xf004_0000;

/// A program that is made to pass: main first, then subroutines, each a stretch of addresses that control does not leave but by a call, a
/// return or a jump between subroutines.
pub fn passing(r: &mut Random, c: &Config) -> Program {
    let size = c.im_size;
    let mut program = Program { image: vec![0; size as usize], sheet: vec![UNUSED; size as usize] };
    let stretches = stretches(r, size);
    let top = if r.chance(70) { c.stack_limit().min(stretches.len() as u32 - 1) } else { r.below(c.stack_limit() + 1) };
    // Each subroutine one below the last, so that the stack can reach the level of main, or levels at random.
    let stairs = r.chance(50);
    for (index, stretch) in stretches.iter().enumerate() {
        let (level, bits) = match index {
            0 => (top, 0),
            _ if stairs => (top.saturating_sub(index as u32), SUBROUTINE),
            _ => (r.below(top.max(1)), SUBROUTINE),
        };
        lay_out(r, c, &mut program, stretch.clone(), level as u8, bits);
    }
    for address in 0..size {
        if program.sheet[address as usize] != UNUSED {
            fill(r, c, &mut program, &stretches, address);
        } else {
            program.image[address as usize] = words::any(r, c);
        }
    }
    for address in 1..size as usize {
        let kind = |word: u32| read(c, word).map(|i| i.row().kind).ok();
        let (before, here) = (kind(program.image[address - 1]), kind(program.image[address]));
        let used = program.sheet[address] != UNUSED && program.sheet[address - 1] != UNUSED;
        if used && before.is_some_and(writes_port) && here.is_some_and(reads_port) {
            program.image[address] = NO_OPERATION;
        }
    }
    program
}

/// The image's addresses in stretches; some addresses between them and at the end are left out.
fn stretches(r: &mut Random, size: u32) -> Vec<Range<u32>> {
    let mut list = Vec::new();
    let mut from = 0;
    while from < size {
        let length = r.from_to(1, (size / 3).clamp(1, 12)).min(size - from);
        list.push(from..from + length);
        from += length;
        if r.chance(15) {
            from += r.below(3);
        }
    }
    if list.len() > 1 && r.chance(20) {
        list.pop();
    }
    list
}

/// Marks a stretch: one level that may fall once, and runs of special-register mode. The last address stays normal.
fn lay_out(r: &mut Random, c: &Config, program: &mut Program, stretch: Range<u32>, level: u8, bits: u8) {
    let drop_at = if r.chance(20) { r.from_to(stretch.start, stretch.end - 1) } else { u32::MAX };
    let mut special_left = 0;
    for address in stretch.clone() {
        let level = if address >= drop_at && level > 0 { level - 1 } else { level };
        let at = address as usize;
        program.sheet[at] = level | bits;
        if special_left > 0 {
            program.sheet[at] |= SPECIAL;
            special_left -= 1;
        } else if c.alu_spr == 1 && address + 3 < stretch.end && r.chance(8) {
            program.image[at] = SPR_ON;
            special_left = r.from_to(1, stretch.end - address - 2);
        }
    }
}

/// The addresses in normal mode, of main or of subroutines, whose level is at most `most`.
fn targets(sheet: &[u8], among: Range<u32>, subroutine: bool, most: i32) -> Vec<u32> {
    let fits = |&address: &u32| {
        mark(sheet[address as usize]).is_some_and(|m| !m.special && m.subroutine == subroutine && m.level as i32 <= most)
    };
    among.filter(fits).collect()
}

/// Puts a word at a used address, so that the rules hold there.
fn fill(r: &mut Random, c: &Config, program: &mut Program, stretches: &[Range<u32>], address: u32) {
    let at = address as usize;
    if program.image[at] == SPR_ON {
        return;
    }
    let here = mark(program.sheet[at]).expect("the address is used");
    let stretch = stretches.iter().find(|s| s.contains(&address)).expect("a used address is in a stretch");
    let next_special = program.sheet.get(at + 1).is_some_and(|&byte| byte != UNUSED && byte & SPECIAL != 0);
    if here.special {
        let leaves = !next_special || address + 1 == stretch.end;
        program.image[at] = if leaves { SPR_OFF } else { mov_special(r, c) };
        return;
    }
    let level = here.level as i32;
    // Of a long image only a part is looked through.
    let size = program.image.len() as u32;
    let from = r.below(size.saturating_sub(LOOKED_THROUGH) + 1);
    let elsewhere = from..size.min(from + LOOKED_THROUGH);
    let mut jumps = targets(&program.sheet, stretch.clone(), here.subroutine, level);
    if here.subroutine && r.chance(15) {
        jumps.extend(targets(&program.sheet, elsewhere.clone(), true, level));
    }
    let jump = |r: &mut Random, condition: Condition| {
        let target = r.pick(&jumps);
        words::of_kind(r, c, Kind::Jump(condition), |i| i.value = target)
    };
    let last = address + 1 == stretch.end;
    let mut calls = targets(&program.sheet, elsewhere, true, level - 1);
    let next_lower = |&address: &u32| i32::from(program.sheet[address as usize] & 0x3f) == level - 1;
    if r.chance(60) && calls.iter().any(next_lower) {
        calls.retain(next_lower);
    }
    program.image[at] = match r.below(100) {
        0..=59 if last && here.subroutine => words::of_kind(r, c, Kind::Return, |_| {}),
        60..=74 if last && here.subroutine => words::of_kind(r, c, Kind::ReturnLoad, |_| {}),
        _ if last => jump(r, Condition::Always),
        0..=17 => {
            let condition = words::condition(r, c);
            jump(r, condition)
        }
        18..=19 => jump(r, Condition::Always),
        20..=49 if !calls.is_empty() => {
            let target = r.pick(&calls);
            words::of_kind(r, c, Kind::Call, |i| i.value = target)
        }
        50..=52 if here.subroutine => words::of_kind(r, c, Kind::Return, |_| {}),
        53..=54 if c.alu_spr == 1 => SPR_OFF,
        _ => straight(r, c),
    };
}

/// A word for special-register mode that stays in it.
pub fn mov_special(r: &mut Random, c: &Config) -> u32 {
    loop {
        let word = words::special(r, c);
        let allowed = |i: &crate::model::words::Instruction| crate::model::step::is_allowed_in_special_mode(i);
        if word != SPR_OFF && read(c, word).is_ok_and(|i| allowed(&i)) {
            return word;
        }
    }
}

/// Whether a word of this kind does not simply go on to the next address in normal mode.
fn leaves(kind: Kind) -> bool {
    matches!(
        kind,
        Kind::Jump(_)
            | Kind::JumpRegister(_)
            | Kind::Call
            | Kind::CallRegister
            | Kind::CallBank
            | Kind::Return
            | Kind::ReturnLoad
            | Kind::ReturnBank
            | Kind::SpecialOn
    )
}

/// Whether LDYX and MOVX can be read.
pub fn has_movx(c: &Config) -> bool {
    c.alu_level == 2 && c.dm_size > 0
}

pub fn load_indexes(r: &mut Random, c: &Config) -> u32 {
    words::of_kind(r, c, Kind::LoadIndexes, |_| {})
}

/// MOVX to data memory, or from it.
pub fn movx(r: &mut Random, c: &Config) -> u32 {
    let kind = r.pick(&[Kind::MovxTo, Kind::MovxFrom]);
    words::of_kind(r, c, kind, |_| {})
}

/// Puts MOVX, and mostly an LDYX before it (K4), in the place of words that go on to the next address: the rules hold as before.
pub fn add_indexes(r: &mut Random, c: &Config, program: &mut Program) {
    let goes_on = |at: &usize| {
        let normal = mark(program.sheet[*at]).is_some_and(|mark| !mark.special);
        normal && read(c, program.image[*at]).is_ok_and(|i| !leaves(i.row().kind))
    };
    let places: Vec<usize> = (0..program.image.len()).filter(goes_on).collect();
    if !has_movx(c) || places.is_empty() {
        return;
    }
    for _ in 0..r.below(4) {
        program.image[r.pick(&places)] = movx(r, c);
    }
    if r.chance(70) {
        let at = if r.chance(70) { places[0] } else { r.pick(&places) };
        program.image[at] = load_indexes(r, c);
    }
}

/// A word that can be read and goes on to the next address in normal mode.
pub fn straight(r: &mut Random, c: &Config) -> u32 {
    loop {
        let word = words::readable(r, c);
        let Ok(instruction) = read(c, word) else { continue };
        let kind = rows()[instruction.row as usize].kind;
        // Data addresses from registers stop most programs early: fewer of them.
        let stops = matches!(kind, Kind::MovxTo | Kind::MovxFrom | Kind::MovToRegister | Kind::MovFromRegister);
        if !leaves(kind) && (!stops || r.chance(15)) {
            return word;
        }
    }
}

/// Changes a word or a byte of the sheet, or two, or a length.
pub fn damage(r: &mut Random, c: &Config, program: &mut Program) {
    for _ in 0..r.from_to(1, 2) {
        if program.sheet.is_empty() || program.image.is_empty() {
            return;
        }
        let place = |r: &mut Random, length: usize| r.below(length as u32) as usize;
        match r.below(40) {
            0 => program.sheet.push(0),
            1 => {
                program.sheet.pop();
            }
            2 => program.image.push(0),
            3 => {
                program.image.pop();
            }
            4..=11 => {
                let at = place(r, program.image.len());
                program.image[at] = words::any(r, c);
            }
            12..=19 => {
                let (at, kind) = (place(r, program.image.len()), r.pick(&[Kind::Call, Kind::Jump(Condition::Z), Kind::Return]));
                program.image[at] = words::of_kind(r, c, kind, |_| {});
            }
            20..=23 => {
                let at = place(r, program.image.len());
                let from = place(r, program.image.len());
                program.image[at] = program.image[from];
            }
            24..=26 if program.image.len() > 1 => ports(r, c, &mut program.image),
            31 | 32 => {
                let (at, edge) = (place(r, program.image.len()), words::edge(r, c));
                program.image[at] = assemble(&edge);
            }
            24..=30 => {
                let at = place(r, program.sheet.len());
                program.sheet[at] ^= 1 << r.below(8);
            }
            _ => {
                let at = place(r, program.sheet.len());
                program.sheet[at] = r.pick(&[0, 1, 2, 3, 62, 63, 64, 65, 66, 128, 129, 191, 192, 193, 254, 255]);
            }
        }
    }
}

/// A port write and a port read next to it, half of the time one that cannot be read.
fn ports(r: &mut Random, c: &Config, image: &mut [u32]) {
    let at = r.below(image.len() as u32 - 1) as usize;
    let write = r.pick(&[Kind::PortWrite(Operand::Register), Kind::PortWrite(Operand::Signed), Kind::PortReadModifyWrite]);
    let read = r.pick(&[Kind::PortRead, Kind::PortReadModifyWrite]);
    image[at] = words::of_kind(r, c, write, |_| {});
    image[at + 1] = words::of_kind(r, c, read, |_| {});
    if r.chance(50) {
        image[at + 1] ^= 1 << r.from_to(7, 14);
    }
}

/// A few words of control and a sheet of the bytes that matter, at random.
pub fn tiny(r: &mut Random, c: &Config) -> Program {
    let kinds = [
        Kind::Call,
        Kind::Return,
        Kind::ReturnLoad,
        Kind::Jump(Condition::Always),
        Kind::Jump(Condition::Nz),
        Kind::SpecialOn,
        Kind::SpecialOff,
        Kind::PortRead,
        Kind::PortReadModifyWrite,
        Kind::PortWrite(Operand::Register),
        Kind::Mov(Operand::Register),
    ];
    let mut program = Program { image: Vec::new(), sheet: Vec::new() };
    for _ in 0..c.im_size {
        let kind = r.pick(&kinds);
        program.image.push(if r.chance(10) { words::any(r, c) } else { words::of_kind(r, c, kind, |_| {}) });
        program.sheet.push(r.pick(&[0, 0, 0, 1, 1, 2, 64, 64, 65, 128, 128, 129, 192, 255, 255]));
    }
    program.sheet[0] = r.pick(&[0, 1, 2, program.sheet[0]]);
    program
}
