//! "The sheet": its eight rules and the check.

use super::config::Config;
use super::rows::{Condition, Kind};
use super::step::{is_allowed_in_special_mode, reads_port, writes_port};
use super::words::{read, Instruction};

/// "255 unused; else level in bits 5-0, bit 6 subroutine, bit 7 special-register mode."
#[derive(Clone, Copy, Debug, PartialEq, Eq)]
pub struct Mark {
    pub level: u32,
    pub subroutine: bool,
    pub special: bool,
}

pub fn mark(byte: u8) -> Option<Mark> {
    if byte == 255 {
        return None;
    }
    Some(Mark { level: u32::from(byte & 0x3f), subroutine: byte & 0x40 != 0, special: byte & 0x80 != 0 })
}

/// What the check answers beside its number: level at 0, or address and rule.
#[derive(Clone, Copy, Debug, PartialEq, Eq)]
pub enum Checked {
    Passed { level: u32 },
    Broken { address: usize, rule: u32 },
}

/// The successors of an address: (address, whether it is a JSR's target).
fn successors(instruction: &Instruction, at: usize) -> Vec<(usize, bool)> {
    let target = instruction.value as usize;
    match instruction.row().kind {
        Kind::Return | Kind::ReturnLoad => vec![],
        Kind::Jump(Condition::Always) => vec![(target, false)],
        Kind::Jump(_) => vec![(target, false), (at + 1, false)],
        Kind::Call => vec![(target, true), (at + 1, false)],
        _ => vec![(at + 1, false)],
    }
}

/// The lowest rule that an address breaks, by itself or its successors.
pub fn broken_rule(c: &Config, image: &[u32], sheet: &[u8], at: usize) -> Option<u32> {
    let here = mark(sheet[at]);
    if at == 0 && here.is_none_or(|m| m.subroutine || m.special) {
        return Some(1);
    }
    let here = here?;
    if here.level > c.stack_limit() {
        return Some(2);
    }
    let Ok(instruction) = read(c, image[at]) else {
        return Some(3);
    };
    let kind = instruction.row().kind;
    if matches!(kind, Kind::JumpRegister(_) | Kind::CallRegister | Kind::CallBank | Kind::ReturnBank) {
        return Some(3);
    }
    let mut after = Vec::new();
    for (address, called) in successors(&instruction, at) {
        match sheet.get(address).and_then(|&byte| mark(byte)) {
            None => return Some(4),
            Some(m) => after.push((m, called)),
        }
    }
    let returns = matches!(kind, Kind::Return | Kind::ReturnLoad);
    let keeps = |&(m, called): &(Mark, bool)| if called { m.subroutine } else { m.subroutine == here.subroutine };
    if !after.iter().all(keeps) || (returns && !here.subroutine) {
        return Some(5);
    }
    let falls = |&(m, called): &(Mark, bool)| if called { m.level < here.level } else { m.level <= here.level };
    if !after.iter().all(falls) {
        return Some(6);
    }
    let mode_after = match kind {
        Kind::SpecialOn => true,
        Kind::SpecialOff => false,
        _ => here.special,
    };
    let stands = if here.special { is_allowed_in_special_mode(&instruction) } else { true };
    if !stands || after.iter().any(|(m, _)| m.special != mode_after) {
        return Some(7);
    }
    let next_reads = || image.get(at + 1).is_some_and(|&word| read(c, word).is_ok_and(|i| reads_port(i.row().kind)));
    if writes_port(kind) && next_reads() {
        return Some(8);
    }
    None
}

/// The check, where the configuration is lawful and both lists are IM_SIZE long.
pub fn check(c: &Config, image: &[u32], sheet: &[u8]) -> Checked {
    for address in 0..sheet.len() {
        if let Some(rule) = broken_rule(c, image, sheet, address) {
            return Checked::Broken { address, rule };
        }
    }
    Checked::Passed { level: u32::from(sheet[0] & 0x3f) }
}
