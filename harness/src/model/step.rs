//! "One step": stops 4 to 9, 27 (K4) and 10 to 15, in this order, then what the instruction does.

use super::alu::{self, Outcome};
use super::config::Config;
use super::machine::{Env, Lists, Machine};
use super::rows::{Base, Condition, Kind, Operand};
use super::words::{read, Instruction};

const TARGETS: u32 = 1 << 23;
/// The most steps that a run may be asked for (16).
pub const BUDGET_LIMIT: u64 = 1_000_000;

/// The numbers of the special registers that MOV may take in special-register mode.
pub fn is_special_source(source: u32) -> bool {
    matches!(source, 0 | 1 | 2 | 3 | 7)
}

/// What stop 8 allows in special-register mode.
pub fn is_allowed_in_special_mode(instruction: &Instruction) -> bool {
    match instruction.row().kind {
        Kind::Mov(Operand::Register) => is_special_source(instruction.source),
        Kind::SpecialOff => true,
        _ => false,
    }
}

pub fn reads_port(kind: Kind) -> bool {
    matches!(kind, Kind::PortRead | Kind::PortReadModifyWrite)
}

pub fn writes_port(kind: Kind) -> bool {
    matches!(kind, Kind::PortWrite(_) | Kind::PortReadModifyWrite)
}

/// Register `number` of the active bank.
fn register(m: &Machine, lists: &Lists, number: u32) -> u32 {
    lists.registers[(m.wp + number) as usize]
}

/// "Data addresses are register values mod 65,536."
fn data_address(i: &Instruction, m: &Machine, lists: &Lists) -> Option<u32> {
    let number = match i.row().kind {
        Kind::MovxTo | Kind::MovToRegister => i.destination,
        Kind::MovxFrom | Kind::MovFromRegister => i.source,
        _ => return None,
    };
    Some(register(m, lists, number) % 0x1_0000)
}

/// The number that stops an instruction which was read, 8, 9, 27 and 10 to 15, or 0.
fn stop(env: &Env, i: &Instruction, m: &Machine, lists: &Lists) -> u32 {
    let c = env.config;
    let kind = i.row().kind;
    if m.mode == 1 && !is_allowed_in_special_mode(i) {
        return 8;
    }
    if reads_port(kind) && m.posted == 1 && m.posted_address != register(m, lists, i.source) {
        return 9;
    }
    // "MOVX before that is a stop": "27, after 9 and before 10".
    if matches!(kind, Kind::MovxTo | Kind::MovxFrom) && m.loaded == 0 {
        return 27;
    }
    if matches!(kind, Kind::Call | Kind::CallRegister) && m.depth == c.stack_limit() {
        return 10;
    }
    if matches!(kind, Kind::Return | Kind::ReturnLoad) && m.depth == 0 {
        return 11;
    }
    let new_unit = match kind {
        Kind::CallBank => i.destination,
        Kind::ReturnBank => register(m, lists, 0) >> 26,
        _ => 0,
    };
    if 16 * new_unit + c.reg_size > c.rm_size {
        return 12;
    }
    if data_address(i, m, lists).is_some_and(|address| address >= c.dm_size) {
        return 13;
    }
    if reads_port(kind) && m.input_position >= env.inputs.len() as u64 {
        return 14;
    }
    if writes_port(kind) && m.log_position >= lists.log_addresses.len() as u64 {
        return 15;
    }
    0
}

fn is_taken(condition: Condition, m: &Machine) -> bool {
    let (z, n) = (m.z == 1, m.n == 1);
    match condition {
        Condition::Always => true,
        Condition::Z => z,
        Condition::Nz => !z,
        Condition::Gt => !z && !n,
        Condition::Lt => n,
        Condition::Ge => !n,
        Condition::Le => z || n,
        Condition::Bio => false,
    }
}

/// "SPR0 to SPR3 as section 4.7, log2 of size 0 is 0; all cut to W bits."
fn special_register(c: &Config, m: &Machine, number: u32) -> u32 {
    let log2 = |size: u32| if size == 0 { 0 } else { size.ilog2() };
    let value = match number {
        0 => (c.alu_3op << 13) + (c.alu_mult << 12) + (c.alu_level << 10) + c.yam_clk,
        1 => (c.reg_width << 8) + (log2(c.rm_size) << 4) + log2(c.reg_size),
        2 => (log2(c.copm_size) << 4) + log2(c.dm_size),
        3 => c.yam_sreg3,
        _ => m.spr7,
    };
    c.cut(u64::from(value))
}

/// One instruction that no stop refuses. Answers its cycles.
fn carry_out(env: &Env, i: &Instruction, m: &mut Machine, lists: &mut Lists) -> u64 {
    let c = env.config;
    let kind = i.row().kind;
    let d = register(m, lists, if i.destination < c.reg_size { i.destination } else { 0 });
    let s = register(m, lists, i.source);
    let address = data_address(i, m, lists).unwrap_or(i.value) as usize;
    let second = |operand: Operand| match operand {
        Operand::Register => s,
        Operand::Count => i.value,
        _ => alu::immediate(c, operand, i.value),
    };
    let next = m.pc + 1;
    let mut cycles = 2;
    m.pc = next;
    m.posted = 0;
    m.posted_address = 0;

    // What ends up in a register of the active bank, and the flags.
    let mut written: Option<(u32, u32)> = None;
    let mut flags = Outcome { value: 0, z: None, n: None };
    match kind {
        Kind::Base(Base::Mul, operand) => {
            let (low, high) = alu::multiply(c, d, second(operand));
            m.spr7 = high;
            written = Some((i.destination, low));
        }
        Kind::Base(op, operand) => {
            flags = alu::base(c, op, d, second(operand), m.n == 1);
            if !matches!(op, Base::Tst | Base::Cmp | Base::Cmps) {
                written = Some((i.destination, flags.value));
            }
        }
        Kind::Shift(op, operand) => {
            flags = alu::shift(c, op, d, second(operand) % 16);
            written = Some((i.destination, flags.value));
        }
        Kind::Unary(op) => {
            flags = alu::unary(c, op, s);
            written = Some((i.destination, flags.value));
        }
        Kind::ByteStore => {
            flags = alu::store_byte(d, s, i.byte);
            written = Some((i.destination, flags.value));
        }
        Kind::ByteLoad => {
            flags = alu::load_byte(s, i.byte);
            written = Some((i.destination, flags.value));
        }
        Kind::ByteLoadSigned => {
            flags = alu::load_byte_signed(c, s, i.byte);
            written = Some((i.destination, flags.value));
        }
        Kind::LoadIndexes => {
            m.ry = i.destination;
            m.rx = i.source;
            m.loaded = 1;
            flags = Outcome { value: 0, z: Some(m.rx == m.ry), n: Some(false) };
        }
        Kind::MovxTo | Kind::MovxFrom => {
            if kind == Kind::MovxTo {
                lists.memory[address] = register(m, lists, m.rx);
            } else {
                written = Some((m.rx, lists.memory[address]));
            }
            flags = Outcome { value: 0, z: Some(m.rx == m.ry), n: Some(false) };
            m.rx = if m.rx == c.reg_size - 1 { 0 } else { m.rx + 1 };
        }
        Kind::Mov(Operand::Register) if m.mode == 1 => {
            written = Some((i.destination, special_register(c, m, i.source)));
        }
        Kind::Mov(operand) => written = Some((i.destination, second(operand))),
        Kind::MovFromRegister | Kind::MovFromAddress => {
            written = Some((i.destination, lists.memory[address]));
        }
        Kind::MovToRegister => lists.memory[address] = s,
        Kind::MovToAddress => lists.memory[address] = d,
        Kind::PortRead | Kind::PortReadModifyWrite => {
            let reading = c.cut(u64::from(env.inputs[m.input_position as usize]));
            m.input_position += 1;
            written = Some((i.destination, reading));
            if kind == Kind::PortReadModifyWrite {
                post(m, lists, s, reading | 1 << (c.reg_width - 1));
            }
        }
        Kind::PortWrite(operand) => post(m, lists, d, second(operand)),
        Kind::Jump(condition) => {
            if is_taken(condition, m) {
                m.pc = i.value;
            }
        }
        Kind::JumpRegister(condition) => {
            if is_taken(condition, m) {
                m.pc = d % TARGETS;
            }
        }
        Kind::Call | Kind::CallRegister => {
            m.stack[m.depth as usize] = next;
            m.depth += 1;
            m.pc = if kind == Kind::Call { i.value } else { d % TARGETS };
        }
        Kind::Return | Kind::ReturnLoad => {
            m.depth -= 1;
            m.pc = std::mem::take(&mut m.stack[m.depth as usize]);
            if kind == Kind::ReturnLoad {
                written = Some((i.destination, alu::immediate(c, Operand::Signed, i.value)));
            }
        }
        Kind::CallBank => {
            let context = ((m.wp / 16) << 26) + (m.n << 21) + (m.z << 20) + (m.imask << 16) + next;
            m.wp = 16 * i.destination;
            written = Some((0, context));
            m.pc = i.value;
        }
        Kind::ReturnBank => {
            let context = register(m, lists, 0);
            m.wp = 16 * (context >> 26);
            m.n = context >> 21 & 1;
            m.z = context >> 20 & 1;
            m.imask = context >> 16 & 15;
            m.pc = context & 0xffff;
        }
        Kind::SpecialOff => {
            m.mode = 0;
            m.imask = m.saved_mask;
        }
        Kind::SpecialOn => {
            m.mode = 1;
            m.saved_mask = m.imask;
            m.imask = 15;
        }
        Kind::Unsupported => unreachable!("an unsupported row cannot be read"),
    }
    if let Some((number, value)) = written {
        lists.registers[(m.wp + number) as usize] = value;
    }
    if i.flag == 0 {
        m.z = flags.z.map_or(m.z, u32::from);
        m.n = flags.n.map_or(m.n, u32::from);
    }
    let reads_memory = matches!(kind, Kind::MovxFrom | Kind::MovFromRegister | Kind::MovFromAddress);
    if reads_port(kind) || (reads_memory && c.dm_pipe != 0) {
        cycles += 1;
    }
    cycles
}

/// Logs a port write and posts it.
fn post(m: &mut Machine, lists: &mut Lists, address: u32, value: u32) {
    lists.log_addresses[m.log_position as usize] = address;
    lists.log_values[m.log_position as usize] = value;
    m.log_position += 1;
    m.posted = 1;
    m.posted_address = address;
}

/// A step of a state that 1, 2 and 3 let pass: its cycles, or the number that stops it.
pub fn step(env: &Env, m: &mut Machine, lists: &mut Lists) -> Result<u64, u32> {
    let word = *env.image.get(m.pc as usize).ok_or(4u32)?;
    let instruction = read(env.config, word)?;
    match stop(env, &instruction, m, lists) {
        0 => Ok(carry_out(env, &instruction, m, lists)),
        number => Err(number),
    }
}

/// What a run answers.
#[derive(Clone, Copy, Debug, Default, PartialEq, Eq)]
pub struct Ran {
    pub number: u32,
    pub steps: u64,
    pub cycles: u64,
}

/// A run of a state that 1, 2, 3 and 16 let pass.
pub fn run(env: &Env, m: &mut Machine, lists: &mut Lists, budget: u64) -> Ran {
    let mut ran = Ran::default();
    while ran.steps < budget {
        match step(env, m, lists) {
            Ok(cycles) => {
                ran.steps += 1;
                ran.cycles += cycles;
            }
            Err(number) => {
                ran.number = number;
                break;
            }
        }
    }
    ran
}
