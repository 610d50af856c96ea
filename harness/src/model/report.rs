//! The report of a run, line by line (docs/commands.md, 'yam run').

use super::config::Config;
use super::machine::{Lists, Machine};
use super::step::Ran;

/// How many cells of the register memory stand on a line.
const CELLS: usize = 8;

const PC_DIGITS: usize = 6;
const WP_DIGITS: usize = 3;
const INDEX_DIGITS: usize = 2;
const MARK_DIGITS: usize = 1;

/// "`hex N` means N hex digits, small letters, the low ones where there are more".
pub fn hex(value: u32, digits: usize) -> String {
    let all = format!("{value:0digits$x}");
    all[all.len() - digits..].to_string()
}

/// "hex W/4"
pub fn cell(c: &Config, value: u32) -> String {
    hex(value, (c.reg_width / 4) as usize)
}

/// An address of the instruction memory, as PC is printed.
pub fn address(value: u32) -> String {
    hex(value, PC_DIGITS)
}

/// "`%` and its place in the register memory: hex 2 where RM_SIZE is REG_SIZE, hex 3 where there are banks".
pub fn register_name(c: &Config, place: usize) -> String {
    let digits = if c.rm_size == c.reg_size { 2 } else { 3 };
    format!("%{}", hex(place as u32, digits))
}

/// The record's values by their names, in the report's order, from `PC` to `depth`.
pub fn record(c: &Config, m: &Machine) -> Vec<(&'static str, String)> {
    let mark = |value: u32| hex(value, MARK_DIGITS);
    let index = |value: u32| hex(value, INDEX_DIGITS);
    vec![
        ("PC", address(m.pc)),
        ("WP", hex(m.wp, WP_DIGITS)),
        ("RX", index(m.rx)),
        ("RY", index(m.ry)),
        ("N", mark(m.n)),
        ("Z", mark(m.z)),
        ("SPR7", cell(c, m.spr7)),
        ("IMask", mark(m.imask)),
        ("saved", mark(m.saved_mask)),
        ("mode", mark(m.mode)),
        ("posted", mark(m.posted)),
        ("port", cell(c, m.posted_address)),
        ("loaded", mark(m.loaded)),
        ("taken", m.input_position.to_string()),
        ("logged", m.log_position.to_string()),
        ("depth", m.depth.to_string()),
    ]
}

/// "It prints the report": "Each line is the name, a space and the value."
pub fn report(c: &Config, ran: &Ran, m: &Machine, lists: &Lists) -> String {
    let mut lines = vec![format!("ended {}", ran.number), format!("steps {}", ran.steps), format!("cycles {}", ran.cycles)];
    lines.extend(record(c, m).iter().map(|(name, value)| format!("{name} {value}")));
    lines.extend(m.stack[..m.depth as usize].iter().map(|&saved| format!("stack {}", address(saved))));
    for (number, cells) in lists.registers.chunks(CELLS).enumerate() {
        let values: String = cells.iter().map(|&value| format!(" {}", cell(c, value))).collect();
        lines.push(register_name(c, CELLS * number) + &values);
    }
    let filled = lists.log_addresses.iter().zip(&*lists.log_values).take(m.log_position as usize);
    lines.extend(filled.map(|(&address, &value)| format!("log {} {}", cell(c, address), cell(c, value))));
    lines.iter().map(|line| format!("{line}\n")).collect()
}
