//! "Text": an instruction as it is printed.

use super::rows::Field;
use super::words::Instruction;

/// The longest text that is not refused (23).
pub const TEXT_LIMIT: usize = 20;

/// The text of an instruction that was read: its row's pattern, filled in, and ",S" where an ALU word updates the flags.
pub fn text(instruction: &Instruction) -> String {
    let row = instruction.row();
    let mut out = String::new();
    for letter in row.text.chars() {
        match letter {
            'd' => out += &format!("%{:02x}", instruction.destination),
            's' => out += &format!("%{:02x}", instruction.source),
            'v' => out += &format!("{:04x}", instruction.value),
            't' => out += &format!("{:06x}", instruction.value),
            'o' => out += &format!("{:03x}", 16 * instruction.destination),
            'n' => out += &format!("{}", instruction.byte),
            other => out.push(other),
        }
    }
    if row.uses(Field::Flag) && instruction.flag == 0 {
        out += ",S";
    }
    out
}
