//! Reading a word and writing one: 1, 5, 6, 7.

use super::config::Config;
use super::rows::{place, rows, Field, Need, Row};
use std::sync::OnceLock;

/// The parts of an instruction, by their place in the word: the destination is what stands in 22-16, the source what stands in 6-0, the
/// value what stands in 15-0 or 22-0. A part that the row does not use is 0.
#[derive(Clone, Copy, Debug, Default, PartialEq, Eq)]
pub struct Instruction {
    pub row: u32,
    pub flag: u32,
    pub destination: u32,
    pub source: u32,
    pub byte: u32,
    pub value: u32,
}

impl Instruction {
    pub fn from_words(words: &[u32]) -> Option<Instruction> {
        match *words {
            [row, flag, destination, source, byte, value] => Some(Instruction { row, flag, destination, source, byte, value }),
            _ => None,
        }
    }

    pub fn to_words(self) -> [u32; 6] {
        [self.row, self.flag, self.destination, self.source, self.byte, self.value]
    }

    pub fn row(&self) -> &'static Row {
        &rows()[self.row as usize]
    }

    fn part(&self, field: Field) -> u32 {
        match field {
            Field::Flag => self.flag,
            Field::Destination | Field::Unit => self.destination,
            Field::Source => self.source,
            Field::Byte => self.byte,
            Field::Immediate | Field::Count | Field::Address | Field::Target | Field::Entry => self.value,
        }
    }

    fn part_mut(&mut self, field: Field) -> &mut u32 {
        match field {
            Field::Flag => &mut self.flag,
            Field::Destination | Field::Unit => &mut self.destination,
            Field::Source => &mut self.source,
            Field::Byte => &mut self.byte,
            Field::Immediate | Field::Count | Field::Address | Field::Target | Field::Entry => &mut self.value,
        }
    }
}

fn is_on(c: &Config, need: Need) -> bool {
    match need {
        Need::Nothing => true,
        Need::Mult => c.alu_mult == 1,
        Need::Level1 => c.alu_level >= 1,
        Need::Level2 => c.alu_level >= 2,
        Need::Memory => c.dm_size > 0,
        Need::Level2Memory => c.alu_level >= 2 && c.dm_size > 0,
        Need::Port => c.iop_if == 1,
        Need::PortRmw => c.iop_rmw == 1,
        Need::Banks => c.has_banks(),
        Need::Special => c.alu_spr == 1,
        Need::Unsupported => false,
    }
}

/// Whether a part is within its limit. A part too wide for its field never is.
fn within(c: &Config, field: Field, part: u32) -> bool {
    let (_, width) = place(field);
    let limit = match field {
        Field::Destination | Field::Source => part < c.reg_size,
        Field::Unit => part <= 63,
        Field::Byte => 8 * u64::from(part) + 7 < u64::from(c.reg_width),
        Field::Count if c.alu_level == 0 => part == 1,
        Field::Count => part <= 15,
        Field::Address => part < c.dm_size,
        // K2: "at or above IM_SIZE is to be refused when the word is read or written".
        Field::Target | Field::Entry => part < c.im_size,
        Field::Flag | Field::Immediate => true,
    };
    limit && u64::from(part) < 1 << width
}

/// 6 and 7, on the parts.
fn verdict(c: &Config, instruction: &Instruction) -> u32 {
    let row = instruction.row();
    if !is_on(c, row.need) {
        return 6;
    }
    let mut rest = *instruction;
    rest.row = 0;
    for &field in row.fields {
        if !within(c, field, instruction.part(field)) {
            return 7;
        }
        *rest.part_mut(field) = 0;
    }
    if rest != Instruction::default() {
        return 7;
    }
    0
}

/// The rows that have these bits 31 to 23.
fn candidates(word: u32) -> &'static [u32] {
    static TABLE: OnceLock<Vec<Vec<u32>>> = OnceLock::new();
    let table = TABLE.get_or_init(|| {
        let choose = |top: u32| {
            let agree = |row: &Row| (row.bits ^ top << 23) & row.mask >> 23 << 23 == 0;
            (0..rows().len() as u32).filter(|&r| agree(&rows()[r as usize])).collect()
        };
        (0..512).map(choose).collect()
    });
    &table[(word >> 23) as usize]
}

/// Reading, where the configuration is lawful.
pub fn read(c: &Config, word: u32) -> Result<Instruction, u32> {
    let number = candidates(word).iter().copied().find(|&r| {
        let row = &rows()[r as usize];
        word & row.mask == row.bits
    });
    let mut instruction = Instruction { row: number.ok_or(5u32)?, ..Instruction::default() };
    let row = instruction.row();
    if !is_on(c, row.need) {
        return Err(6);
    }
    let mut unused = !row.mask;
    for &field in row.fields {
        let (low, width) = place(field);
        let bits = ((1u64 << width) - 1) as u32;
        *instruction.part_mut(field) = word >> low & bits;
        unused &= !(bits << low);
    }
    if word & unused != 0 {
        return Err(7);
    }
    match verdict(c, &instruction) {
        0 => Ok(instruction),
        number => Err(number),
    }
}

/// Writing, where the configuration is lawful.
pub fn write(c: &Config, instruction: &Instruction) -> Result<u32, u32> {
    if instruction.row as usize >= rows().len() {
        return Err(5);
    }
    match verdict(c, instruction) {
        0 => Ok(assemble(instruction)),
        number => Err(number),
    }
}

/// The word of an instruction whose parts fit their fields.
pub fn assemble(instruction: &Instruction) -> u32 {
    let row = instruction.row();
    row.fields.iter().fold(row.bits, |word, &field| word | instruction.part(field) << place(field).0)
}
