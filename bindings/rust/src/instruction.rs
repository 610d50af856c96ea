//! An instruction by its parts.

use crate::INSTRUCTION_WORDS;

/// Parts are named by their place in the word; one that the row does not use is 0.
/// [`crate::Config::write`] refuses what has no word.
#[derive(Clone, Copy, Debug, Default, PartialEq, Eq, Hash)]
pub struct Instruction {
    /// The row of the manual's tables, by its number in include/yam_rows.h.
    pub row: u32,
    /// Bit 26 of an ALU word as it stands: 0 updates the flags.
    pub flag: u32,
    /// What stands in bits 22-16.
    pub destination: u32,
    /// What stands in bits 6-0.
    pub source: u32,
    /// The byte number of BST, BLD and BLDS.
    pub number: u32,
    /// What stands in bits 15-0 (immediate, count, address) or 22-0 (target of JMP and JSR).
    pub value: u32,
}

impl Instruction {
    /// The words of include/yam.h, and back.
    pub const fn to_words(&self) -> [u32; INSTRUCTION_WORDS] {
        [self.row, self.flag, self.destination, self.source, self.number, self.value]
    }

    pub const fn from_words(words: &[u32; INSTRUCTION_WORDS]) -> Instruction {
        let [row, flag, destination, source, number, value] = *words;
        Instruction { row, flag, destination, source, number, value }
    }
}
