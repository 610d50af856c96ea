//! The configuration of a core, and what needs nothing else: reading, writing and printing a word,
//! assembling a source.

use crate::calls;
use crate::instruction::Instruction;
use crate::refused::{passed, Place, Refused};
use crate::{CONFIG_WORDS, INSTRUCTION_WORDS, MOST_WORDS};

/// The longest text of an instruction, in bytes.
pub(crate) const TEXT_BYTES: usize = 20;

/// The manual's generics, in small letters. Any numbers may be given: a call refuses a
/// configuration that breaks document 01's rules.
#[derive(Clone, Copy, Debug, PartialEq, Eq, Hash)]
pub struct Config {
    pub im_size: u32,
    pub reg_width: u32,
    pub reg_size: u32,
    pub rm_size: u32,
    pub pc_stack: u32,
    pub dm_size: u32,
    pub dm_pipe: u32,
    pub alu_level: u32,
    pub alu_mult: u32,
    pub alu_spr: u32,
    pub iop_if: u32,
    pub iop_rmw: u32,
    pub yam_clk: u32,
    pub yam_sreg3: u32,
    pub alu_3op: u32,
    pub irq_if: u32,
    pub copm_size: u32,
    pub im_width: u32,
    pub yam_dbg: u32,
}

impl Default for Config {
    /// The manual's defaults (2.2).
    fn default() -> Config {
        Config {
            im_size: 2048,
            reg_width: 32,
            reg_size: 32,
            rm_size: 32,
            pc_stack: 16,
            dm_size: 32,
            dm_pipe: 0,
            alu_level: 0,
            alu_mult: 0,
            alu_spr: 0,
            iop_if: 0,
            iop_rmw: 0,
            yam_clk: 0,
            yam_sreg3: 0,
            alu_3op: 0,
            irq_if: 0,
            copm_size: 0,
            im_width: 32,
            yam_dbg: 0,
        }
    }
}

impl Config {
    /// The words of include/yam.h, and back.
    pub const fn to_words(&self) -> [u32; CONFIG_WORDS] {
        [
            self.im_size,
            self.reg_width,
            self.reg_size,
            self.rm_size,
            self.pc_stack,
            self.dm_size,
            self.dm_pipe,
            self.alu_level,
            self.alu_mult,
            self.alu_spr,
            self.iop_if,
            self.iop_rmw,
            self.yam_clk,
            self.yam_sreg3,
            self.alu_3op,
            self.irq_if,
            self.copm_size,
            self.im_width,
            self.yam_dbg,
        ]
    }

    pub fn from_words(words: &[u32; CONFIG_WORDS]) -> Config {
        let mut words = words.iter();
        let mut next = || words.next().copied().unwrap_or_default();
        // In the order in which they are written here.
        Config {
            im_size: next(),
            reg_width: next(),
            reg_size: next(),
            rm_size: next(),
            pc_stack: next(),
            dm_size: next(),
            dm_pipe: next(),
            alu_level: next(),
            alu_mult: next(),
            alu_spr: next(),
            iop_if: next(),
            iop_rmw: next(),
            yam_clk: next(),
            yam_sreg3: next(),
            alu_3op: next(),
            irq_if: next(),
            copm_size: next(),
            im_width: next(),
            yam_dbg: next(),
        }
    }

    /// The instruction of a word.
    pub fn read(&self, word: u32) -> Result<Instruction, Refused> {
        let mut words = [0; INSTRUCTION_WORDS];
        passed(calls::read(&self.to_words(), word, &mut words), None)?;
        Ok(Instruction::from_words(&words))
    }

    /// The word of an instruction.
    pub fn write(&self, instruction: &Instruction) -> Result<u32, Refused> {
        let mut answers = [0; 2];
        passed(calls::write(&self.to_words(), &instruction.to_words(), &mut answers), None)?;
        Ok(answers[0] as u32)
    }

    /// The text of a word, as a listing has it.
    pub fn text(&self, word: u32) -> Result<String, Refused> {
        let (mut page, mut answers) = ([0; TEXT_BYTES], [0; 2]);
        passed(calls::text(&self.to_words(), word, &mut page, 0, &mut answers), None)?;
        Ok(printed(&page, answers[0]))
    }

    /// The words of a source text (document 02, K1), at most IM_SIZE. A refusal of a line says
    /// which.
    pub fn assemble(&self, source: impl AsRef<[u8]>) -> Result<Vec<u32>, Refused> {
        let mut words = vec![0; self.words_lent()];
        let mut answers = [0; 2];
        let number = calls::assemble(&self.to_words(), source.as_ref(), &mut words, &mut answers);
        let [count, line] = answers;
        passed(number, (line != 0).then_some(Place::Line(line)))?;
        words.truncate(usize::try_from(count).unwrap_or(usize::MAX));
        Ok(words)
    }

    /// Whether the configuration is lawful and the image has IM_SIZE words, else 1 or 2: what a
    /// listing that starts behind the last word answers.
    pub(crate) fn takes(&self, image: &[u32]) -> Result<(), Refused> {
        passed(
            calls::list(&self.to_words(), image, image.len() as u64, &mut [], 0, &mut [0; 2]),
            None,
        )
    }

    /// IM_SIZE, but no more than a lawful configuration has: 1 refuses the others.
    pub(crate) fn words_lent(&self) -> usize {
        usize::try_from(self.im_size).unwrap_or(usize::MAX).min(MOST_WORDS)
    }
}

/// What stands on a page before this place. A page holds no byte beyond ASCII.
pub(crate) fn printed(page: &[u8], place: u64) -> String {
    let written = usize::try_from(place).ok().and_then(|place| page.get(..place)).unwrap_or(page);
    String::from_utf8_lossy(written).into_owned()
}
