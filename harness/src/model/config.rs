//! "Configuration": the generics and their rules (1).

/// The length of a configuration as a list: block 0's fourteen fields, then ALU_3OP, IRQ_IF, COPM_SIZE, IM_WIDTH, YAM_DBG.
pub const CONFIG_WORDS: usize = 19;
/// How many of them stand in block 0.
pub const FILE_FIELDS: usize = 14;
/// What the loader answers for those that do not.
pub const FIXED_FIELDS: [u32; 5] = [0, 0, 0, 32, 0];

#[derive(Clone, Copy, Debug, PartialEq, Eq)]
pub struct Config {
    pub im_size: u32,
    pub reg_width: u32,
    pub reg_size: u32,
    pub rm_size: u32,
    pub pc_stack: u32,
    pub dm_size: u32,
    pub dm_pipe: u32,
    pub alu_level: u32,
    pub alu_mult: u32,
    pub alu_spr: u32,
    pub iop_if: u32,
    pub iop_rmw: u32,
    pub yam_clk: u32,
    pub yam_sreg3: u32,
    pub alu_3op: u32,
    pub irq_if: u32,
    pub copm_size: u32,
    pub im_width: u32,
    pub yam_dbg: u32,
}

impl Config {
    /// None where the list has another length.
    pub fn from_words(words: &[u32]) -> Option<Config> {
        let w: &[u32; CONFIG_WORDS] = words.try_into().ok()?;
        Some(Config {
            im_size: w[0],
            reg_width: w[1],
            reg_size: w[2],
            rm_size: w[3],
            pc_stack: w[4],
            dm_size: w[5],
            dm_pipe: w[6],
            alu_level: w[7],
            alu_mult: w[8],
            alu_spr: w[9],
            iop_if: w[10],
            iop_rmw: w[11],
            yam_clk: w[12],
            yam_sreg3: w[13],
            alu_3op: w[14],
            irq_if: w[15],
            copm_size: w[16],
            im_width: w[17],
            yam_dbg: w[18],
        })
    }

    /// The configuration, where 1 does not refuse it.
    pub fn lawful_from_words(words: &[u32]) -> Option<Config> {
        Config::from_words(words).filter(Config::is_lawful)
    }

    pub fn is_lawful(&self) -> bool {
        let w = self.reg_width;
        let one_bank = self.rm_size == self.reg_size;
        let more_banks = self.rm_size.is_power_of_two()
            && u64::from(self.rm_size) >= 2 * u64::from(self.reg_size)
            && self.rm_size <= 1024
            && w == 32;
        self.im_width == 32
            && (1..=32768).contains(&self.im_size)
            && [8, 16, 32].contains(&w)
            && [8, 16, 32, 64, 128].contains(&self.reg_size)
            && (one_bank || more_banks)
            && (1..=64).contains(&self.pc_stack)
            && (self.dm_size == 0 || (self.dm_size.is_power_of_two() && (2..=32768).contains(&self.dm_size)))
            && self.dm_pipe <= 2
            && self.alu_level <= 2
            && (self.alu_level == 0 || w >= 16)
            && self.alu_mult <= 1
            && self.alu_spr <= 1
            && self.iop_if <= 1
            && self.iop_rmw <= 1
            && (self.iop_rmw == 0 || self.iop_if == 1)
            && self.yam_clk <= 1023
            && self.yam_sreg3 <= 65535
            && self.alu_3op == 0
            && self.irq_if == 0
            && self.copm_size == 0
            && self.yam_dbg == 0
    }

    /// "The stack holds 1 address if PC_STACK is 1, else PC_STACK−1."
    pub fn stack_limit(&self) -> u32 {
        if self.pc_stack == 1 {
            1
        } else {
            self.pc_stack - 1
        }
    }

    pub fn has_banks(&self) -> bool {
        self.rm_size > self.reg_size
    }

    /// The low W bits.
    pub fn cut(&self, value: u64) -> u32 {
        (value % (1u64 << self.reg_width)) as u32
    }

    /// Bit W−1.
    pub fn top_bit(&self, value: u32) -> bool {
        value >> (self.reg_width - 1) & 1 == 1
    }
}
