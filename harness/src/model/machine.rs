//! The machine record, reset, and refusals 2 and 3.

use super::config::Config;

/// The length of a record as a list, and of its return stack.
pub const MACHINE_WORDS: usize = 100;
pub const STACK_CELLS: usize = 63;
const STACK_AT: usize = 17;
/// K4's mark, the first word behind the stack, and what is left behind it.
pub const LOADED_AT: usize = STACK_AT + STACK_CELLS;
const REST_AT: usize = LOADED_AT + 1;

#[derive(Clone, Debug, PartialEq, Eq)]
pub struct Machine {
    pub pc: u32,
    pub wp: u32,
    pub rx: u32,
    pub ry: u32,
    pub n: u32,
    pub z: u32,
    pub spr7: u32,
    pub depth: u32,
    pub imask: u32,
    pub saved_mask: u32,
    pub mode: u32,
    pub posted: u32,
    pub posted_address: u32,
    pub input_position: u64,
    pub log_position: u64,
    pub stack: [u32; STACK_CELLS],
    /// K4: 1 once an LDYX has run since reset.
    pub loaded: u32,
    /// The list's last words, kept for later fields: zeros.
    pub rest: [u32; MACHINE_WORDS - REST_AT],
}

impl Machine {
    /// "Reset: PC, WP, RX, RY, flags, SPR7, stack, positions 0; both masks 15; normal mode; no posted write." No LDYX has run (K4).
    pub fn at_reset() -> Machine {
        Machine {
            pc: 0,
            wp: 0,
            rx: 0,
            ry: 0,
            n: 0,
            z: 0,
            spr7: 0,
            depth: 0,
            imask: 15,
            saved_mask: 15,
            mode: 0,
            posted: 0,
            posted_address: 0,
            input_position: 0,
            log_position: 0,
            stack: [0; STACK_CELLS],
            loaded: 0,
            rest: [0; MACHINE_WORDS - REST_AT],
        }
    }

    /// None where the list has another length.
    pub fn from_words(words: &[u32]) -> Option<Machine> {
        let w: &[u32; MACHINE_WORDS] = words.try_into().ok()?;
        let wide = |at: usize| u64::from(w[at]) + (u64::from(w[at + 1]) << 32);
        Some(Machine {
            pc: w[0],
            wp: w[1],
            rx: w[2],
            ry: w[3],
            n: w[4],
            z: w[5],
            spr7: w[6],
            depth: w[7],
            imask: w[8],
            saved_mask: w[9],
            mode: w[10],
            posted: w[11],
            posted_address: w[12],
            input_position: wide(13),
            log_position: wide(15),
            stack: w[STACK_AT..LOADED_AT].try_into().expect("63 cells"),
            loaded: w[LOADED_AT],
            rest: w[REST_AT..].try_into().expect("19 words"),
        })
    }

    pub fn to_words(&self) -> [u32; MACHINE_WORDS] {
        let mut w = [0; MACHINE_WORDS];
        let head = [
            self.pc,
            self.wp,
            self.rx,
            self.ry,
            self.n,
            self.z,
            self.spr7,
            self.depth,
            self.imask,
            self.saved_mask,
            self.mode,
            self.posted,
            self.posted_address,
            self.input_position as u32,
            (self.input_position >> 32) as u32,
            self.log_position as u32,
            (self.log_position >> 32) as u32,
        ];
        w[..STACK_AT].copy_from_slice(&head);
        w[STACK_AT..LOADED_AT].copy_from_slice(&self.stack);
        w[LOADED_AT] = self.loaded;
        w[REST_AT..].copy_from_slice(&self.rest);
        w
    }

    /// "A record is in its ranges when ...", clause by clause; "The record says loaded or not, and RX and RY are 0 until loaded" (K4).
    pub fn is_in_ranges(&self, c: &Config, inputs: usize, log: usize) -> bool {
        let w = c.reg_width;
        let fits = |value: u32| u64::from(value) < 1 << w;
        let depth = self.depth as usize;
        self.pc < 1 << 23
            && self.wp % 16 == 0
            && u64::from(self.wp) + u64::from(c.reg_size) <= u64::from(c.rm_size)
            && self.rx < c.reg_size
            && self.ry < c.reg_size
            && [self.n, self.z, self.mode, self.posted, self.loaded].iter().all(|&mark| mark <= 1)
            && (self.loaded == 1 || (self.rx, self.ry) == (0, 0))
            && self.imask <= 15
            && self.saved_mask <= 15
            && fits(self.spr7)
            && (w != 32 || self.spr7 == 0)
            && self.depth <= c.stack_limit()
            && self.stack[..depth].iter().all(|&address| address <= c.im_size)
            && self.stack[depth..].iter().all(|&cell| cell == 0)
            && fits(self.posted_address)
            && (self.posted == 1 || self.posted_address == 0)
            && self.input_position <= inputs as u64
            && self.log_position <= log as u64
            && self.rest.iter().all(|&word| word == 0)
    }
}

/// What a call does not change.
#[derive(Clone, Copy)]
pub struct Env<'a> {
    pub config: &'a Config,
    pub image: &'a [u32],
    pub inputs: &'a [u32],
}

/// What a call may change, beside the machine: lent lists.
pub struct Lists<'a> {
    pub registers: &'a mut [u32],
    pub memory: &'a mut [u32],
    pub log_addresses: &'a mut [u32],
    pub log_values: &'a mut [u32],
}

/// 2, then 3. The configuration is lawful. Answers the machine where neither refuses.
pub fn admit(env: &Env, machine: &[u32], lists: &Lists) -> Result<Machine, u32> {
    let c = env.config;
    let lengths = env.image.len() as u64 == u64::from(c.im_size)
        && lists.registers.len() as u64 == u64::from(c.rm_size)
        && lists.memory.len() as u64 == u64::from(c.dm_size)
        && lists.log_addresses.len() == lists.log_values.len();
    if !lengths {
        return Err(2);
    }
    let record = Machine::from_words(machine).ok_or(3u32)?;
    let fits = |cells: &[u32]| cells.iter().all(|&cell| u64::from(cell) < 1 << c.reg_width);
    let in_ranges = record.is_in_ranges(c, env.inputs.len(), lists.log_addresses.len());
    if in_ranges && fits(lists.registers) && fits(lists.memory) {
        Ok(record)
    } else {
        Err(3)
    }
}
