//! The machine record.

use crate::{MACHINE_WORDS, STACK_WORDS};

/// How many words stand before the return stack.
const CORE_WORDS: usize = 17;
const WORD_BITS: u32 = 32;

/// The machine record by the manual's names. Any values may be given: a step refuses a record
/// outside its ranges by 3.
#[derive(Clone, Copy, Debug, PartialEq, Eq, Hash)]
pub struct Record {
    pub pc: u32,
    pub wp: u32,
    pub rx: u32,
    pub ry: u32,
    pub n: u32,
    pub z: u32,
    pub spr7: u32,
    /// How many addresses the return stack holds.
    pub depth: u32,
    pub imask: u32,
    /// The mask that SPR_ON saved.
    pub saved: u32,
    /// 1 in special-register mode.
    pub mode: u32,
    /// 1 straight after a port write, and its address.
    pub posted: u32,
    pub port: u32,
    /// How many inputs were taken, and how many places of the log are filled.
    pub taken: u64,
    pub logged: u64,
    /// The return stack, the oldest address first, zeros above.
    pub stack: [u32; STACK_WORDS],
    /// 1 once an LDYX has run since reset.
    pub loaded: u32,
}

const fn low(number: u64) -> u32 {
    number as u32
}

const fn high(number: u64) -> u32 {
    (number >> WORD_BITS) as u32
}

const fn wide(low: u32, high: u32) -> u64 {
    low as u64 | (high as u64) << WORD_BITS
}

impl Record {
    /// The words of include/yam.h, and back; the last nineteen are zeros, and not looked at.
    pub fn to_words(&self) -> [u32; MACHINE_WORDS] {
        let core: [u32; CORE_WORDS] = [
            self.pc,
            self.wp,
            self.rx,
            self.ry,
            self.n,
            self.z,
            self.spr7,
            self.depth,
            self.imask,
            self.saved,
            self.mode,
            self.posted,
            self.port,
            low(self.taken),
            high(self.taken),
            low(self.logged),
            high(self.logged),
        ];
        let mut words = [0; MACHINE_WORDS];
        for (word, value) in
            words.iter_mut().zip(core.iter().chain(&self.stack).chain([&self.loaded]))
        {
            *word = *value;
        }
        words
    }

    pub fn from_words(words: &[u32; MACHINE_WORDS]) -> Record {
        let mut words = words.iter();
        let mut next = || words.next().copied().unwrap_or_default();
        // In the order in which they are written here; words of a count in that of its parameters.
        Record {
            pc: next(),
            wp: next(),
            rx: next(),
            ry: next(),
            n: next(),
            z: next(),
            spr7: next(),
            depth: next(),
            imask: next(),
            saved: next(),
            mode: next(),
            posted: next(),
            port: next(),
            taken: wide(next(), next()),
            logged: wide(next(), next()),
            stack: std::array::from_fn(|_| next()),
            loaded: next(),
        }
    }

    /// The addresses that the return stack holds, the oldest first.
    pub fn returns(&self) -> &[u32] {
        let depth = usize::try_from(self.depth).unwrap_or(usize::MAX);
        self.stack.get(..depth).unwrap_or(&self.stack)
    }
}
