//! Steps one by one, with what each changed.

use crate::machine::Machine;
use crate::record::Record;
use crate::refused::{Place, Refused};
use crate::MOST_STEPS;
use std::fmt;

/// Hex digits of an address of the image, a place in data memory, a register's place in one bank
/// and where there are more.
const ADDRESS_DIGITS: usize = 6;
const CELL_DIGITS: usize = 4;
const REGISTER_DIGITS: usize = 2;
const BANK_DIGITS: usize = 3;
const DIGIT_BITS: usize = 4;

/// What a step changed, with its new value.
#[derive(Clone, Copy, Debug, PartialEq, Eq)]
pub enum Change {
    /// A value of the record, by its name in docs/commands.md.
    Record {
        name: &'static str,
        value: u64,
    },
    /// An address that was pushed on the return stack.
    Stack(u32),
    /// A cell of the register memory, of the data memory.
    Register {
        place: usize,
        value: u32,
    },
    Memory {
        place: usize,
        value: u32,
    },
    /// A place of the log that was filled.
    Log {
        address: u32,
        value: u32,
    },
}

/// A step that was carried out. Printed, it is the step's line of `yam trace` without its newline.
#[derive(Clone, Debug, PartialEq, Eq)]
pub struct Step {
    /// Its number, from 1 on.
    pub step: u64,
    /// The cycles so far, its own with them.
    pub cycles: u64,
    /// Where its word stands, the word, and its text as a listing has it.
    pub address: u32,
    pub word: u32,
    pub text: String,
    /// In the order of docs/commands.md. PC is left out.
    pub changes: Vec<Change>,
    /// Hex digits of a word, and of a register's place.
    word_digits: usize,
    register_digits: usize,
}

/// How a value of the record is printed.
enum Digits {
    Decimal,
    Hex(usize),
    Word,
}

type Field = (&'static str, Digits, fn(&Record) -> u64);

/// What a trace names of the record, in its order.
const FIELDS: [Field; 15] = [
    ("WP", Digits::Hex(3), |r| r.wp.into()),
    ("RX", Digits::Hex(2), |r| r.rx.into()),
    ("RY", Digits::Hex(2), |r| r.ry.into()),
    ("N", Digits::Hex(1), |r| r.n.into()),
    ("Z", Digits::Hex(1), |r| r.z.into()),
    ("SPR7", Digits::Word, |r| r.spr7.into()),
    ("IMask", Digits::Hex(1), |r| r.imask.into()),
    ("saved", Digits::Hex(1), |r| r.saved.into()),
    ("mode", Digits::Hex(1), |r| r.mode.into()),
    ("posted", Digits::Hex(1), |r| r.posted.into()),
    ("port", Digits::Word, |r| r.port.into()),
    ("loaded", Digits::Hex(1), |r| r.loaded.into()),
    ("taken", Digits::Decimal, |r| r.taken),
    ("logged", Digits::Decimal, |r| r.logged),
    ("depth", Digits::Decimal, |r| r.depth.into()),
];

impl fmt::Display for Step {
    fn fmt(&self, f: &mut fmt::Formatter<'_>) -> fmt::Result {
        let Step { step, cycles, address, word, text, .. } = self;
        write!(f, "{step} {cycles} {address:0ADDRESS_DIGITS$x} {word:08x} {text} ;")?;
        let digits = self.word_digits;
        for change in &self.changes {
            match change {
                Change::Record { name, value } => {
                    match FIELDS.iter().find(|field| field.0 == *name) {
                        Some((_, Digits::Hex(count), _)) => write!(f, " {name}={value:0count$x}")?,
                        Some((_, Digits::Word, _)) => write!(f, " {name}={value:0digits$x}")?,
                        Some((_, Digits::Decimal, _)) | None => write!(f, " {name}={value}")?,
                    }
                }
                Change::Stack(address) => write!(f, " stack={address:0ADDRESS_DIGITS$x}")?,
                Change::Register { place, value } => {
                    let places = self.register_digits;
                    write!(f, " %{place:0places$x}={value:0digits$x}")?;
                }
                Change::Memory { place, value } => {
                    write!(f, " &{place:0CELL_DIGITS$x}={value:0digits$x}")?
                }
                Change::Log { address, value } => {
                    write!(f, " log={address:0digits$x}:{value:0digits$x}")?
                }
            }
        }
        Ok(())
    }
}

/// The places at which two lists differ, with their new values; the old list is made like the new
/// one.
fn differing(old: &mut [u32], new: &[u32]) -> Vec<(usize, u32)> {
    if old == new {
        return Vec::new();
    }
    let mut found = Vec::new();
    for (place, (old, new)) in old.iter_mut().zip(new).enumerate() {
        if old != new {
            *old = *new;
            found.push((place, *new));
        }
    }
    found
}

/// The steps of a machine, each carried out when it is asked for.
#[derive(Debug)]
pub struct Trace<'a> {
    machine: &'a mut Machine,
    budget: u64,
    steps: u64,
    cycles: u64,
    ended: bool,
    /// The memories before the next step.
    registers: Vec<u32>,
    memory: Vec<u32>,
}

impl<'a> Trace<'a> {
    pub(crate) fn new(machine: &'a mut Machine, budget: u64) -> Trace<'a> {
        let (registers, memory) = (machine.registers().to_vec(), machine.memory().to_vec());
        Trace { machine, budget, steps: 0, cycles: 0, ended: false, registers, memory }
    }

    /// What the machine holds otherwise than before the step.
    fn changes(&mut self, before: &Record) -> Vec<Change> {
        let after = self.machine.record();
        let named = FIELDS.iter().filter(|(_, _, value)| value(before) != value(&after));
        let mut changes: Vec<Change> =
            named.map(|(name, _, value)| Change::Record { name, value: value(&after) }).collect();
        if after.depth > before.depth {
            changes.extend(after.returns().last().map(|address| Change::Stack(*address)));
        }
        let registers = differing(&mut self.registers, self.machine.registers());
        changes
            .extend(registers.into_iter().map(|(place, value)| Change::Register { place, value }));
        let memory = differing(&mut self.memory, self.machine.memory());
        changes.extend(memory.into_iter().map(|(place, value)| Change::Memory { place, value }));
        if after.logged > before.logged {
            changes.extend(
                self.machine
                    .log()
                    .next_back()
                    .map(|(address, value)| Change::Log { address, value }),
            );
        }
        changes
    }

    /// One more step.
    fn step(&mut self) -> Result<Step, Refused> {
        let before = self.machine.record();
        let place = Place::Run { steps: self.steps, cycles: self.cycles };
        self.cycles +=
            self.machine.step().map_err(|refused| Refused { place: Some(place), ..refused })?;
        self.steps += 1;
        // A step that was carried out had a word, and the word a text.
        let word = usize::try_from(before.pc)
            .ok()
            .and_then(|pc| self.machine.image().words.get(pc))
            .copied()
            .unwrap_or(0);
        let config = *self.machine.config();
        let one_bank = config.rm_size == config.reg_size;
        Ok(Step {
            step: self.steps,
            cycles: self.cycles,
            address: before.pc,
            word,
            text: config.text(word)?,
            changes: self.changes(&before),
            word_digits: usize::try_from(config.reg_width).unwrap_or(0) / DIGIT_BITS,
            register_digits: if one_bank { REGISTER_DIGITS } else { BANK_DIGITS },
        })
    }
}

impl Iterator for Trace<'_> {
    type Item = Result<Step, Refused>;

    fn next(&mut self) -> Option<Result<Step, Refused>> {
        if self.ended || self.steps >= self.budget {
            return None;
        }
        let step = if self.budget > MOST_STEPS {
            // A run of so many steps is refused before its first.
            self.machine.run(self.budget).and_then(|_| self.step())
        } else {
            self.step()
        };
        self.ended = step.is_err();
        Some(step)
    }
}

impl std::iter::FusedIterator for Trace<'_> {}
