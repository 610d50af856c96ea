//! A machine with its memories: an image that is stepped and run.

use crate::calls::{self, State};
use crate::config::Config;
use crate::image::Image;
use crate::record::Record;
use crate::refused::{passed, Place, Refused};
use crate::trace::Trace;
use crate::{CONFIG_WORDS, MACHINE_WORDS};

/// How many places the log of a new machine has.
const LOG_PLACES: usize = 256;

/// The steps that a run did, and their cycles.
#[derive(Clone, Copy, Debug, PartialEq, Eq)]
pub struct Ran {
    pub steps: u64,
    pub cycles: u64,
}

/// A machine and all that it works on. The library works on these lists themselves: a step copies
/// nothing.
#[derive(Clone, Debug, PartialEq, Eq)]
pub struct Machine {
    image: Image,
    config: [u32; CONFIG_WORDS],
    inputs: Vec<u32>,
    words: [u32; MACHINE_WORDS],
    registers: Vec<u32>,
    memory: Vec<u32>,
    log_addresses: Vec<u32>,
    log_values: Vec<u32>,
}

impl Machine {
    /// The image's machine at reset, with zeroed memories, no inputs and a log of 256 places.
    /// Refused by 1 and 2.
    pub fn new(image: &Image) -> Result<Machine, Refused> {
        let config = image.config;
        config.takes(&image.words)?;
        // The configuration is lawful, so that both sizes are small.
        let cells = |size: u32| vec![0; usize::try_from(size).unwrap_or(0)];
        let mut machine = Machine {
            image: image.clone(),
            config: config.to_words(),
            inputs: Vec::new(),
            words: [0; MACHINE_WORDS],
            registers: cells(config.rm_size),
            memory: cells(config.dm_size),
            log_addresses: vec![0; LOG_PLACES],
            log_values: vec![0; LOG_PLACES],
        };
        machine.reset();
        Ok(machine)
    }

    /// The same with these inputs: what the ports give, one word for each port read.
    pub fn with_inputs(mut self, inputs: impl Into<Vec<u32>>) -> Machine {
        self.inputs = inputs.into();
        self
    }

    /// The same with these two lists as its log. A step refuses lists of unlike length by 2.
    pub fn with_log(
        mut self,
        addresses: impl Into<Vec<u32>>,
        values: impl Into<Vec<u32>>,
    ) -> Machine {
        self.log_addresses = addresses.into();
        self.log_values = values.into();
        self
    }

    /// Puts the record back to reset. The memories stay, inputs and log start again.
    pub fn reset(&mut self) {
        // The list has the length of a machine, so that it is never refused.
        calls::reset(&mut self.words);
    }

    pub fn config(&self) -> &Config {
        &self.image.config
    }

    pub fn image(&self) -> &Image {
        &self.image
    }

    pub fn inputs(&self) -> &[u32] {
        &self.inputs
    }

    pub fn record(&self) -> Record {
        Record::from_words(&self.words)
    }

    pub fn set_record(&mut self, record: &Record) {
        self.words = record.to_words();
    }

    /// The register memory, RM_SIZE cells; register 0 of the active bank is at WP.
    pub fn registers(&self) -> &[u32] {
        &self.registers
    }

    /// A step refuses a cell that does not fit the word width by 3.
    pub fn registers_mut(&mut self) -> &mut [u32] {
        &mut self.registers
    }

    /// The data memory, DM_SIZE cells.
    pub fn memory(&self) -> &[u32] {
        &self.memory
    }

    pub fn memory_mut(&mut self) -> &mut [u32] {
        &mut self.memory
    }

    /// Address and value of each port write, the oldest first.
    pub fn log(&self) -> impl DoubleEndedIterator<Item = (u32, u32)> + ExactSizeIterator + '_ {
        let filled = usize::try_from(self.record().logged).unwrap_or(usize::MAX);
        self.log_addresses.iter().copied().zip(self.log_values.iter().copied()).take(filled)
    }

    /// One step: its cycles. On a refusal nothing is changed.
    pub fn step(&mut self) -> Result<u64, Refused> {
        let mut answers = [0; 2];
        let state = State {
            machine: &mut self.words,
            registers: &mut self.registers,
            memory: &mut self.memory,
            log_addresses: &mut self.log_addresses,
            log_values: &mut self.log_values,
        };
        passed(
            calls::step(&self.config, &self.image.words, &self.inputs, state, &mut answers),
            None,
        )?;
        Ok(answers[0])
    }

    /// So many steps, at most 1,000,000. What stopped it says how many were done; they are kept.
    pub fn run(&mut self, steps: u64) -> Result<Ran, Refused> {
        let mut answers = [0; 2];
        let state = State {
            machine: &mut self.words,
            registers: &mut self.registers,
            memory: &mut self.memory,
            log_addresses: &mut self.log_addresses,
            log_values: &mut self.log_values,
        };
        let number =
            calls::run(&self.config, &self.image.words, &self.inputs, state, steps, &mut answers);
        let [steps, cycles] = answers;
        passed(number, Some(Place::Run { steps, cycles }))?;
        Ok(Ran { steps, cycles })
    }

    /// So many steps one by one, each carried out when the iterator is asked for it. A refusal is
    /// its last item.
    pub fn trace(&mut self, steps: u64) -> Trace<'_> {
        Trace::new(self, steps)
    }
}
