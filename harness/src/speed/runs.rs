//! Steps and runs: what a call is given, and times of the library beside plain C.

use super::programs::{config, image, narrow_config, program, spread_programs, LONG_IMAGE, NAMES, ODD_IMAGE, SHORT_IMAGE};
use super::times::{grown, line, Times};
use crate::c_interface::Plain;
use crate::calls::{Calls, State};
use crate::model::machine::Machine;

/// What a step or a run may change.
#[derive(Clone, PartialEq, Eq)]
pub struct Changed {
    machine: Vec<u32>,
    registers: Vec<u32>,
    memory: Vec<u32>,
    log_addresses: Vec<u32>,
    log_values: Vec<u32>,
}

impl Changed {
    fn lent(&mut self) -> State<'_> {
        State {
            machine: &mut self.machine,
            registers: &mut self.registers,
            memory: &mut self.memory,
            log_addresses: &mut self.log_addresses,
            log_values: &mut self.log_values,
        }
    }

    /// Inputs and log from their beginning.
    fn rewind(&mut self) {
        self.machine[13..17].fill(0);
    }
}

/// A program with its configuration and inputs, and where it starts.
pub struct Work {
    config: [u32; 19],
    image: Vec<u32>,
    inputs: Vec<u32>,
    pub start: Changed,
}

impl Work {
    /// Inputs and room in the log for so many steps.
    pub fn new(config: [u32; 19], image: Vec<u32>, steps: u64) -> Work {
        let log = vec![0; steps as usize];
        let start = Changed {
            machine: Machine::at_reset().to_words().to_vec(),
            registers: vec![0; config[3] as usize],
            memory: vec![0; config[5] as usize],
            log_addresses: log.clone(),
            log_values: log,
        };
        Work { inputs: (0..steps as u32).map(|i| i.wrapping_mul(0x9e37_79b9)).collect(), config, image, start }
    }

    /// The same, but for one word of the configuration or one place in the log: what 1 and 2 refuse.
    pub fn refused(mut self, number: u32) -> Work {
        match number {
            1 => self.config[18] = 1,
            _ => self.start.log_values.push(0),
        }
        self
    }

    #[inline(always)]
    pub fn run<C: Calls>(&self, calls: &C, lists: &mut Changed, budget: u64, answers: &mut [u64; 2]) -> u32 {
        calls.run(&self.config, &self.image, &self.inputs, lists.lent(), budget, answers)
    }

    #[inline(always)]
    pub fn step<C: Calls>(&self, calls: &C, lists: &mut Changed, answers: &mut [u64; 2]) -> u32 {
        calls.step(&self.config, &self.image, &self.inputs, lists.lent(), &mut answers[..1])
    }

    /// So many calls, each from where the last one ended; answers what the last one did.
    fn calls<C: Calls>(&self, calls: &C, lists: &mut Changed, count: u64, budget: Option<u64>) -> (u32, [u64; 2]) {
        let mut last = (0, [0; 2]);
        for _ in 0..count {
            last.0 |= match budget {
                Some(budget) => self.run(calls, lists, budget, &mut last.1),
                None => self.step(calls, lists, &mut last.1),
            };
        }
        last
    }
}

/// Calls on both sides, from where the last round ended.
struct Bench {
    work: Work,
    library: Changed,
    plain: Changed,
    times: Times,
}

impl Bench {
    fn new(config: [u32; 19], image: Vec<u32>, steps: u64) -> Bench {
        let work = Work::new(config, image, steps);
        Bench { library: work.start.clone(), plain: work.start.clone(), work, times: Times::default() }
    }

    fn round<L: Calls>(&mut self, library: &L, count: u64, budget: Option<u64>, units: u64) -> Result<(), String> {
        let Bench { work, library: a, plain: b, times } = self;
        a.rewind();
        b.rewind();
        let mut said = ((0, [0; 2]), (0, [0; 2]));
        times.round(units as f64, &mut || said.0 = work.calls(library, a, count, budget), &mut || {
            said.1 = work.calls(&Plain, b, count, budget)
        });
        if said.0 != said.1 || a != b || said.0 .0 != 0 {
            return Err(format!("library {:?}, plain {:?}: not the same, or stopped", said.0, said.1));
        }
        Ok(())
    }
}

const STEPS: u64 = 1_000_000;
/// Data memories: the one of most runs, and the two whose times should be alike.
const DATA: u32 = 32;
const SMALL_DATA: u32 = 2;
const LARGE_DATA: u32 = 32_768;
/// A run beside plain C, by time: a goal, since times depend on what else the machine does.
const GOAL: Option<f64> = Some(1.0);

/// Runs of a million steps.
pub fn report_runs<L: Calls>(library: &L, rounds: usize) -> Result<(), String> {
    for name in NAMES {
        let bench = |im_size: u32, dm_size: u32| {
            Bench::new(config(im_size, dm_size), image(im_size, &[(0, &program(name, dm_size))]), STEPS)
        };
        let mut sizes = [(SHORT_IMAGE, SMALL_DATA), (SHORT_IMAGE, LARGE_DATA), (LONG_IMAGE, LARGE_DATA)]
            .map(|(im_size, dm_size)| (im_size, dm_size, bench(im_size, dm_size)));
        for _ in 0..rounds {
            for (_, _, bench) in &mut sizes {
                bench.round(library, 1, Some(STEPS), STEPS)?;
            }
        }
        for (im_size, dm_size, bench) in &sizes {
            line(&format!("{name}, IM_SIZE {im_size}, DM_SIZE {dm_size}"), "step", &bench.times, GOAL);
        }
        let (library, plain) = grown(&sizes[0].2.times, &sizes[1].2.times);
        println!("{name}, DM_SIZE {LARGE_DATA} to {SMALL_DATA}: library {library:.2}, plain {plain:.2}");
    }
    let mut odd = Bench::new(config(ODD_IMAGE, DATA), image(ODD_IMAGE, &[(0, &program("calls", DATA))]), STEPS);
    for _ in 0..rounds {
        odd.round(library, 1, Some(STEPS), STEPS)?;
    }
    line(&format!("calls, IM_SIZE {ODD_IMAGE}, DM_SIZE {DATA}"), "step", &odd.times, GOAL);
    for (name, image) in spread_programs() {
        let mut bench = Bench::new(config(LONG_IMAGE, DATA), image, STEPS);
        for _ in 0..rounds {
            bench.round(library, 1, Some(STEPS), STEPS)?;
        }
        line(&format!("{name}, IM_SIZE {LONG_IMAGE}"), "step", &bench.times, GOAL);
    }
    Ok(())
}

/// Single steps and short runs of the arithmetic program, call by call.
pub fn report_calls<L: Calls>(library: &L, rounds: usize) -> Result<(), String> {
    let arithmetic = || image(SHORT_IMAGE, &[(0, &program("arithmetic", DATA))]);
    for (width, dm_size) in [(32, DATA), (32, LARGE_DATA), (16, DATA), (16, LARGE_DATA)] {
        let config = if width == 32 { config(SHORT_IMAGE, dm_size) } else { narrow_config(SHORT_IMAGE, dm_size) };
        let count = if dm_size == DATA { 20_000 } else { 500 };
        let mut bench = Bench::new(config, arithmetic(), 0);
        for _ in 0..rounds {
            bench.round(library, count, None, count)?;
        }
        line(&format!("step, W {width}, DM_SIZE {dm_size}"), "call", &bench.times, None);
    }
    for budget in [10, 100, 1_000] {
        let count = 20_000 / budget;
        let mut bench = Bench::new(config(SHORT_IMAGE, DATA), arithmetic(), 0);
        for _ in 0..rounds {
            bench.round(library, count, Some(budget), count)?;
        }
        line(&format!("run of {budget} steps, W 32"), "call", &bench.times, None);
    }
    Ok(())
}
