//! The model behind the calls of the C interface: lists of any length, refusals first.

use super::assemble::Refusal;
use super::config::{Config, CONFIG_WORDS};
use super::machine::{admit, Env, Lists, Machine, MACHINE_WORDS};
use super::sheet::Checked;
use super::words::Instruction;
use super::{assemble, image, listing, sheet, step, words};
use crate::calls::{Calls, State};

pub struct Model;

/// As many of the answers as there is room for.
fn answer(answers: &mut [u64], values: &[u64]) {
    for (place, &value) in answers.iter_mut().zip(values) {
        *place = value;
    }
}

fn number_of(result: Result<(), u32>) -> u32 {
    result.err().unwrap_or(0)
}

impl Calls for Model {
    fn read(&self, config: &[u32], word: u32, instruction: &mut [u32]) -> u32 {
        number_of((|| {
            let c = Config::lawful_from_words(config).ok_or(1u32)?;
            let parts = words::read(&c, word)?.to_words();
            let lent: &mut [u32; 6] = instruction.try_into().map_err(|_| 7u32)?;
            *lent = parts;
            Ok(())
        })())
    }

    fn write(&self, config: &[u32], instruction: &[u32], answers: &mut [u64]) -> u32 {
        let word = (|| {
            let c = Config::lawful_from_words(config).ok_or(1u32)?;
            words::write(&c, &Instruction::from_words(instruction).ok_or(7u32)?)
        })();
        answer(answers, &[u64::from(word.unwrap_or(0))]);
        word.err().unwrap_or(0)
    }

    fn reset(&self, machine: &mut [u32]) -> u32 {
        let Ok(lent) = <&mut [u32; MACHINE_WORDS]>::try_from(machine) else {
            return 3;
        };
        *lent = Machine::at_reset().to_words();
        0
    }

    fn step(&self, config: &[u32], image: &[u32], inputs: &[u32], state: State, answers: &mut [u64]) -> u32 {
        let cycles = (|| {
            let c = Config::lawful_from_words(config).ok_or(1u32)?;
            let env = Env { config: &c, image, inputs };
            let mut lists = lists_of(state.registers, state.memory, state.log_addresses, state.log_values);
            let mut machine = admit(&env, state.machine, &lists)?;
            let cycles = step::step(&env, &mut machine, &mut lists)?;
            state.machine.copy_from_slice(&machine.to_words());
            Ok(cycles)
        })();
        answer(answers, &[cycles.unwrap_or(0)]);
        cycles.err().unwrap_or(0)
    }

    fn run(&self, config: &[u32], image: &[u32], inputs: &[u32], state: State, budget: u64, answers: &mut [u64]) -> u32 {
        let ran = (|| {
            let c = Config::lawful_from_words(config).ok_or(1u32)?;
            let env = Env { config: &c, image, inputs };
            let mut lists = lists_of(state.registers, state.memory, state.log_addresses, state.log_values);
            let mut machine = admit(&env, state.machine, &lists)?;
            if budget > step::BUDGET_LIMIT {
                return Err(16u32);
            }
            let ran = step::run(&env, &mut machine, &mut lists, budget);
            state.machine.copy_from_slice(&machine.to_words());
            Ok(ran)
        })();
        let (number, steps, cycles) = match ran {
            Ok(ran) => (ran.number, ran.steps, ran.cycles),
            Err(number) => (number, 0, 0),
        };
        answer(answers, &[steps, cycles]);
        number
    }

    fn check(&self, config: &[u32], image: &[u32], sheet: &[u8], answers: &mut [u64]) -> u32 {
        let checked = (|| {
            let c = Config::lawful_from_words(config).ok_or(1u32)?;
            let size = c.im_size as usize;
            if image.len() != size || sheet.len() != size {
                return Err(2u32);
            }
            Ok(sheet::check(&c, image, sheet))
        })();
        let (number, values) = match checked {
            Ok(Checked::Passed { level }) => (0, [u64::from(level), 0]),
            Ok(Checked::Broken { address, rule }) => (17, [address as u64, u64::from(rule)]),
            Err(number) => (number, [0, 0]),
        };
        answer(answers, &values);
        number
    }

    fn text(&self, config: &[u32], word: u32, page: &mut [u8], place: u64, answers: &mut [u64]) -> u32 {
        let after = (|| {
            let c = Config::lawful_from_words(config).ok_or(1u32)?;
            listing::put_text(&c, word, page, place)
        })();
        answer(answers, &[after.unwrap_or(place)]);
        after.err().unwrap_or(0)
    }

    fn list(&self, config: &[u32], image: &[u32], first: u64, page: &mut [u8], place: u64, answers: &mut [u64]) -> u32 {
        let (number, place, next) = match Config::lawful_from_words(config) {
            None => (1, place, first),
            Some(c) if image.len() != c.im_size as usize => (2, place, first),
            Some(c) => listing::list(&c, image, first, page, place),
        };
        answer(answers, &[place, next]);
        number
    }

    fn load(&self, file: &[u8], config: &mut [u32], image: &mut [u32]) -> u32 {
        number_of((|| {
            let lent: &mut [u32; CONFIG_WORDS] = config.try_into().map_err(|_| 1u32)?;
            let (fields, held) = image::load(file, image.len())?;
            *lent = fields;
            image[..held.len()].copy_from_slice(&held);
            Ok(())
        })())
    }

    fn store(&self, config: &[u32], image: &[u32], file: &mut [u8]) -> u32 {
        number_of((|| {
            let c = Config::lawful_from_words(config).ok_or(1u32)?;
            if image.len() != c.im_size as usize {
                return Err(2);
            }
            let bytes = image::file_of(config, image);
            if file.len() != bytes.len() {
                return Err(19);
            }
            file.copy_from_slice(&bytes);
            Ok(())
        })())
    }

    fn assemble(&self, config: &[u32], text: &[u8], words: &mut [u32], answers: &mut [u64]) -> u32 {
        let assembled = match Config::lawful_from_words(config) {
            None => Err(Refusal { number: 1, line: 0 }),
            Some(c) => assemble::assemble(&c, text, words.len()),
        };
        let (number, values) = match assembled {
            Ok(written) => {
                words[..written.len()].copy_from_slice(&written);
                (0, [written.len() as u64, 0])
            }
            Err(refusal) => (refusal.number, [0, refusal.line]),
        };
        answer(answers, &values);
        number
    }
}

fn lists_of<'a>(
    registers: &'a mut [u32],
    memory: &'a mut [u32],
    log_addresses: &'a mut [u32],
    log_values: &'a mut [u32],
) -> Lists<'a> {
    Lists { registers, memory, log_addresses, log_values }
}
