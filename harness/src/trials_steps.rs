//! Sides that are wrong on purpose in what a step does: their runs are made by such steps, and all else is as the model has it.

use crate::calls::{Calls, State};
use crate::compare::Pair;
use crate::model::step::BUDGET_LIMIT;
use crate::model::Model;
use crate::random::Random;

/// A step that is wrong on purpose.
pub trait WrongStep {
    fn wrong_step(&self, config: &[u32], image: &[u32], inputs: &[u32], state: State, answers: &mut [u64]) -> u32;
}

/// The same lists, lent on.
pub fn lent<'a>(state: &'a mut State) -> State<'a> {
    let State { machine, registers, memory, log_addresses, log_values } = state;
    State { machine, registers, memory, log_addresses, log_values }
}

impl<T: WrongStep> Calls for T {
    fn step(&self, config: &[u32], image: &[u32], inputs: &[u32], state: State, answers: &mut [u64]) -> u32 {
        self.wrong_step(config, image, inputs, state, answers)
    }
    /// By its own steps, where a run of none is not refused.
    fn run(&self, config: &[u32], image: &[u32], inputs: &[u32], state: State, budget: u64, answers: &mut [u64]) -> u32 {
        let mut state = state;
        let none = if budget > BUDGET_LIMIT { budget } else { 0 };
        let (mut number, mut ran, mut cycles) = (Model.run(config, image, inputs, lent(&mut state), none, &mut []), [0, 0], [0]);
        while ran[0] < budget && number == 0 {
            number = self.wrong_step(config, image, inputs, lent(&mut state), &mut cycles);
            ran[0] += u64::from(number == 0);
            ran[1] += cycles[0];
        }
        answers.iter_mut().zip(ran).for_each(|(answer, ran)| *answer = ran);
        number
    }
    fn read(&self, config: &[u32], word: u32, instruction: &mut [u32]) -> u32 {
        Model.read(config, word, instruction)
    }
    fn write(&self, config: &[u32], instruction: &[u32], answers: &mut [u64]) -> u32 {
        Model.write(config, instruction, answers)
    }
    fn reset(&self, machine: &mut [u32]) -> u32 {
        Model.reset(machine)
    }
    fn check(&self, config: &[u32], image: &[u32], sheet: &[u8], answers: &mut [u64]) -> u32 {
        Model.check(config, image, sheet, answers)
    }
    fn text(&self, config: &[u32], word: u32, page: &mut [u8], place: u64, answers: &mut [u64]) -> u32 {
        Model.text(config, word, page, place, answers)
    }
    fn list(&self, config: &[u32], image: &[u32], first: u64, page: &mut [u8], place: u64, answers: &mut [u64]) -> u32 {
        Model.list(config, image, first, page, place, answers)
    }
    fn load(&self, file: &[u8], config: &mut [u32], image: &mut [u32]) -> u32 {
        Model.load(file, config, image)
    }
    fn store(&self, config: &[u32], image: &[u32], file: &mut [u8]) -> u32 {
        Model.store(config, image, file)
    }
    fn assemble(&self, config: &[u32], text: &[u8], words: &mut [u32], answers: &mut [u64]) -> u32 {
        Model.assemble(config, text, words, answers)
    }
}

/// A subject's case.
type Case = fn(&mut Pair, &mut Random) -> Result<(), String>;

/// What the cases of a subject say of a side on the first seed that finds something: beside the model; or beside itself, where nothing but a
/// claim can tell.
pub fn found_in(case: Case, model: &dyn Calls, wrong: &dyn Calls) -> Option<String> {
    let mut pair = Pair::new(model, wrong);
    (0..200).find_map(|seed| case(&mut pair, &mut Random::new(seed)).err())
}
