//! The calls of the C interface, as both the model and the library answer them: a number, with what is answered beside it in lent lists.

/// What step and run change.
pub struct State<'a> {
    pub machine: &'a mut [u32],
    pub registers: &'a mut [u32],
    pub memory: &'a mut [u32],
    pub log_addresses: &'a mut [u32],
    pub log_values: &'a mut [u32],
}

pub trait Calls {
    fn read(&self, config: &[u32], word: u32, instruction: &mut [u32]) -> u32;
    fn write(&self, config: &[u32], instruction: &[u32], answers: &mut [u64]) -> u32;
    fn reset(&self, machine: &mut [u32]) -> u32;
    fn step(&self, config: &[u32], image: &[u32], inputs: &[u32], state: State, answers: &mut [u64]) -> u32;
    fn run(&self, config: &[u32], image: &[u32], inputs: &[u32], state: State, budget: u64, answers: &mut [u64]) -> u32;
    fn check(&self, config: &[u32], image: &[u32], sheet: &[u8], answers: &mut [u64]) -> u32;
    fn text(&self, config: &[u32], word: u32, page: &mut [u8], place: u64, answers: &mut [u64]) -> u32;
    fn list(&self, config: &[u32], image: &[u32], first: u64, page: &mut [u8], place: u64, answers: &mut [u64]) -> u32;
    fn load(&self, file: &[u8], config: &mut [u32], image: &mut [u32]) -> u32;
    fn store(&self, config: &[u32], image: &[u32], file: &mut [u8]) -> u32;
    fn assemble(&self, config: &[u32], text: &[u8], words: &mut [u32], answers: &mut [u64]) -> u32;
}
