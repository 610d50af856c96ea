//! The calls on slices. Each is given pointers and lengths of whole slices, lent for the time of
//! the call, and a slice that it may write is lent to it alone: what include/yam.h asks for. It
//! answers the documents' number.

use crate::raw;

/// What a call answers beside its number.
pub(crate) type Answers = [u64; 2];

/// The lists that a step or a run may write.
pub(crate) struct State<'a> {
    pub machine: &'a mut [u32],
    pub registers: &'a mut [u32],
    pub memory: &'a mut [u32],
    pub log_addresses: &'a mut [u32],
    pub log_values: &'a mut [u32],
}

pub(crate) fn read(config: &[u32], word: u32, instruction: &mut [u32]) -> u32 {
    unsafe {
        raw::yam_read(
            config.as_ptr(),
            config.len(),
            word,
            instruction.as_mut_ptr(),
            instruction.len(),
        )
    }
}

pub(crate) fn write(config: &[u32], instruction: &[u32], answers: &mut Answers) -> u32 {
    unsafe {
        raw::yam_write(
            config.as_ptr(),
            config.len(),
            instruction.as_ptr(),
            instruction.len(),
            answers.as_mut_ptr(),
            answers.len(),
        )
    }
}

pub(crate) fn reset(machine: &mut [u32]) -> u32 {
    unsafe { raw::yam_reset(machine.as_mut_ptr(), machine.len()) }
}

pub(crate) fn step(
    config: &[u32],
    image: &[u32],
    inputs: &[u32],
    state: State,
    answers: &mut Answers,
) -> u32 {
    unsafe {
        raw::yam_step(
            config.as_ptr(),
            config.len(),
            image.as_ptr(),
            image.len(),
            inputs.as_ptr(),
            inputs.len(),
            state.machine.as_mut_ptr(),
            state.machine.len(),
            state.registers.as_mut_ptr(),
            state.registers.len(),
            state.memory.as_mut_ptr(),
            state.memory.len(),
            state.log_addresses.as_mut_ptr(),
            state.log_addresses.len(),
            state.log_values.as_mut_ptr(),
            state.log_values.len(),
            answers.as_mut_ptr(),
            answers.len(),
        )
    }
}

pub(crate) fn run(
    config: &[u32],
    image: &[u32],
    inputs: &[u32],
    state: State,
    budget: u64,
    answers: &mut Answers,
) -> u32 {
    unsafe {
        raw::yam_run(
            config.as_ptr(),
            config.len(),
            image.as_ptr(),
            image.len(),
            inputs.as_ptr(),
            inputs.len(),
            state.machine.as_mut_ptr(),
            state.machine.len(),
            state.registers.as_mut_ptr(),
            state.registers.len(),
            state.memory.as_mut_ptr(),
            state.memory.len(),
            state.log_addresses.as_mut_ptr(),
            state.log_addresses.len(),
            state.log_values.as_mut_ptr(),
            state.log_values.len(),
            budget,
            answers.as_mut_ptr(),
            answers.len(),
        )
    }
}

pub(crate) fn check(
    config: &[u32],
    image: &[u32],
    certificate: &[u8],
    answers: &mut Answers,
) -> u32 {
    unsafe {
        raw::yam_check(
            config.as_ptr(),
            config.len(),
            image.as_ptr(),
            image.len(),
            certificate.as_ptr(),
            certificate.len(),
            answers.as_mut_ptr(),
            answers.len(),
        )
    }
}

pub(crate) fn text(
    config: &[u32],
    word: u32,
    page: &mut [u8],
    place: u64,
    answers: &mut Answers,
) -> u32 {
    unsafe {
        raw::yam_text(
            config.as_ptr(),
            config.len(),
            word,
            page.as_mut_ptr(),
            page.len(),
            place,
            answers.as_mut_ptr(),
            answers.len(),
        )
    }
}

pub(crate) fn list(
    config: &[u32],
    image: &[u32],
    first: u64,
    page: &mut [u8],
    place: u64,
    answers: &mut Answers,
) -> u32 {
    unsafe {
        raw::yam_list(
            config.as_ptr(),
            config.len(),
            image.as_ptr(),
            image.len(),
            first,
            page.as_mut_ptr(),
            page.len(),
            place,
            answers.as_mut_ptr(),
            answers.len(),
        )
    }
}

pub(crate) fn assemble(
    config: &[u32],
    text: &[u8],
    words: &mut [u32],
    answers: &mut Answers,
) -> u32 {
    unsafe {
        raw::yam_assemble(
            config.as_ptr(),
            config.len(),
            text.as_ptr(),
            text.len(),
            words.as_mut_ptr(),
            words.len(),
            answers.as_mut_ptr(),
            answers.len(),
        )
    }
}

pub(crate) fn load(file: &[u8], config: &mut [u32], image: &mut [u32]) -> u32 {
    unsafe {
        raw::yam_load(
            file.as_ptr(),
            file.len(),
            config.as_mut_ptr(),
            config.len(),
            image.as_mut_ptr(),
            image.len(),
        )
    }
}

pub(crate) fn store(config: &[u32], image: &[u32], file: &mut [u8]) -> u32 {
    unsafe {
        raw::yam_store(
            config.as_ptr(),
            config.len(),
            image.as_ptr(),
            image.len(),
            file.as_mut_ptr(),
            file.len(),
        )
    }
}
