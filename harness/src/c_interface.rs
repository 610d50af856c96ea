//! Safe wrappers over a C interface such as the library's (include/yam.h): the library's own, and that of the plain C programs.

use crate::calls::{Calls, State};

/// The plain C programs' own names.
mod flat {
    extern "C" {
        #[link_name = "flat_read"]
        pub fn read(config: *const u32, config_length: usize, word: u32, instruction: *mut u32, instruction_length: usize)
            -> u32;
        #[link_name = "flat_write"]
        pub fn write(
            config: *const u32,
            config_length: usize,
            instruction: *const u32,
            instruction_length: usize,
            answers: *mut u64,
            answers_length: usize,
        ) -> u32;
        #[link_name = "flat_reset"]
        pub fn reset(machine: *mut u32, machine_length: usize) -> u32;
        #[link_name = "flat_step"]
        pub fn step(
            config: *const u32,
            config_length: usize,
            image: *const u32,
            image_length: usize,
            inputs: *const u32,
            inputs_length: usize,
            machine: *mut u32,
            machine_length: usize,
            registers: *mut u32,
            registers_length: usize,
            memory: *mut u32,
            memory_length: usize,
            log_addresses: *mut u32,
            log_addresses_length: usize,
            log_values: *mut u32,
            log_values_length: usize,
            answers: *mut u64,
            answers_length: usize,
        ) -> u32;
        #[link_name = "flat_run"]
        pub fn run(
            config: *const u32,
            config_length: usize,
            image: *const u32,
            image_length: usize,
            inputs: *const u32,
            inputs_length: usize,
            machine: *mut u32,
            machine_length: usize,
            registers: *mut u32,
            registers_length: usize,
            memory: *mut u32,
            memory_length: usize,
            log_addresses: *mut u32,
            log_addresses_length: usize,
            log_values: *mut u32,
            log_values_length: usize,
            budget: u64,
            answers: *mut u64,
            answers_length: usize,
        ) -> u32;
        #[link_name = "flat_check"]
        pub fn check(
            config: *const u32,
            config_length: usize,
            image: *const u32,
            image_length: usize,
            certificate: *const u8,
            certificate_length: usize,
            answers: *mut u64,
            answers_length: usize,
        ) -> u32;
        #[link_name = "flat_text"]
        pub fn text(
            config: *const u32,
            config_length: usize,
            word: u32,
            page: *mut u8,
            page_length: usize,
            place: u64,
            answers: *mut u64,
            answers_length: usize,
        ) -> u32;
        #[link_name = "flat_list"]
        pub fn list(
            config: *const u32,
            config_length: usize,
            image: *const u32,
            image_length: usize,
            first: u64,
            page: *mut u8,
            page_length: usize,
            place: u64,
            answers: *mut u64,
            answers_length: usize,
        ) -> u32;
        #[link_name = "flat_load"]
        pub fn load(
            file: *const u8,
            file_length: usize,
            config: *mut u32,
            config_length: usize,
            image: *mut u32,
            image_length: usize,
        ) -> u32;
        #[link_name = "flat_store"]
        pub fn store(
            config: *const u32,
            config_length: usize,
            image: *const u32,
            image_length: usize,
            file: *mut u8,
            file_length: usize,
        ) -> u32;
        #[link_name = "flat_assemble"]
        pub fn assemble(
            config: *const u32,
            config_length: usize,
            text: *const u8,
            text_length: usize,
            words: *mut u32,
            words_length: usize,
            answers: *mut u64,
            answers_length: usize,
        ) -> u32;
    }
}

/// The library's names, or those of what stands in its place, as the bindings for Rust declare them.
#[cfg(any(feature = "library", feature = "plain"))]
mod library {
    pub use yam::raw::{
        yam_assemble as assemble, yam_check as check, yam_list as list, yam_load as load, yam_read as read, yam_reset as reset,
        yam_run as run, yam_step as step, yam_store as store, yam_text as text, yam_write as write,
    };
}

/// A type whose calls are the C functions of this module.
macro_rules! c_interface {
    ($(#[$about:meta])* $name:ident, $c:ident) => {
        $(#[$about])*
        pub struct $name;

        // Each call is given pointers and lengths of whole slices, lent for the time of the call; a slice that it may write is lent to it alone.
        impl Calls for $name {
            #[inline(always)]
            fn read(&self, config: &[u32], word: u32, instruction: &mut [u32]) -> u32 {
                unsafe { $c::read(config.as_ptr(), config.len(), word, instruction.as_mut_ptr(), instruction.len()) }
            }

            #[inline(always)]
            fn write(&self, config: &[u32], instruction: &[u32], answers: &mut [u64]) -> u32 {
                unsafe {
                    $c::write(
                        config.as_ptr(),
                        config.len(),
                        instruction.as_ptr(),
                        instruction.len(),
                        answers.as_mut_ptr(),
                        answers.len(),
                    )
                }
            }

            #[inline(always)]
            fn reset(&self, machine: &mut [u32]) -> u32 {
                unsafe { $c::reset(machine.as_mut_ptr(), machine.len()) }
            }

            #[inline(always)]
            fn step(&self, config: &[u32], image: &[u32], inputs: &[u32], state: State, answers: &mut [u64]) -> u32 {
                unsafe {
                    $c::step(
                        config.as_ptr(),
                        config.len(),
                        image.as_ptr(),
                        image.len(),
                        inputs.as_ptr(),
                        inputs.len(),
                        state.machine.as_mut_ptr(),
                        state.machine.len(),
                        state.registers.as_mut_ptr(),
                        state.registers.len(),
                        state.memory.as_mut_ptr(),
                        state.memory.len(),
                        state.log_addresses.as_mut_ptr(),
                        state.log_addresses.len(),
                        state.log_values.as_mut_ptr(),
                        state.log_values.len(),
                        answers.as_mut_ptr(),
                        answers.len(),
                    )
                }
            }

            #[inline(always)]
            fn run(&self, config: &[u32], image: &[u32], inputs: &[u32], state: State, budget: u64, answers: &mut [u64]) -> u32 {
                unsafe {
                    $c::run(
                        config.as_ptr(),
                        config.len(),
                        image.as_ptr(),
                        image.len(),
                        inputs.as_ptr(),
                        inputs.len(),
                        state.machine.as_mut_ptr(),
                        state.machine.len(),
                        state.registers.as_mut_ptr(),
                        state.registers.len(),
                        state.memory.as_mut_ptr(),
                        state.memory.len(),
                        state.log_addresses.as_mut_ptr(),
                        state.log_addresses.len(),
                        state.log_values.as_mut_ptr(),
                        state.log_values.len(),
                        budget,
                        answers.as_mut_ptr(),
                        answers.len(),
                    )
                }
            }

            #[inline(always)]
            fn check(&self, config: &[u32], image: &[u32], sheet: &[u8], answers: &mut [u64]) -> u32 {
                unsafe {
                    $c::check(
                        config.as_ptr(),
                        config.len(),
                        image.as_ptr(),
                        image.len(),
                        sheet.as_ptr(),
                        sheet.len(),
                        answers.as_mut_ptr(),
                        answers.len(),
                    )
                }
            }

            #[inline(always)]
            fn text(&self, config: &[u32], word: u32, page: &mut [u8], place: u64, answers: &mut [u64]) -> u32 {
                unsafe {
                    $c::text(
                        config.as_ptr(),
                        config.len(),
                        word,
                        page.as_mut_ptr(),
                        page.len(),
                        place,
                        answers.as_mut_ptr(),
                        answers.len(),
                    )
                }
            }

            #[inline(always)]
            fn list(&self, config: &[u32], image: &[u32], first: u64, page: &mut [u8], place: u64, answers: &mut [u64]) -> u32 {
                unsafe {
                    $c::list(
                        config.as_ptr(),
                        config.len(),
                        image.as_ptr(),
                        image.len(),
                        first,
                        page.as_mut_ptr(),
                        page.len(),
                        place,
                        answers.as_mut_ptr(),
                        answers.len(),
                    )
                }
            }

            #[inline(always)]
            fn load(&self, file: &[u8], config: &mut [u32], image: &mut [u32]) -> u32 {
                unsafe { $c::load(file.as_ptr(), file.len(), config.as_mut_ptr(), config.len(), image.as_mut_ptr(), image.len()) }
            }

            #[inline(always)]
            fn store(&self, config: &[u32], image: &[u32], file: &mut [u8]) -> u32 {
                unsafe { $c::store(config.as_ptr(), config.len(), image.as_ptr(), image.len(), file.as_mut_ptr(), file.len()) }
            }

            #[inline(always)]
            fn assemble(&self, config: &[u32], text: &[u8], words: &mut [u32], answers: &mut [u64]) -> u32 {
                unsafe {
                    $c::assemble(
                        config.as_ptr(),
                        config.len(),
                        text.as_ptr(),
                        text.len(),
                        words.as_mut_ptr(),
                        words.len(),
                        answers.as_mut_ptr(),
                        answers.len(),
                    )
                }
            }
        }
    };
}

c_interface! {
    /// The plain C programs.
    Plain, flat
}

#[cfg(any(feature = "library", feature = "plain"))]
c_interface! {
    /// The library, or what stands in its place.
    Library, library
}
