//! The C functions, as include/yam.h declares them. Everything else in this crate is safe.

extern "C" {
    pub fn yam_read(
        config: *const u32,
        config_length: usize,
        word: u32,
        instruction: *mut u32,
        instruction_length: usize,
    ) -> u32;
    pub fn yam_write(
        config: *const u32,
        config_length: usize,
        instruction: *const u32,
        instruction_length: usize,
        answers: *mut u64,
        answers_length: usize,
    ) -> u32;
    pub fn yam_reset(machine: *mut u32, machine_length: usize) -> u32;
    pub fn yam_step(
        config: *const u32,
        config_length: usize,
        image: *const u32,
        image_length: usize,
        inputs: *const u32,
        inputs_length: usize,
        machine: *mut u32,
        machine_length: usize,
        registers: *mut u32,
        registers_length: usize,
        memory: *mut u32,
        memory_length: usize,
        log_addresses: *mut u32,
        log_addresses_length: usize,
        log_values: *mut u32,
        log_values_length: usize,
        answers: *mut u64,
        answers_length: usize,
    ) -> u32;
    pub fn yam_run(
        config: *const u32,
        config_length: usize,
        image: *const u32,
        image_length: usize,
        inputs: *const u32,
        inputs_length: usize,
        machine: *mut u32,
        machine_length: usize,
        registers: *mut u32,
        registers_length: usize,
        memory: *mut u32,
        memory_length: usize,
        log_addresses: *mut u32,
        log_addresses_length: usize,
        log_values: *mut u32,
        log_values_length: usize,
        budget: u64,
        answers: *mut u64,
        answers_length: usize,
    ) -> u32;
    pub fn yam_check(
        config: *const u32,
        config_length: usize,
        image: *const u32,
        image_length: usize,
        certificate: *const u8,
        certificate_length: usize,
        answers: *mut u64,
        answers_length: usize,
    ) -> u32;
    pub fn yam_text(
        config: *const u32,
        config_length: usize,
        word: u32,
        page: *mut u8,
        page_length: usize,
        place: u64,
        answers: *mut u64,
        answers_length: usize,
    ) -> u32;
    pub fn yam_list(
        config: *const u32,
        config_length: usize,
        image: *const u32,
        image_length: usize,
        first: u64,
        page: *mut u8,
        page_length: usize,
        place: u64,
        answers: *mut u64,
        answers_length: usize,
    ) -> u32;
    pub fn yam_assemble(
        config: *const u32,
        config_length: usize,
        text: *const u8,
        text_length: usize,
        words: *mut u32,
        words_length: usize,
        answers: *mut u64,
        answers_length: usize,
    ) -> u32;
    pub fn yam_load(
        file: *const u8,
        file_length: usize,
        config: *mut u32,
        config_length: usize,
        image: *mut u32,
        image_length: usize,
    ) -> u32;
    pub fn yam_store(
        config: *const u32,
        config_length: usize,
        image: *const u32,
        image_length: usize,
        file: *mut u8,
        file_length: usize,
    ) -> u32;
}
