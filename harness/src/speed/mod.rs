//! The library beside the plain C programs: times, and counts of instructions.

mod bounds;
mod count;
mod images;
mod programs;
mod runs;
mod texts;
mod times;

pub use bounds::{report_counts, Verdict};
pub use count::{count_all, INSIDE};

use crate::calls::Calls;

/// Times everything and prints it.
pub fn report_times<L: Calls>(library: &L, rounds: usize) -> Result<(), String> {
    println!("the {} beside plain C, {rounds} rounds, processor time; a run is 1,000,000 steps", crate::LIBRARY_NAME);
    runs::report_runs(library, rounds)?;
    runs::report_calls(library, rounds)?;
    times::line("read", "word", &images::read_words(library, rounds)?, None);
    for size in [8_192, 32_768] {
        for (name, times) in images::whole_images(library, size, rounds)? {
            times::line(&format!("{name}, IM_SIZE {size}"), "word", &times, None);
        }
    }
    texts::report(library, rounds)
}
