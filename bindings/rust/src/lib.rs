//! The YAM core model in Rust, over the proved library's C interface (include/yam.h). The
//! documents' numbers of refusal are errors ([`Refused`]); no call panics, whatever it is given.
//!
//! ```
//! # fn main() -> Result<(), yam::Refused> {
//! let config = yam::Config { im_size: 2, ..yam::Config::default() };
//! let image = yam::Image { words: config.assemble("MOV %01,#0005\nhalt: JMP 000001")?, config };
//! assert_eq!(image.listing()?, "000000 a2810005 MOV %01,#0005\n000001 c0000001 JMP 000001\n");
//! assert_eq!(image.check(&[0, 0])?, 0);
//! let mut machine = yam::Machine::new(&image)?;
//! let ran = machine.run(3)?;
//! assert_eq!((ran.steps, ran.cycles, machine.registers()[1]), (3, 6, 5));
//! # Ok(())
//! # }
//! ```

mod calls;
mod config;
mod image;
mod instruction;
mod machine;
pub mod raw;
mod record;
mod refusals;
mod refused;
mod trace;

pub use config::Config;
pub use image::Image;
pub use instruction::Instruction;
pub use machine::{Machine, Ran};
pub use record::Record;
pub use refusals::Refusal;
pub use refused::{Place, Refused};
pub use trace::{Change, Step, Trace};

/// The version of the interface, as include/yam.h has it.
pub const VERSION: &str = env!("CARGO_PKG_VERSION");
/// How many words a configuration, a machine record and an instruction have.
pub const CONFIG_WORDS: usize = 19;
pub const MACHINE_WORDS: usize = 100;
pub const INSTRUCTION_WORDS: usize = 6;
/// How many addresses a record's return stack has room for.
pub const STACK_WORDS: usize = 63;
/// The most words that an image has in a lawful configuration, and the most steps of a run.
pub const MOST_WORDS: usize = 32_768;
pub const MOST_STEPS: u64 = 1_000_000;
