//! A model of the YAM core, written from the manual and documents 01 and 02 and not from the definitions in the crates' `specs/`, to
//! compare the library with. Clear rather than fast.
//!
//! What its authors had read, as far as that is written down (docs/landings/base-5-interface.md): the author of all but `assemble` and
//! `programs` had also read the design paper, README and docs/DECISIONS.md, so decisions on open points are shared with the definitions and
//! not found a second time. The numbers of rows and the layouts of records are the library's, as include/yam.h gives them. Of `assemble`
//! nothing is written down but that it is from document 02's words; it came with the assembler, in one landing. `programs`, and the order of
//! 18 and 23 in `listing`, are by someone who had the repository, with definitions and programs, at hand. `commands`, `forms`, `report` and
//! `trace` are from docs/commands.md, by someone who had opened no file of the crates, before the programs were there. The plain C programs
//! have the model's authors: that they agree with it tells little. Outside vectors are another reading.

pub mod alu;
pub mod assemble;
pub mod commands;
pub mod config;
pub mod forms;
pub mod image;
pub mod listing;
pub mod machine;
pub mod programs;
pub mod report;
pub mod rows;
pub mod sheet;
pub mod step;
pub mod text;
pub mod trace;
pub mod words;

mod calls;
pub use calls::Model;
