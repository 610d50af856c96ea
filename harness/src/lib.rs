//! Compares the proved library, through its C interface, with an independent model, and its speed with plain programs in C.

pub mod c_interface;
pub mod calls;
pub mod cases;
pub mod commands;
pub mod compare;
pub mod contexts;
pub mod demand;
pub mod document;
pub mod document_bytes;
pub mod document_contexts;
pub mod document_index;
pub mod document_sums;
pub mod document_targets;
pub mod document_texts;
pub mod edges;
pub mod generate;
pub mod indexes;
pub mod inputs;
pub mod json;
pub mod model;
pub mod places;
pub mod processes;
pub mod programs;
pub mod random;
pub mod refusals;
pub mod runs;
pub mod seen;
pub mod shrink;
pub mod signatures;
pub mod speed;
#[cfg(any(feature = "library", feature = "plain"))]
pub mod stack;
pub mod sums;
pub mod sums_seen;
pub mod superseded;
pub mod texts;
#[cfg(test)]
mod trials;
#[cfg(test)]
mod trials_contexts;
#[cfg(test)]
mod trials_steps;
#[cfg(test)]
mod trials_sums;
pub mod vector_parts;
pub mod vectors;
pub mod walk;

/// What is compared with the model: the library, or what stands in its place.
#[cfg(any(feature = "library", feature = "plain"))]
pub const LIBRARY: Option<&dyn calls::Calls> = Some(&c_interface::Library);
#[cfg(not(any(feature = "library", feature = "plain")))]
pub const LIBRARY: Option<&dyn calls::Calls> = None;

/// What it is called in print.
pub const LIBRARY_NAME: &str = if cfg!(feature = "plain") { "plain programs, in the library's place" } else { "library" };

/// How many differences of a kind are printed.
pub const SHOWN: usize = 5;
