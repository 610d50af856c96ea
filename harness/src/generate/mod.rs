//! Inputs for the calls: valid ones, and ones damaged in a place or two.

pub mod configs;
pub mod contexts;
pub mod files;
pub mod programs;
pub mod sources;
pub mod spread;
pub mod states;
pub mod sums;
pub mod words;
