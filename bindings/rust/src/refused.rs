//! The error of every call.

use crate::refusals::Refusal;
use std::fmt;

/// Where a call was refused, for those that say it.
#[derive(Clone, Copy, Debug, PartialEq, Eq)]
pub enum Place {
    /// The first address that breaks a rule of the certificate, and its lowest rule.
    Rule { address: u64, rule: u64 },
    /// The line of the source text, counted from 1.
    Line(u64),
    /// The steps of a run that were done before it was stopped, and their cycles. They are kept.
    Run { steps: u64, cycles: u64 },
}

/// A call was refused, or a step or run stopped.
#[derive(Clone, Copy, Debug, PartialEq, Eq)]
pub struct Refused {
    pub refusal: Refusal,
    pub place: Option<Place>,
}

impl Refused {
    /// The documents' number.
    pub const fn number(&self) -> u32 {
        self.refusal.number()
    }

    /// What the number means, in words.
    pub const fn meaning(&self) -> &'static str {
        self.refusal.meaning()
    }
}

impl fmt::Display for Refused {
    fn fmt(&self, f: &mut fmt::Formatter<'_>) -> fmt::Result {
        write!(f, "refused {}", self.number())?;
        match self.place {
            Some(Place::Rule { address, rule }) => write!(f, " address {address:06x} rule {rule}")?,
            Some(Place::Line(line)) => write!(f, " line {line}")?,
            Some(Place::Run { steps, cycles }) => {
                write!(f, " after {steps} steps, {cycles} cycles")?
            }
            None => {}
        }
        write!(f, ": {}", self.meaning())
    }
}

impl std::error::Error for Refused {}

/// What a call answered, by its number: a pass, or the refusal with its place.
pub(crate) fn passed(number: u32, place: Option<Place>) -> Result<(), Refused> {
    match Refusal::from_number(number) {
        None => Ok(()),
        Some(refusal) => Err(Refused { refusal, place }),
    }
}
