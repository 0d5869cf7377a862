//! The two gates beside the schedule gate: that with the baseline profile, and
//! the contract side's.

pub mod answer;
pub mod case;
pub mod cases;
pub mod contract_draft;
pub mod files;
pub mod readings;
pub mod sights;
pub mod told;

use crate::baseline::BASELINE;
use crate::contract::CONTRACT;
use crate::gates::Gate;

#[derive(Clone, Copy, Debug, PartialEq, Eq, PartialOrd, Ord)]
pub enum Which {
    Baseline,
    Contract,
}

pub const BOTH: [Which; 2] = [Which::Baseline, Which::Contract];

impl Which {
    pub fn gate(self) -> &'static Gate {
        match self {
            Which::Baseline => &BASELINE,
            Which::Contract => &CONTRACT,
        }
    }

    /// As it is sent.
    pub fn number(self) -> u32 {
        match self {
            Which::Baseline => 1,
            Which::Contract => 2,
        }
    }

    pub fn numbered(number: u32) -> Option<Which> {
        BOTH.into_iter().find(|which| which.number() == number)
    }
}
