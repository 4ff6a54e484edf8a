//! A second reader of customer telemetry, written from documents 01 and 02, and
//! from document 003 where 02 refers to it, and a comparer that holds other
//! programs against it.
//!
//! It works on whole captures and whole histories, and shares nothing with
//! any first implementation.

pub mod business;
pub mod captures;
pub mod compare;
pub mod dice;
pub mod drafts;
pub mod followed;
pub mod formats;
pub mod frame_tally;
pub mod group;
pub mod hexadecimal;
pub mod histories;
pub mod line;
pub mod listing;
pub mod long_history;
pub mod near_labels;
pub mod near_misses;
pub mod noise;
pub mod numbers;
mod partings;
pub mod pasts;
pub mod programs;
pub mod recovery;
pub mod recovery_tally;
pub mod replay;
pub mod station;
pub mod table;
pub mod tally;
pub mod wire;
pub mod wrong_places;

#[cfg(test)]
mod figures;
