//! Document 01's sentences and figures, and those of document 02's requests that stand, tried through the bindings.
//!
//! 18, "sheet under 1,096 bytes", can't be reached from here: a round brings its own sheet. The crate's own tests, in
//! src/boundary.rs, hand in a shorter one, and look at the bytes of entries.

#![forbid(unsafe_code)] // a caller needs none

mod frames;
mod groups;
mod lines;
mod noise;
mod places;
mod station;
mod wire;
mod words;
