//! The plain reader: document 01, and of document 02 the business meter (M-100), the small season letters (M-101), the place
//! of a refusal (M-104) and the frame number (M-108), as one writes them in Rust for speed, with state that is changed in
//! place.
//!
//! It is what the proved reader is measured against, so it is neither slowed down nor driven to the utmost: safe code,
//! and no tables but those that the compiler makes of a `match`. What makes the proved reader quick it has too, where that
//! helps it: eight characters tested and laid at once, the kind of data by eights, the digits of a stamp at once, LF and CR
//! looked for first. One walk for sum and separator it has not: two are quicker here.

pub mod business;
pub mod group;
pub mod line;
mod stamp;
pub mod station;
pub mod table;
pub mod wire;
