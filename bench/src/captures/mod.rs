//! Captures that are made up, always the same ones: a mode's letter, then the wire bytes of one line.
//!
//! A shorter capture is the front of a longer one of its kind, so that what a run costs over two lengths tells what
//! the bytes between them cost.

mod business;
pub mod dice;
pub mod groups;
mod noise;

use crate::plain::table::Mode;
use crate::plain::wire::control;
use dice::Dice;

#[derive(Clone, Copy)]
pub enum Kind {
    /// Right frames with a group of every standard label.
    Standard,
    /// The same in historic mode.
    Historic,
    /// The same of a business meter.
    Business,
    /// Standard frames whose groups and bytes came to harm.
    Noisy,
    /// The same of a business meter. Nothing is measured on it: it shows that both readers refuse alike.
    NoisyBusiness,
}

impl Kind {
    pub fn from_name(name: &str) -> Option<Kind> {
        match name {
            "standard" => Some(Kind::Standard),
            "historic" => Some(Kind::Historic),
            "business" => Some(Kind::Business),
            "noisy" => Some(Kind::Noisy),
            "noisy-business" => Some(Kind::NoisyBusiness),
            _ => None,
        }
    }
}

/// A capture with this many wire bytes behind its letter; the last frame is cut off where they end.
pub fn make(kind: Kind, length: usize) -> Vec<u8> {
    let mut dice = Dice::new(1);
    let letter = match kind {
        Kind::Historic => b'H',
        Kind::Standard | Kind::Noisy => b'S',
        Kind::Business | Kind::NoisyBusiness => b'P',
    };
    let mut capture = vec![letter];
    while capture.len() < 1 + length {
        let frame = match kind {
            Kind::Standard => sound_frame(Mode::Standard, &mut dice),
            Kind::Historic => sound_frame(Mode::Historic, &mut dice),
            Kind::Business => sound_frame(Mode::Business, &mut dice),
            Kind::Noisy => noise::frame(Mode::Standard, &mut dice),
            Kind::NoisyBusiness => noise::frame(Mode::Business, &mut dice),
        };
        capture.extend(frame);
    }
    capture.truncate(1 + length);
    capture
}

/// A frame with a right group of each label of the mode.
fn sound_frame(mode: Mode, dice: &mut Dice) -> Vec<u8> {
    let mut frame = vec![control::START_OF_TEXT];
    for label in groups::labels(mode) {
        frame.extend(groups::wire_of(&groups::right_content(mode, label, dice)));
    }
    frame.push(control::END_OF_TEXT);
    frame
}
