//! The books of a station's lines, kept from outside: a sheet shows neither the
//! group that it refuses nor where a line stands.

use crate::replay::{Call, Reply};
use crate::station::LINES;
use crate::table::Mode;
use crate::wire::{
    to_wire, CARRIAGE_RETURN, END_OF_TEXT, END_OF_TRANSMISSION, LINE_FEED, START_OF_TEXT,
};

/// The mode of a line, what was delivered to it since its opening, and how much
/// of it the rounds took.
#[derive(Default)]
pub struct FollowedLine {
    pub mode: Option<Mode>,
    pub delivered: Vec<u8>,
    pub taken: usize,
}

impl FollowedLine {
    /// The bytes that the rounds took.
    pub fn taken_bytes(&self) -> &[u8] {
        &self.delivered[..self.taken]
    }

    /// The bytes that lie in the inbox.
    pub fn waiting_bytes(&self) -> &[u8] {
        &self.delivered[self.taken..]
    }
}

/// "A line is outside, in a frame, or in a group."
#[derive(Clone, Copy, Debug, PartialEq, Eq, PartialOrd, Ord)]
pub enum Stand {
    Outside,
    InFrame,
    InGroup,
}

pub const STANDS: [(Stand, &str); 3] = [
    (Stand::Outside, "outside"),
    (Stand::InFrame, "in a frame"),
    (Stand::InGroup, "in a group"),
];

/// Where a line stands after these bytes: the last STX, ETX or EOT tells whether
/// outside, and what follows on an STX whether a group is open.
pub fn stand_after(wire: &[u8]) -> Stand {
    let [start, end, interruption] = [START_OF_TEXT, END_OF_TEXT, END_OF_TRANSMISSION].map(to_wire);
    let last = wire
        .iter()
        .rposition(|one| [start, end, interruption].contains(one));
    let frame = match last {
        Some(place) if wire[place] == start => &wire[place + 1..],
        _ => return Stand::Outside,
    };
    let [opening, closing] = [LINE_FEED, CARRIAGE_RETURN].map(to_wire);
    let bound = frame.iter().rfind(|one| [opening, closing].contains(one));
    match bound {
        Some(one) if *one == opening => Stand::InGroup,
        _ => Stand::InFrame,
    }
}

/// Keeps the books of the lines through one more call.
pub fn follow_call(lines: &mut [FollowedLine; LINES], call: &Call, reply: &Reply) {
    match (call, reply) {
        (Call::Open { line, mode }, Reply::Opened { number: 0 }) => {
            lines[usize::from(*line)] = FollowedLine {
                mode: Mode::from_number(*mode),
                ..FollowedLine::default()
            };
        }
        (Call::Deliver { line, bytes }, Reply::Delivered { number: 0 }) => {
            lines[usize::from(*line)].delivered.extend(bytes);
        }
        (_, Reply::Rounded { counts, .. }) => {
            for (line, count) in lines.iter_mut().zip(counts) {
                line.taken += usize::from(*count);
            }
        }
        _ => {}
    }
}
