//! What may stand before an STX (document 02, M-113): "after any bytes at all".

use crate::followed::{stand_after, Stand};
use crate::group::LONGEST_CONTENT;
use crate::line::read_whole;
use crate::numbers::Answer;
use crate::table::Mode;
use crate::wire::{
    character_of, to_wire, END_OF_TEXT, END_OF_TRANSMISSION, LINE_FEED, START_OF_TEXT,
};

/// What a line has behind it when an STX comes; a past may be several of these.
#[derive(Clone, Copy, Debug, PartialEq, Eq, PartialOrd, Ord)]
pub enum Past {
    NoFrameYet,
    AfterEnd,
    AfterInterruption,
    Frame,
    FlawedFrame,
    EmptyGroup,
    GroupWithContent,
    DamagedGroup,
    OverlongGroup,
    GroupOfFlawedFrame,
    FrameBegunAgain,
}

pub const PASTS: [(Past, &str); 11] = [
    (Past::NoFrameYet, "no frame yet"),
    (Past::AfterEnd, "after ETX"),
    (Past::AfterInterruption, "after EOT"),
    (Past::Frame, "in a frame without a flaw"),
    (Past::FlawedFrame, "in a flawed frame"),
    (Past::EmptyGroup, "in an empty group"),
    (Past::GroupWithContent, "in a group with content"),
    (Past::DamagedGroup, "in a damaged group"),
    (Past::OverlongGroup, "in a group that is too long"),
    (Past::GroupOfFlawedFrame, "in a group of a flawed frame"),
    (
        Past::FrameBegunAgain,
        "in a frame that an STX had begun again",
    ),
];

/// The places of every sound STX.
pub fn places_of_sound_starts(wire: &[u8]) -> Vec<usize> {
    let start = to_wire(START_OF_TEXT);
    (0..wire.len())
        .filter(|place| wire[*place] == start)
        .collect()
}

/// What a line of this mode has behind it after these bytes.
pub fn pasts_of(mode: Mode, wire: &[u8]) -> Vec<Past> {
    let [start, end, interruption] = [START_OF_TEXT, END_OF_TEXT, END_OF_TRANSMISSION].map(to_wire);
    let is_control = |one: &u8| [start, end, interruption].contains(one);
    let Some(last) = wire.iter().rposition(is_control) else {
        return vec![Past::NoFrameYet];
    };
    if wire[last] == end {
        return vec![Past::AfterEnd];
    }
    if wire[last] == interruption {
        return vec![Past::AfterInterruption];
    }
    let frame = &wire[last..];
    let mut pasts = match stand_after(frame) {
        Stand::InGroup => pasts_in_group(mode, frame),
        _ if is_flawed(mode, frame) => vec![Past::FlawedFrame],
        _ => vec![Past::Frame],
    };
    let before = wire[..last].iter().rfind(|one| is_control(one));
    if before == Some(&start) {
        pasts.push(Past::FrameBegunAgain);
    }
    pasts
}

/// The same for a frame, from its STX on, in whose last group the line is.
fn pasts_in_group(mode: Mode, frame: &[u8]) -> Vec<Past> {
    let opened_at = frame
        .iter()
        .rposition(|one| *one == to_wire(LINE_FEED))
        .expect("a group is opened by LF");
    let group = &frame[opened_at + 1..];
    let content = group.iter().filter_map(|one| character_of(*one)).count();
    let damaged = content < group.len();
    let overlong = content > LONGEST_CONTENT;
    let mut pasts = Vec::new();
    if group.is_empty() {
        pasts.push(Past::EmptyGroup);
    }
    if content > 0 && !damaged && !overlong {
        pasts.push(Past::GroupWithContent);
    }
    if damaged {
        pasts.push(Past::DamagedGroup);
    }
    if overlong {
        pasts.push(Past::OverlongGroup);
    }
    if is_flawed(mode, &frame[..opened_at]) {
        pasts.push(Past::GroupOfFlawedFrame);
    }
    pasts
}

/// Whether a frame is flawed, from its STX on: an ETX behind it tells.
fn is_flawed(mode: Mode, frame: &[u8]) -> bool {
    let ended = [frame, &[to_wire(END_OF_TEXT)]].concat();
    let answers = read_whole(mode, &ended);
    let last = answers.last().map(|placed| &placed.answer);
    last == Some(&Answer::FrameEnded { flawed: true })
}
