//! The worst round: eight full inboxes, and each turn takes its 64 bytes, of which the last ends the longest group
//! that is accepted.
//!
//! That group is one of PJOURF+1: 8 characters of label, 98 of data, two separators and the check character are 109.
//! The first 46 come in a round before; the other 63 and CR are the 64 bytes of the turn.

use crate::captures::groups::{content, wire_of};
use crate::plain::station::{INBOX, LINES, SHEET};
use crate::plain::table::Mode;
use crate::plain::wire::control;
use crate::stations::{Aligned, Station};

/// The bytes of the longest turn.
pub const TURN: usize = 64;

/// A station one call before its worst round.
pub fn prepared<S: Station>() -> S {
    let group = wire_of(&content(Mode::Standard, b"PJOURF+1", None, &[b'~'; 98]));
    let (front, turn) = group.split_at(group.len() - TURN);
    let before = [&[control::START_OF_TEXT], front].concat();
    // Behind the turn's bytes the inbox is filled with the next groups.
    let full: Vec<u8> = turn
        .iter()
        .chain(group.iter().cycle())
        .copied()
        .take(INBOX)
        .collect();
    let mut station = S::default();
    let mut sheet = [0; SHEET];
    let mut counts = [0; LINES];
    for line in 0..LINES as u32 {
        assert_eq!(station.open(line, 1), 0);
        assert_eq!(station.deliver(line, &before), 0);
    }
    assert_eq!(station.round(&mut sheet, &mut counts), 0);
    assert_eq!(counts, [before.len() as u8; LINES]);
    for line in 0..LINES as u32 {
        assert_eq!(station.deliver(line, &full), 0);
        assert_eq!(station.deliver(line, &[0]), 15, "the inbox is full");
    }
    station
}

/// Makes the worst round so many times, each on a copy of the prepared station; or only the copies, so that a
/// difference of two runs is the rounds alone. Gives the last sheet.
pub fn run<S: Station>(times: usize, with_round: bool) -> [u8; SHEET] {
    let station: Aligned<S> = Aligned(prepared());
    let mut sheet = Aligned([0; SHEET]);
    let mut counts = [0; LINES];
    for _ in 0..times {
        let mut copy = std::hint::black_box(&station).clone();
        if with_round {
            copy.0.round(&mut sheet.0, &mut counts);
        }
        std::hint::black_box(&mut copy);
    }
    let sheet = sheet.0;
    if with_round && times > 0 {
        assert_eq!(counts, [TURN as u8; LINES], "each turn takes 64 bytes");
        assert_eq!(sheet[..LINES], counts, "and the sheet says so too");
        let accepted = [1, 8, 0, 98, 1, 0];
        assert_eq!(sheet[24..30], accepted, "and its group is accepted");
    }
    sheet
}
