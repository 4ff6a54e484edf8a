//! The stack that each call of include/espandim.h takes, painted and read back.
//!
//! A call's bytes are those from its arguments, as far as they go on the stack, and the return address down to the
//! lowest that it writes, itself or by what it calls; memcpy of the C library is in it, and nothing of the caller is.
//! What a function sets aside there and never writes, below all that it writes, can't be seen so.

mod calls;
mod painted;

use crate::captures::groups::content;
use crate::captures::{self, Kind};
use crate::ours::Station;
use crate::plain::station::{INBOX, LINES, SHEET};
use crate::plain::table::Mode;
use crate::plain::wire::{character_of, control};
use crate::worst;
use calls::Calls;

/// What a call writes may happen to be the paint. The same calls, which write the same bytes, are made with both of
/// these, and no byte is both.
const PAINTS: [u8; 2] = [0xA5, 0x5A];

/// The wire bytes of a capture.
const CAPTURE: usize = 200_000;
/// The bytes of a delivery: the fewest, as many as a turn takes, and the most.
const DELIVERIES: [usize; 3] = [1, worst::TURN, INBOX];
/// LF, the longest content and CR.
const LONGEST_GROUP: usize = 130;
const MODE_UNKNOWN: u32 = 3;

/// The names of the calls, each with the most bytes that it took.
pub fn table() -> [(&'static str, usize); 5] {
    let mut calls = Calls::new();
    let [mut most, others] = PAINTS.map(|paint| taken_with(paint, &mut calls));
    for ((_, bytes), (_, other)) in most.iter_mut().zip(others) {
        *bytes = other.max(*bytes);
    }
    most
}

/// The same with stacks that are painted so.
fn taken_with(paint: u8, calls: &mut Calls) -> [(&'static str, usize); 5] {
    for (_, _, stack) in calls.each() {
        stack.paint(paint);
    }
    make_all(calls);
    calls.each().map(|(name, numbers, stack)| {
        for &number in numbers {
            assert!(stack.has_answered(number), "{name} never gave {number}");
        }
        (name, stack.taken())
    })
}

fn make_all(calls: &mut Calls) {
    make_worst_round(calls);
    for (kind, mode) in [
        (Kind::Standard, Mode::Standard),
        (Kind::Historic, Mode::Historic),
        (Kind::Business, Mode::Business),
        (Kind::Noisy, Mode::Standard),
    ] {
        let capture = captures::make(kind, CAPTURE);
        let wire = &capture[1..];
        for delivery in DELIVERIES {
            read(calls, mode, wire, delivery);
        }
        for group in wire.split(|&byte| byte == control::LINE_FEED) {
            judge_and_write(calls, mode, group);
        }
    }
}

fn make_worst_round(calls: &mut Calls) {
    let mut station: Station = worst::prepared();
    let mut counts = [0; LINES];
    calls.round(&mut station, &mut [0; SHEET], &mut counts);
    assert_eq!(counts, [worst::TURN as u8; LINES]);
}

/// Has eight lines read the wire bytes of a capture, each from another place on, in deliveries of so many bytes, with
/// calls among them that are refused.
fn read(calls: &mut Calls, mode: Mode, wire: &[u8], delivery: usize) {
    let mut station = Station::default();
    let (mut sheet, mut counts) = ([0; SHEET], [0; LINES]);
    calls.deliver(&mut station, 0, wire); // to a line that is closed
    calls.open(&mut station, LINES as u32, mode.number());
    calls.open(&mut station, 0, MODE_UNKNOWN);
    for line in 0..LINES {
        calls.open(&mut station, line as u32, mode.number());
    }
    let mut sources: Vec<_> = (0..LINES)
        .map(|line| {
            let (then, first) = wire.split_at(wire.len() * line / LINES);
            first
                .chunks(delivery)
                .chain(then.chunks(delivery))
                .peekable()
        })
        .collect();
    loop {
        for (line, source) in sources.iter_mut().enumerate() {
            // One that the inbox has no room for is made again after the round.
            source.next_if(|bytes| calls.deliver(&mut station, line as u32, bytes) == 0);
        }
        calls.deliver(&mut station, LINES as u32, &[]);
        calls.round(&mut station, &mut sheet[..SHEET - 1], &mut counts);
        calls.round(&mut station, &mut sheet, &mut counts);
        if counts == [0; LINES] {
            return;
        }
    }
}

/// Judges a group, in wire bytes, as it came. One that is accepted is judged and written anew, first right, and then
/// with one part after another wrong.
fn judge_and_write(calls: &mut Calls, mode: Mode, group: &[u8]) {
    let came: Vec<u8> = group
        .iter()
        .take_while(|&&byte| byte != control::CARRIAGE_RETURN)
        .map(|&byte| character_of(byte))
        .collect();
    let mut stretches = [0; 6];
    if calls.judge(mode.number(), &came, &mut stretches) != 1 {
        return;
    }
    let [label, stamp, data] = [0, 2, 4].map(|at| &came[stretches[at]..][..stretches[at + 1]]);
    let (unknown, longer) = ([label, b"?"].concat(), [data, b"0"].concat());
    let of_no_kind = vec![0; data.len()];
    let all: [[&[u8]; 3]; 6] = [
        [label, stamp, data],
        [&unknown, stamp, data],
        [label, b"", data],
        [label, b"H250230000000", data],
        [label, stamp, &longer],
        [label, stamp, &of_no_kind],
    ];
    let mut buffer = [0; LONGEST_GROUP];
    for fields in all {
        let [label, stamp, data] = fields;
        let stamp = (!stamp.is_empty()).then_some(stamp);
        let mut content = content(mode, label, stamp, data);
        for number in [0, 1, 2, MODE_UNKNOWN] {
            calls.judge(number, &content, &mut stretches);
            calls.write(number, fields, &mut buffer);
            calls.write(number, fields, &mut buffer[..1]);
        }
        if let Some(check) = content.last_mut() {
            *check ^= 1;
        }
        calls.judge(mode.number(), &content, &mut stretches);
    }
}
