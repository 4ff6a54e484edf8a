//! A station whose lines are kept busy: every line reads the whole capture, and each begins at another place of it, so
//! that the lines do not answer in step.

use crate::plain::station::{INBOX, LINES, SHEET};
use crate::plain::table::Mode;
use crate::stations::{Aligned, Station};

/// The bytes of one delivery.
const DELIVERY: usize = 64;

/// Is told of every call's answer, and of the sheet and the counts as they are after every round.
pub trait Witness {
    fn see_answer(&mut self, answer: u32);
    fn see_round(&mut self, sheet: &[u8; SHEET], counts: &[u8; LINES]);
}

/// Adds a few numbers up: just enough that no call can be left out.
#[derive(Default)]
pub struct Sum(pub u64);

impl Witness for Sum {
    #[inline(always)]
    fn see_answer(&mut self, answer: u32) {
        self.0 += u64::from(answer);
    }

    #[inline(always)]
    fn see_round(&mut self, sheet: &[u8; SHEET], counts: &[u8; LINES]) {
        self.0 += u64::from(counts[0]) + u64::from(sheet[24]);
    }
}

/// Mixes every answer, every byte of every sheet and every count into one number (FNV-1a), with the bytes of a sheet
/// that a round leaves alone.
pub struct Hash(pub u64);

impl Default for Hash {
    fn default() -> Hash {
        Hash(0xCBF2_9CE4_8422_2325)
    }
}

impl Hash {
    fn mix(&mut self, bytes: &[u8]) {
        for &byte in bytes {
            self.0 = (self.0 ^ u64::from(byte)).wrapping_mul(0x0100_0000_01B3);
        }
    }
}

impl Witness for Hash {
    fn see_answer(&mut self, answer: u32) {
        self.mix(&answer.to_le_bytes());
    }

    fn see_round(&mut self, sheet: &[u8; SHEET], counts: &[u8; LINES]) {
        self.mix(sheet);
        self.mix(counts);
    }
}

/// What a line still has to read, and how much of it waits in its inbox.
#[derive(Clone, Copy, Default)]
struct Source<'capture> {
    first: &'capture [u8],
    then: &'capture [u8],
    waiting: usize,
}

impl<'capture> Source<'capture> {
    /// The next bytes to deliver, if there are any and the inbox has room for them.
    fn next(&mut self) -> Option<&'capture [u8]> {
        if self.first.is_empty() {
            self.first = std::mem::take(&mut self.then);
        }
        let length = self.first.len().min(DELIVERY);
        if length == 0 || length > INBOX - self.waiting {
            return None;
        }
        let (bytes, rest) = self.first.split_at(length);
        self.first = rest;
        self.waiting += length;
        Some(bytes)
    }
}

/// Feeds the wire bytes of a capture to so many lines, until the rounds have taken them all.
pub fn run<S: Station, W: Witness>(mode: Mode, wire: &[u8], lines: usize, witness: &mut W) {
    let mut station: Aligned<S> = Aligned::default();
    let mut sheet = Aligned([0; SHEET]);
    let mut counts = Aligned([0; LINES]);
    let (station, sheet, counts) = (&mut station.0, &mut sheet.0, &mut counts.0);
    let mut sources = [Source::default(); LINES];
    let sources = &mut sources[..lines];
    for (line, source) in sources.iter_mut().enumerate() {
        let (then, first) = wire.split_at(wire.len() * line / lines);
        *source = Source {
            first,
            then,
            waiting: 0,
        };
        witness.see_answer(station.open(line as u32, mode.number()));
    }
    loop {
        for (line, source) in sources.iter_mut().enumerate() {
            if let Some(bytes) = source.next() {
                witness.see_answer(station.deliver(line as u32, bytes));
            }
        }
        witness.see_answer(station.round(sheet, counts));
        witness.see_round(sheet, counts);
        let mut taken = 0;
        for (source, &count) in sources.iter_mut().zip(counts.iter()) {
            taken += usize::from(count);
            source.waiting -= usize::from(count);
        }
        if taken == 0 {
            return;
        }
    }
}
