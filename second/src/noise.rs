//! Made-up bursts of noise, and what comes behind them (document 02, M-113):
//! traffic, and histories of lines that have it.

use crate::captures::group_on_wire;
use crate::drafts::Generator;
use crate::histories::Item;
use crate::pasts::{pasts_of, places_of_sound_starts, Past, PASTS};
use crate::recovery::{Pair, Period, Stream};
use crate::replay::{perform, Call, Reply};
use crate::station::{Station, INBOX_SIZE, LINES, SMALLEST_SHEET};
use crate::table::{Mode, MODES};
use crate::wire::{to_wire, END_OF_TEXT, END_OF_TRANSMISSION, LINE_FEED, START_OF_TEXT};

/// A history of streams has no more calls than this.
const MOST_CALLS: usize = 160;
/// A second history has no more fresh lines than this, so that others are left.
const MOST_FRESH: usize = 6;

impl Generator {
    /// Some frames, a burst of noise, and frames again, once or twice over.
    pub fn noisy_traffic(&mut self, mode: Mode) -> Vec<u8> {
        let mut wire = Vec::new();
        for _ in 0..self.dice.between(1, 2) {
            if self.dice.percent(40) {
                wire.extend(self.frame(mode));
            }
            wire.extend(self.burst(mode));
            for _ in 0..self.dice.between(1, 2) {
                wire.extend(self.frame_after_noise(mode));
            }
        }
        wire
    }

    /// A frame of few groups, most of them right.
    fn frame_after_noise(&mut self, mode: Mode) -> Vec<u8> {
        let mut wire = vec![to_wire(START_OF_TEXT)];
        for _ in 0..self.dice.below(4) {
            let mut draft = self.right_draft(mode);
            if self.dice.percent(15) {
                draft = self.wrong_somewhere_draft(mode);
            }
            wire.extend(group_on_wire(&draft.content()));
        }
        if self.dice.percent(90) {
            wire.push(to_wire(END_OF_TEXT));
        }
        wire
    }

    /// Noise on a quiet line, or over a frame, and where it ends: anywhere in the
    /// frame, in a group that it opened, or outside.
    fn burst(&mut self, mode: Mode) -> Vec<u8> {
        let mut wire = match self.dice.below(12) {
            0 => {
                self.note("noise on a quiet line");
                let length = self.dice.between(1, 70);
                (0..length).map(|_| self.dice.byte()).collect()
            }
            1 | 2 => {
                self.note("noise in a group that does not end");
                let mut wire = vec![to_wire(START_OF_TEXT), to_wire(LINE_FEED)];
                let length = self.dice.between(120, 200);
                wire.extend((0..length).map(|_| to_wire(self.dice.between(0x20, 0x7E) as u8)));
                if self.dice.percent(40) {
                    let place = self.dice.between(2, wire.len() - 1);
                    wire[place] ^= 0x80;
                }
                return wire;
            }
            _ => {
                let mut frame = self.frame(mode);
                self.spoil_by_noise(&mut frame);
                frame
            }
        };
        match self.dice.below(10) {
            0 => wire.push(to_wire(END_OF_TEXT)),
            1 => wire.push(to_wire(END_OF_TRANSMISSION)),
            2 | 3 => wire.push(to_wire(LINE_FEED)),
            4..=7 => {
                self.note("noise: the end of a frame lost");
                let length = self.dice.below(wire.len() + 1);
                wire.truncate(length);
            }
            _ => {}
        }
        wire
    }

    /// Lays noise over a stretch of a frame.
    fn spoil_by_noise(&mut self, wire: &mut Vec<u8>) {
        if wire.is_empty() {
            return;
        }
        let begin = self.dice.below(wire.len());
        let end = (begin + self.dice.between(1, 40)).min(wire.len());
        match self.dice.below(7) {
            0 => {
                self.note("noise: random bytes");
                for byte in &mut wire[begin..end] {
                    *byte = self.dice.byte();
                }
            }
            1 => {
                self.note("noise: random sound bytes");
                for byte in &mut wire[begin..end] {
                    *byte = to_wire(self.dice.byte());
                }
            }
            2 => {
                self.note("noise: parity bits turned over");
                for byte in &mut wire[begin..end] {
                    *byte ^= [0, 0x80][self.dice.below(2)];
                }
            }
            3 => {
                self.note("noise: bytes lost");
                wire.drain(begin..end);
            }
            4 => {
                self.note("noise: STX damaged");
                wire[0] ^= 1 << self.dice.below(8);
            }
            5 => {
                self.note("noise: a false STX");
                wire[begin] = to_wire(START_OF_TEXT);
            }
            _ => {
                self.note("noise: random bytes with a false STX");
                for byte in &mut wire[begin..end] {
                    *byte = self.dice.byte();
                }
                let place = self.dice.between(begin, end - 1);
                wire[place] = to_wire(START_OF_TEXT);
            }
        }
    }

    /// One sound STX of these bytes, if there is any. Of the kinds of past that
    /// the bytes have before an STX each is as likely as the others, but those that
    /// every line has are mostly left out.
    pub fn start_to_try(&mut self, mode: Mode, wire: &[u8]) -> Option<usize> {
        let starts: Vec<_> = places_of_sound_starts(wire)
            .into_iter()
            .map(|place| (place, pasts_of(mode, &wire[..place])))
            .collect();
        let of_past = |past| -> Vec<usize> {
            let with_past = starts.iter().filter(|(_, pasts)| pasts.contains(&past));
            with_past.map(|(place, _)| *place).collect()
        };
        let (common, rare): (Vec<_>, Vec<_>) = PASTS
            .into_iter()
            .map(|(past, _)| (past, of_past(past)))
            .filter(|(_, places)| !places.is_empty())
            .partition(|(past, _)| matches!(past, Past::NoFrameYet | Past::AfterEnd));
        let choices = match rare.is_empty() || (!common.is_empty() && self.dice.percent(15)) {
            true => common,
            false => rare,
        };
        if choices.is_empty() {
            return None;
        }
        let (_, places) = self.dice.pick(&choices);
        Some(*self.dice.pick(places))
    }
}

/// A second history: it opens lines afresh for bytes that others of a first history
/// had from an STX on.
pub struct SecondHistory {
    pub items: Vec<Item>,
    pub pairs: Vec<Pair>,
}

/// A history of streams in the making.
struct Maker<'generator> {
    generator: &'generator mut Generator,
    station: Station,
    calls: Vec<Call>,
}

impl Maker<'_> {
    /// Makes a call, and tells whether it was accepted.
    fn make(&mut self, call: Call) -> bool {
        let reply = perform(&mut self.station, &call);
        self.calls.push(call);
        matches!(
            reply,
            Reply::Opened { number: 0 }
                | Reply::Delivered { number: 0 }
                | Reply::Rounded { number: 0, .. }
        )
    }

    /// Opens a line in any mode and delivers something to it.
    fn busy(&mut self, line: usize) {
        let mode = self.generator.mode();
        let mut bytes = self.generator.noisy_traffic(mode);
        bytes.truncate(self.generator.dice.between(1, 120));
        let line = line as u8;
        self.make(Call::Open {
            line,
            mode: mode.number(),
        });
        self.make(Call::Deliver { line, bytes });
    }

    fn round(&mut self) {
        let size = match self.generator.dice.below(20) {
            0 => SMALLEST_SHEET - 1,
            1 => SMALLEST_SHEET + 1,
            _ => SMALLEST_SHEET,
        };
        let fill = self.generator.dice.byte();
        self.make(Call::Round { size, fill });
    }

    /// Delivers some of these bytes, and tells how many, none where there is no
    /// room for them.
    fn deliver(&mut self, line: usize, wire: &[u8]) -> usize {
        let line = line as u8;
        let room = INBOX_SIZE - self.station.inbox_length(line).unwrap_or(0);
        let length = match self.generator.dice.below(10) {
            0 => 1,
            1 => room,
            2 => room + 1,
            3 => 0,
            _ => self.generator.dice.between(1, 70),
        };
        let bytes = wire[..length.min(wire.len())].to_vec();
        let length = bytes.len();
        match self.make(Call::Deliver { line, bytes }) {
            true => length,
            false => 0,
        }
    }
}

impl Generator {
    /// A history with noise on some of its lines, up to all of them.
    pub fn noisy_history(&mut self) -> Vec<Item> {
        let lines = self.lines_in_any_order();
        let count = self.dice.between(4, LINES);
        let streams: Vec<Stream> = lines[..count]
            .iter()
            .map(|line| {
                let mode = *self.dice.pick(&MODES);
                let wire = self.noisy_traffic(mode);
                Stream {
                    line: *line,
                    mode,
                    wire,
                }
            })
            .collect();
        self.history_of_streams(&streams).0
    }

    /// A second history for some of these lines that took a sound STX, each at one
    /// of its STX; none where no line took one and a byte behind it.
    pub fn second_history(&mut self, periods: &[Period]) -> Option<SecondHistory> {
        let mut lines = self.lines_in_any_order();
        let first = self.dice.below(periods.len().max(1));
        let mut streams = Vec::new();
        let mut starts = Vec::new();
        for period in periods.iter().cycle().skip(first).take(periods.len()) {
            let Some((_, before_last)) = period.taken_bytes().split_last() else {
                continue;
            };
            let Some(start) = self.start_to_try(period.mode, before_last) else {
                continue;
            };
            if streams.len() < MOST_FRESH {
                streams.push(Stream {
                    line: lines.pop().expect("fewer streams than lines"),
                    mode: period.mode,
                    wire: period.delivered[start..].to_vec(),
                });
                starts.push((period.opened_by, start));
            }
        }
        if streams.is_empty() {
            return None;
        }
        let (items, openings) = self.history_of_streams(&streams);
        let pairs = starts
            .into_iter()
            .zip(openings)
            .map(|((opened_by, start), fresh_by)| Pair {
                opened_by,
                start,
                fresh_by,
            })
            .collect();
        Some(SecondHistory { items, pairs })
    }

    /// A history in which each stream's line is opened and gets its bytes, cut into
    /// deliveries and rounds as it falls out, while other lines do something else.
    /// Most lines were open before, and stood anywhere. Tells which calls opened
    /// the streams' lines.
    fn history_of_streams(&mut self, streams: &[Stream]) -> (Vec<Item>, Vec<usize>) {
        let mut maker = Maker {
            generator: self,
            station: Station::new(),
            calls: Vec::new(),
        };
        for line in 0..LINES {
            if maker.generator.dice.percent(60) {
                maker.busy(line);
            }
        }
        for _ in 0..maker.generator.dice.below(6) {
            maker.round();
        }
        let others: Vec<usize> = (0..LINES)
            .filter(|line| streams.iter().all(|stream| stream.line != *line))
            .collect();
        let mut openings = Vec::new();
        let mut delivered = vec![0; streams.len()];
        while maker.calls.len() < MOST_CALLS {
            if openings.len() < streams.len() && maker.generator.dice.percent(40) {
                let stream = &streams[openings.len()];
                openings.push(maker.calls.len());
                maker.make(Call::Open {
                    line: stream.line as u8,
                    mode: stream.mode.number(),
                });
                continue;
            }
            let left: Vec<usize> = (0..openings.len())
                .filter(|index| delivered[*index] < streams[*index].wire.len())
                .collect();
            match maker.generator.dice.below(20) {
                0 if !others.is_empty() => {
                    let line = *maker.generator.dice.pick(&others);
                    maker.busy(line);
                }
                1..=9 if !left.is_empty() => {
                    let index = *maker.generator.dice.pick(&left);
                    let stream = &streams[index];
                    delivered[index] +=
                        maker.deliver(stream.line, &stream.wire[delivered[index]..]);
                }
                _ => maker.round(),
            }
            let waits = |stream: &Stream| maker.station.inbox_length(stream.line as u8) != Some(0);
            if openings.len() == streams.len() && left.is_empty() && !streams.iter().any(waits) {
                break;
            }
        }
        let items = maker.calls.into_iter().map(Item::Call).collect();
        (items, openings)
    }

    fn lines_in_any_order(&mut self) -> Vec<usize> {
        let mut lines: Vec<usize> = (0..LINES).collect();
        for index in 0..LINES {
            let other = self.dice.between(index, LINES - 1);
            lines.swap(index, other);
        }
        lines
    }
}
