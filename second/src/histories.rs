//! Made-up histories of a box's calls.

use crate::captures::group_on_wire;
use crate::drafts::{Draft, Generator, Spoiling, EDGE_SIZES};
use crate::near_labels::MISSES_ALONE;
use crate::replay::{perform, Call, Reply};
use crate::station::{Station, INBOX_SIZE, LINES, SMALLEST_SHEET};
use crate::table::Mode;
use crate::wire::{to_wire, END_OF_TEXT, START_OF_TEXT};
use std::collections::VecDeque;

/// How many calls a history has.
pub const CALLS_IN_HISTORY: usize = 100;

const WRONG_LINES: [u8; 7] = [8, 9, 15, 16, 64, 128, 255];
const WRONG_MODES: [u8; 11] = [3, 3, 3, 4, 16, 48, 50, 80, 128, 130, 255];
/// 1,080 was enough before M-108.
const SHEET_SIZES: [usize; 10] = [0, 1, 23, 24, 1080, 1095, 1095, 1097, 2000, 4096];

/// One item of a log: a call, or bytes that are no whole record.
#[derive(Clone, Debug, PartialEq, Eq)]
pub enum Item {
    Call(Call),
    Raw(Vec<u8>),
}

impl Item {
    pub fn to_record(&self) -> Vec<u8> {
        match self {
            Item::Call(call) => call.to_record(),
            Item::Raw(bytes) => bytes.clone(),
        }
    }
}

/// The bytes of a whole log.
pub fn log_bytes(items: &[Item]) -> Vec<u8> {
    items.iter().flat_map(Item::to_record).collect()
}

/// What a history is mostly about.
#[derive(Clone, Copy, Debug, PartialEq, Eq)]
enum Plan {
    Mixed,
    Traffic,
    FullInboxes,
    TurnEdges,
    LongSheets,
    GroupsAlone,
}

/// The plans take turns, so that each has its share of the histories. Groups
/// alone stand four times, so that judging and writing meet every label, every
/// stamped one with each small season, every alternative, and labels that miss
/// one of the list in every way.
const PLANS: [Plan; 9] = [
    Plan::Mixed,
    Plan::GroupsAlone,
    Plan::Traffic,
    Plan::GroupsAlone,
    Plan::FullInboxes,
    Plan::GroupsAlone,
    Plan::TurnEdges,
    Plan::GroupsAlone,
    Plan::LongSheets,
];

/// The five calls, without their fields.
#[derive(Clone, Copy, Debug)]
enum CallName {
    Open,
    Deliver,
    Round,
    Judge,
    Write,
}

impl Plan {
    /// How often each call comes, out of a hundred.
    fn shares(self) -> [(CallName, usize); 5] {
        let [open, deliver, round, judge, write] = match self {
            Plan::Mixed => [10, 36, 28, 13, 13],
            Plan::Traffic => [2, 48, 46, 2, 2],
            Plan::FullInboxes => [3, 65, 28, 2, 2],
            Plan::TurnEdges => [16, 30, 50, 2, 2],
            Plan::LongSheets => [4, 40, 40, 8, 8],
            Plan::GroupsAlone => [2, 3, 3, 41, 51],
        };
        [
            (CallName::Open, open),
            (CallName::Deliver, deliver),
            (CallName::Round, round),
            (CallName::Judge, judge),
            (CallName::Write, write),
        ]
    }
}

/// A history in the making: the station tells the maker which lines are open
/// and how much room they have, so that the edges are met often.
struct Maker<'generator> {
    generator: &'generator mut Generator,
    plan: Plan,
    station: Station,
    modes: [Option<Mode>; LINES],
    /// What is still to come on each line.
    streams: [VecDeque<u8>; LINES],
    /// Where the plan of long sheets stands: first a delivery to each line,
    /// then rounds.
    step: usize,
    /// The least width of the groups of this plan.
    least_width: usize,
}

/// How many histories of groups alone come before the one of this number.
fn groups_alone_before(number: usize) -> usize {
    let plans = PLANS.iter().cycle().take(number);
    plans.filter(|plan| **plan == Plan::GroupsAlone).count()
}

/// How many of a hundred judged or written groups are right. Standard mode has
/// those with a small season besides.
fn share_of_right(mode: Mode) -> usize {
    match mode {
        Mode::Historic => 50,
        Mode::Standard => 38,
        Mode::Business => 65,
    }
}

/// In the plan of long sheets, so many rounds follow on the deliveries.
const ROUNDS_OF_LONG_SHEETS: usize = 4;

impl Generator {
    /// The history of this number: a hundred calls, now and then followed by
    /// something that cannot be read.
    pub fn history(&mut self, number: u64) -> Vec<Item> {
        let plan = PLANS[number as usize % PLANS.len()];
        // About as many groups of a mode are judged in a history of groups alone
        // as lie between the first turns of two of them.
        self.first_turn = groups_alone_before(number as usize) * 10;
        let mut maker = Maker {
            generator: self,
            plan,
            station: Station::new(),
            modes: [None; LINES],
            streams: Default::default(),
            step: 0,
            least_width: 0,
        };
        let openings = match plan {
            Plan::LongSheets => LINES,
            _ => maker.generator.dice.between(0, LINES),
        };
        let mut items = Vec::new();
        for index in 0..CALLS_IN_HISTORY {
            let call = if index < openings {
                maker.first_opening(index)
            } else {
                maker.next_call()
            };
            maker.follow(&call);
            items.push(Item::Call(call));
        }
        if self.dice.percent(12) {
            items.extend(self.unreadable_tail());
        }
        items
    }

    /// "A length over 4,096, an unknown letter or a record cut short", and an
    /// opening after it that must not be performed.
    fn unreadable_tail(&mut self) -> Vec<Item> {
        let opening = Item::Call(Call::Open { line: 0, mode: 0 });
        match self.dice.below(3) {
            0 => {
                self.note("log: unknown letter");
                let letter = *self.dice.pick(b"odrjwXPQSV0?\n\x00\xCF");
                vec![Item::Raw(vec![letter]), opening]
            }
            1 => {
                self.note("log: length over 4096");
                let length = *self.dice.pick(&[4097, 4098, 5000, 8192, 65535]);
                let [low, high] = u16::to_le_bytes(length);
                let mut record = match self.dice.below(4) {
                    0 => vec![b'D', 0, low, high],
                    1 => vec![b'R', low, high, 0],
                    2 => vec![b'J', 1, low, high],
                    _ => vec![b'W', 1, 0, 0, 0, low, high, 0],
                };
                if self.dice.percent(50) {
                    record.extend(vec![b'A'; usize::from(length)]);
                }
                vec![Item::Raw(record), opening]
            }
            _ => {
                self.note("log: record cut short");
                let call = match self.dice.below(5) {
                    0 => Call::Open { line: 0, mode: 1 },
                    1 => Call::Round {
                        size: SMALLEST_SHEET,
                        fill: 0,
                    },
                    2 => Call::Deliver {
                        line: 0,
                        bytes: vec![b'A'; 50],
                    },
                    3 => self.judging(),
                    _ => self.writing(),
                };
                let mut record = call.to_record();
                let length = self.dice.between(1, record.len() - 1);
                record.truncate(length);
                vec![Item::Raw(record)]
            }
        }
    }

    fn mode_number(&mut self, mode: Mode) -> u8 {
        match self.dice.below(100) {
            0..=3 => {
                self.note("call: unknown mode");
                *self.dice.pick(&WRONG_MODES)
            }
            4..=7 => self.other_mode(mode).number(),
            _ => mode.number(),
        }
    }

    fn judging(&mut self) -> Call {
        let mode = self.mode();
        let content = match self.dice.below(100) {
            drawn if drawn < share_of_right(mode) => {
                let deed = match mode {
                    Mode::Historic => "judging: right group, historic",
                    Mode::Standard => "judging: right group, standard",
                    Mode::Business => "judging: right group, business",
                };
                self.right_draft_in_turn(mode, deed).content()
            }
            0..=59 if mode == Mode::Standard => {
                self.note("judging: small season");
                self.degraded_draft().content()
            }
            75..=79 if mode == Mode::Business => {
                self.note("judging: group that goes wrong somewhere");
                self.wrong_somewhere_draft(mode).content()
            }
            0..=79 => {
                self.note("judging: spoilt group");
                let draft = self.spoilt_draft(
                    mode,
                    &[
                        Spoiling::Label,
                        Spoiling::Separator,
                        Spoiling::Stamp,
                        Spoiling::Stamp,
                        Spoiling::Season,
                        Spoiling::Width,
                        Spoiling::Kind,
                        Spoiling::Check,
                        Spoiling::HighBit,
                    ],
                );
                draft.content()
            }
            80..=86 => {
                self.note("judging: label that misses one of the list");
                self.near_label_draft(mode, &MISSES_ALONE).content()
            }
            87 | 88 => {
                self.note("judging: content of hardly any characters");
                self.short_content(mode)
            }
            89..=93 => {
                self.note("judging: group that goes wrong somewhere");
                self.wrong_somewhere_draft(mode).content()
            }
            94..=96 => {
                self.note("judging: content of an edge size");
                let length = *self.dice.pick(&EDGE_SIZES);
                self.sized_content(mode, length)
            }
            97 => {
                self.note("judging: noise");
                let length = self.dice.below(140);
                (0..length).map(|_| self.dice.byte()).collect()
            }
            _ => {
                self.note("judging: the longest contents of a log");
                let length = *self.dice.pick(&[1000, 4095, 4096]);
                self.sized_content(mode, length)
            }
        };
        Call::Judge {
            mode: self.mode_number(mode),
            content,
        }
    }

    fn writing(&mut self) -> Call {
        let mode = self.mode();
        let draft = match self.dice.below(100) {
            drawn if drawn < share_of_right(mode) => {
                let deed = match mode {
                    Mode::Historic => "writing: right fields, historic",
                    Mode::Standard => "writing: right fields, standard",
                    Mode::Business => "writing: right fields, business",
                };
                self.right_draft_in_turn(mode, deed)
            }
            0..=63 if mode == Mode::Standard => {
                self.note("writing: small season");
                self.degraded_draft()
            }
            93..=99 => {
                self.note("writing: label that misses one of the list");
                self.near_label_draft(mode, &MISSES_ALONE)
            }
            _ => {
                self.note("writing: spoilt fields");
                self.spoilt_draft(
                    mode,
                    &[
                        Spoiling::Label,
                        Spoiling::Stamp,
                        Spoiling::Stamp,
                        Spoiling::Season,
                        Spoiling::Width,
                        Spoiling::Kind,
                        Spoiling::HighBit,
                    ],
                )
            }
        };
        let size = self.buffer_size(&draft);
        let at_most_255 = |mut field: Vec<u8>| {
            field.truncate(255);
            field
        };
        Call::Write {
            mode: self.mode_number(mode),
            label: at_most_255(draft.label),
            stamp: at_most_255(draft.stamp),
            data: at_most_255(draft.data),
            size,
            fill: self.dice.byte(),
        }
    }

    /// The size of a lent buffer, often just enough or one too short.
    fn buffer_size(&mut self, draft: &Draft) -> usize {
        let needed = group_on_wire(&draft.content()).len();
        match self.dice.below(20) {
            0..=12 => {
                self.note("writing: buffer just long enough");
                needed
            }
            13 | 14 => {
                self.note("writing: buffer one too short");
                needed.saturating_sub(1)
            }
            15 => needed + 1,
            16 => self.dice.below(needed + 1),
            17 => *self.dice.pick(&[0, 1, 2, 4096]),
            _ => *self.dice.pick(&EDGE_SIZES),
        }
    }

    /// Bytes whose first answer, for a line that is outside, is given by the
    /// byte of this number, counted from 1 and at least 2.
    fn answer_at(&mut self, mode: Mode, number: usize) -> Vec<u8> {
        let mut frame = vec![to_wire(START_OF_TEXT)];
        if self.dice.percent(75) {
            let draft = self.right_draft(mode);
            frame.extend(group_on_wire(&draft.content()));
        } else {
            frame.push(to_wire(END_OF_TEXT));
        }
        if frame.len() > number {
            frame = vec![to_wire(START_OF_TEXT), to_wire(END_OF_TEXT)];
        }
        // Outside, these give nothing.
        let mut wire: Vec<u8> = (frame.len()..number)
            .map(|_| *self.dice.pick(&[to_wire(b'A'), to_wire(0x0A), 0x02, 0x01]))
            .collect();
        wire.extend(frame);
        if wire.len() < INBOX_SIZE && self.dice.percent(70) {
            wire.push(to_wire(END_OF_TEXT));
        }
        wire
    }

    /// A frame begun anew with one group of at least this width, if the mode
    /// has such labels. Now and then its data are wrong somewhere.
    fn long_group(&mut self, mode: Mode, least_width: usize) -> Vec<u8> {
        self.note("delivery: a long group");
        let mut draft = self.right_draft(mode);
        for _ in 0..100 {
            if draft.data.len() >= least_width {
                break;
            }
            draft = self.right_draft(mode);
        }
        if self.dice.percent(20) {
            self.spoil(&mut draft, Spoiling::Kind);
        }
        let mut wire = vec![to_wire(START_OF_TEXT)];
        wire.extend(group_on_wire(&draft.content()));
        if self.dice.percent(80) {
            wire.push(to_wire(END_OF_TEXT));
        }
        wire
    }
}

impl Maker<'_> {
    fn first_opening(&mut self, index: usize) -> Call {
        let generator = &mut self.generator;
        let (line, mode) = match self.plan {
            // Standard mode has the longest groups.
            Plan::LongSheets if generator.dice.percent(85) => (index, Mode::Standard),
            Plan::LongSheets => (index, generator.mode()),
            _ => (generator.dice.below(LINES), generator.mode()),
        };
        Call::Open {
            line: line as u8,
            mode: mode.number(),
        }
    }

    /// The next call of the plan of long sheets.
    fn next_of_long_sheets(&mut self) -> Call {
        if self.step == 0 {
            self.least_width = *self.generator.dice.pick(&[98, 98, 98, 32, 9, 0]);
        }
        let line = self.step;
        self.step = (self.step + 1) % (LINES + ROUNDS_OF_LONG_SHEETS);
        if line >= LINES {
            return self.round();
        }
        let mode = self.modes[line].unwrap_or(Mode::Standard);
        Call::Deliver {
            line: line as u8,
            bytes: self.generator.long_group(mode, self.least_width),
        }
    }

    fn next_call(&mut self) -> Call {
        if self.plan == Plan::LongSheets && self.generator.dice.percent(90) {
            return self.next_of_long_sheets();
        }
        let mut drawn = self.generator.dice.below(100);
        for (name, share) in self.plan.shares() {
            if drawn < share {
                return self.call_named(name);
            }
            drawn -= share;
        }
        unreachable!("the shares add up to a hundred")
    }

    fn call_named(&mut self, name: CallName) -> Call {
        match name {
            CallName::Open => self.opening(),
            CallName::Deliver => self.delivery(),
            CallName::Round => self.round(),
            CallName::Judge => self.generator.judging(),
            CallName::Write => self.generator.writing(),
        }
    }

    /// Performs the call on the maker's own station and keeps its books.
    fn follow(&mut self, call: &Call) {
        let reply = perform(&mut self.station, call);
        let accepted = matches!(
            reply,
            Reply::Opened { number: 0 } | Reply::Delivered { number: 0 }
        );
        match call {
            Call::Open { line, mode } if accepted => {
                let line = usize::from(*line);
                self.modes[line] = Mode::from_number(*mode);
                if self.generator.dice.percent(60) {
                    self.streams[line].clear();
                }
            }
            // A refused delivery is tried again, or its bytes are lost.
            Call::Deliver { line, bytes }
                if usize::from(*line) < LINES && (accepted || self.generator.dice.percent(50)) =>
            {
                let stream = &mut self.streams[usize::from(*line)];
                let length = bytes.len().min(stream.len());
                stream.drain(..length);
            }
            _ => {}
        }
    }

    fn opening(&mut self) -> Call {
        let line = if self.generator.dice.percent(10) {
            self.generator.note("call: line number 8 or more");
            *self.generator.dice.pick(&WRONG_LINES)
        } else {
            self.generator.dice.below(LINES) as u8
        };
        let mode = if self.generator.dice.percent(12) {
            self.generator.note("call: unknown mode");
            *self.generator.dice.pick(&WRONG_MODES)
        } else {
            self.generator.mode().number()
        };
        Call::Open { line, mode }
    }

    fn delivery(&mut self) -> Call {
        let generator = &mut self.generator;
        if generator.dice.percent(4) {
            generator.note("call: line number 8 or more");
            let line = *generator.dice.pick(&WRONG_LINES);
            let length = *generator.dice.pick(&EDGE_SIZES);
            let bytes = (0..length).map(|_| generator.dice.byte()).collect();
            return Call::Deliver { line, bytes };
        }
        let open: Vec<usize> = (0..LINES)
            .filter(|one| self.modes[*one].is_some())
            .collect();
        let line = if open.is_empty() || generator.dice.percent(5) {
            generator.dice.below(LINES)
        } else {
            *generator.dice.pick(&open)
        };
        let mode = self.modes[line].unwrap_or(Mode::Standard);
        if self.plan == Plan::TurnEdges && generator.dice.percent(60) {
            generator.note("delivery: an answer placed at an edge of a turn");
            let number = *generator
                .dice
                .pick(&[2, 62, 63, 64, 65, 66, 127, 128, 129, 192, 255, 256]);
            let bytes = generator.answer_at(mode, number);
            return Call::Deliver {
                line: line as u8,
                bytes,
            };
        }
        let room = INBOX_SIZE - self.station.inbox_length(line as u8).unwrap_or(0);
        let length = match (self.plan, generator.dice.below(20)) {
            (_, 0) => 0,
            (_, 1..=3) => *generator.dice.pick(&EDGE_SIZES),
            (_, 4) => {
                generator.note("delivery: just fills the inbox");
                room
            }
            (_, 5) => {
                generator.note("delivery: one more than the inbox has room for");
                room + 1
            }
            (_, 6) => room.saturating_sub(1),
            (_, 7) if generator.dice.percent(20) => {
                *generator.dice.pick(&[300, 512, 1000, 4095, 4096])
            }
            (Plan::FullInboxes, _) => generator.dice.between(20, 140),
            _ => generator.dice.between(1, 70),
        };
        while self.streams[line].len() < length {
            match generator.dice.below(20) {
                0..=9 => self.streams[line].extend(generator.own_frame(mode)),
                10..=13 => self.streams[line].extend(generator.wrong_frame(mode)),
                _ => {}
            }
            let more = generator.traffic(mode, 100);
            self.streams[line].extend(more);
        }
        Call::Deliver {
            line: line as u8,
            bytes: self.streams[line].iter().take(length).copied().collect(),
        }
    }

    fn round(&mut self) -> Call {
        let generator = &mut self.generator;
        let size = if generator.dice.percent(12) {
            generator.note("call: sheet of another size than 1096");
            *generator.dice.pick(&SHEET_SIZES)
        } else {
            SMALLEST_SHEET
        };
        let fill = match generator.dice.below(4) {
            0 => 0,
            1 => 255,
            _ => generator.dice.byte(),
        };
        Call::Round { size, fill }
    }
}
