//! Made-up traffic of a line, and captures of it.

use crate::drafts::{Generator, Spoiling, EDGE_SIZES};
use crate::near_labels::MISSES_ON_LINE;
use crate::table::{all_rules, Mode};
use crate::wire::{
    all_to_wire, to_wire, CARRIAGE_RETURN, END_OF_TEXT, END_OF_TRANSMISSION, LINE_FEED, SPACE,
    START_OF_TEXT,
};

/// What can be spoilt on a line; a byte of 128 or more cannot be sent. The
/// stamp stands twice, for it has the most ways of being wrong.
const SPOILINGS_ON_LINE: [Spoiling; 8] = [
    Spoiling::Label,
    Spoiling::Separator,
    Spoiling::Stamp,
    Spoiling::Stamp,
    Spoiling::Season,
    Spoiling::Width,
    Spoiling::Kind,
    Spoiling::Check,
];

const CONTROLS: [u8; 5] = [
    START_OF_TEXT,
    END_OF_TEXT,
    END_OF_TRANSMISSION,
    LINE_FEED,
    CARRIAGE_RETURN,
];

/// LF, content and CR as sound wire bytes.
pub fn group_on_wire(content: &[u8]) -> Vec<u8> {
    let characters = [&[LINE_FEED][..], content, &[CARRIAGE_RETURN][..]].concat();
    all_to_wire(&characters)
}

impl Generator {
    /// A whole capture: "`H` or `S`, then wire bytes of one line", or `P`
    /// (document 02, M-100), or a bad one.
    pub fn capture(&mut self) -> Vec<u8> {
        let mode = self.mode();
        let mut capture = match self.dice.below(100) {
            0 => {
                self.note("capture: empty");
                return Vec::new();
            }
            1 | 2 => {
                self.note("capture: first byte near to H, S or P");
                vec![*self.dice.pick(b"hspGITOQR02\xC8\xD0\xD3 \x02\x82\n")]
            }
            3 => {
                self.note("capture: any first byte");
                vec![self.dice.byte()]
            }
            _ => vec![mode.letter()],
        };
        match self.dice.below(500) {
            0..=124 => {
                self.note("capture: cut to an edge size");
                let length = *self.dice.pick(&EDGE_SIZES);
                let mut wire = self.traffic(mode, length);
                wire.truncate(length);
                capture.extend(wire);
            }
            125 => {
                self.note("capture: of many thousand bytes");
                let length = *self
                    .dice
                    .pick(&[4094, 4095, 4096, 8191, 16384, 32768, 65535, 65536, 70000]);
                let mut wire = self.traffic(mode, length);
                wire.truncate(length);
                capture.extend(wire);
            }
            126..=175 => {
                self.note("capture: soup of control characters");
                let length = self.dice.between(5, 120);
                while capture.len() < length {
                    capture.extend(self.soup(mode));
                }
            }
            _ => {
                let length = self.dice.between(20, 2000);
                capture.extend(self.traffic(mode, length));
            }
        }
        capture
    }

    /// Wire bytes of a line, at least this many.
    pub fn traffic(&mut self, mode: Mode, least: usize) -> Vec<u8> {
        let mut wire = Vec::new();
        while wire.len() < least {
            let piece = match self.dice.below(100) {
                0..=11 => self.own_frame(mode),
                // The business meter's data have the most ways of being wrong.
                12..=35 if mode == Mode::Business => self.own_frame(mode),
                12..=65 => self.frame(mode),
                66..=71 => self.wrong_frame(mode),
                72..=79 => self.noise(),
                80..=87 => self.soup(mode),
                _ => self.frame_with_sized_group(mode),
            };
            wire.extend(piece);
        }
        wire
    }

    /// A frame with right and spoilt groups, now and then disturbed.
    pub fn frame(&mut self, mode: Mode) -> Vec<u8> {
        self.note("frame");
        let mut wire = Vec::new();
        match self.dice.below(30) {
            0 => {
                self.note("frame: STX missing");
            }
            1 => {
                self.note("frame: STX unsound");
                wire.push(START_OF_TEXT);
            }
            _ => wire.push(to_wire(START_OF_TEXT)),
        }
        // Half of the frames hold only right groups, so that 2 is common.
        let only_right = self.dice.percent(50);
        for _ in 0..self.dice.below(5) {
            if self.dice.percent(4) {
                wire.extend(self.gap());
            }
            let spoilt = !only_right && self.dice.percent(50);
            wire.extend(self.group(mode, spoilt));
        }
        if self.dice.percent(4) {
            wire.extend(self.gap());
        }
        match self.dice.below(30) {
            0 | 1 => {
                self.note("frame: ended by EOT");
                wire.push(to_wire(END_OF_TRANSMISSION));
            }
            2 | 3 => {
                self.note("frame: end missing");
            }
            4 => {
                self.note("frame: ETX unsound");
                wire.push(END_OF_TEXT | 0x80);
            }
            _ => wire.push(to_wire(END_OF_TEXT)),
        }
        if self.dice.percent(35) {
            for _ in 0..self.dice.between(1, 3) {
                self.disturb(&mut wire);
            }
        }
        wire
    }

    /// A frame of groups that go wrong in their data or stamps.
    pub fn wrong_frame(&mut self, mode: Mode) -> Vec<u8> {
        let mut wire = vec![to_wire(START_OF_TEXT)];
        for _ in 0..self.dice.between(1, 3) {
            wire.extend(group_on_wire(&self.wrong_somewhere_draft(mode).content()));
        }
        wire.push(to_wire(END_OF_TEXT));
        wire
    }

    /// A frame of what only this mode's meters send.
    pub fn own_frame(&mut self, mode: Mode) -> Vec<u8> {
        match mode {
            Mode::Historic => self.frame(mode),
            Mode::Standard => self.degraded_frame(),
            Mode::Business => self.business_frame(),
        }
    }

    /// A frame of standard mode in which every season is small.
    fn degraded_frame(&mut self) -> Vec<u8> {
        let mut wire = vec![to_wire(START_OF_TEXT)];
        for _ in 0..self.dice.between(1, 2) {
            wire.extend(group_on_wire(&self.degraded_draft().content()));
        }
        wire.push(to_wire(END_OF_TEXT));
        wire
    }

    /// A frame of the business meter: labels in the order of Tableau 10, from
    /// any of them on and the first behind the last, of which some are not sent.
    /// In most frames some data nearly fit; the others are right.
    fn business_frame(&mut self) -> Vec<u8> {
        self.note("frame of the business meter");
        let rules = all_rules(Mode::Business);
        let first = self.dice.below(rules.len());
        let count = self.dice.between(1, 8);
        let near_misses = self.dice.percent(70);
        let mut wire = vec![to_wire(START_OF_TEXT)];
        for rule in rules.iter().cycle().skip(first).take(count) {
            if self.dice.percent(20) {
                continue;
            }
            let mut draft = self.right_draft_of(Mode::Business, &[rule]);
            match self.dice.below(4) {
                0 if near_misses => draft.data = self.data_just_beyond(rule),
                1 | 2 if near_misses => self.spoil(&mut draft, Spoiling::Kind),
                _ => {}
            }
            wire.extend(group_on_wire(&draft.content()));
        }
        wire.push(to_wire(END_OF_TEXT));
        wire
    }

    /// One group on the wire.
    fn group(&mut self, mode: Mode, spoilt: bool) -> Vec<u8> {
        let mode = if spoilt && self.dice.percent(10) {
            self.note("group of another mode");
            self.other_mode(mode)
        } else {
            mode
        };
        let draft = if spoilt && self.dice.percent(15) {
            self.near_label_draft(mode, &MISSES_ON_LINE)
        } else if spoilt {
            self.spoilt_draft(mode, &SPOILINGS_ON_LINE)
        } else {
            self.note("right group");
            self.right_draft(mode)
        };
        group_on_wire(&draft.content())
    }

    /// Bytes between two groups: "Any other byte in a frame, CR included,
    /// sets the flaw."
    fn gap(&mut self) -> Vec<u8> {
        self.note("bytes between groups");
        (0..self.dice.between(1, 2))
            .map(|_| match self.dice.below(4) {
                0 => to_wire(CARRIAGE_RETURN),
                1 => to_wire(*self.dice.pick(&[0x00, SPACE, 0x09, b'A', 0x7F])),
                2 => to_wire(self.dice.byte()) ^ 0x80,
                _ => self.dice.byte(),
            })
            .collect()
    }

    /// A frame whose one group has a size at an edge, or hardly any characters,
    /// perhaps damaged or broken off as well.
    fn frame_with_sized_group(&mut self, mode: Mode) -> Vec<u8> {
        let content = if self.dice.percent(15) {
            self.short_content(mode)
        } else {
            let length = *self.dice.pick(&EDGE_SIZES);
            self.sized_content(mode, length)
        };
        let mut group = group_on_wire(&content);
        if self.dice.percent(20) {
            self.note("sized group: unsound byte added");
            let place = self.dice.between(1, group.len() - 1);
            let unsound = to_wire(self.dice.byte()) ^ 0x80;
            group.insert(place, unsound);
        }
        if self.dice.percent(15) {
            self.note("sized group: CR replaced");
            group.pop();
            let instead = *self.dice.pick(&CONTROLS);
            group.push(to_wire(instead));
        }
        let mut wire = vec![to_wire(START_OF_TEXT)];
        wire.extend(group);
        if self.dice.percent(40) {
            wire.extend(self.group(mode, false));
        }
        wire.push(to_wire(END_OF_TEXT));
        wire
    }

    /// Random bytes, or random sound bytes.
    fn noise(&mut self) -> Vec<u8> {
        self.note("noise");
        let only_sound = self.dice.percent(50);
        (0..self.dice.between(1, 70))
            .map(|_| {
                let byte = self.dice.byte();
                if only_sound {
                    to_wire(byte)
                } else {
                    byte
                }
            })
            .collect()
    }

    /// Control characters, sound and unsound, with little between them.
    fn soup(&mut self, mode: Mode) -> Vec<u8> {
        self.note("soup of control characters");
        let mut wire = Vec::new();
        for _ in 0..self.dice.between(1, 12) {
            match self.dice.below(16) {
                0..=8 => wire.push(to_wire(*self.dice.pick(&CONTROLS))),
                9 | 10 => wire.push(to_wire(*self.dice.pick(&CONTROLS)) ^ 0x80),
                11 => wire.push(to_wire(*self.dice.pick(b"A0 \t\x00\x7F"))),
                12 => wire.push(to_wire(*self.dice.pick(b"A0 \t\x00\x7F")) ^ 0x80),
                13 => wire.extend(self.group(mode, true)),
                _ => wire.extend(self.group(mode, false)),
            }
        }
        wire
    }

    /// One disturbance somewhere in the bytes.
    pub fn disturb(&mut self, wire: &mut Vec<u8>) {
        if wire.is_empty() {
            return;
        }
        let place = self.dice.below(wire.len());
        match self.dice.below(12) {
            0 | 1 => {
                self.note("disturbed: parity bit turned over");
                wire[place] ^= 0x80;
            }
            2 => {
                self.note("disturbed: one bit turned over");
                wire[place] ^= 1 << self.dice.below(8);
            }
            3 => {
                self.note("disturbed: two bits turned over");
                let first = self.dice.below(8);
                let second = (first + self.dice.between(1, 7)) % 8;
                wire[place] ^= (1 << first) | (1 << second);
            }
            4 => {
                self.note("disturbed: byte lost");
                wire.remove(place);
            }
            5 => {
                self.note("disturbed: byte doubled");
                wire.insert(place, wire[place]);
            }
            6 => {
                self.note("disturbed: LF put in");
                wire.insert(place, to_wire(LINE_FEED));
            }
            7 => {
                self.note("disturbed: EOT put in");
                wire.insert(place, to_wire(END_OF_TRANSMISSION));
            }
            8 => {
                self.note("disturbed: STX put in");
                wire.insert(place, to_wire(START_OF_TEXT));
            }
            9 => {
                self.note("disturbed: ETX or CR put in");
                let put_in = *self.dice.pick(&[END_OF_TEXT, CARRIAGE_RETURN]);
                wire.insert(place, to_wire(put_in));
            }
            10 => {
                self.note("disturbed: unsound control put in");
                let put_in = *self.dice.pick(&CONTROLS);
                wire.insert(place, to_wire(put_in) ^ 0x80);
            }
            _ => {
                self.note("disturbed: noise over some bytes");
                let end = (place + self.dice.between(1, 6)).min(wire.len());
                for byte in &mut wire[place..end] {
                    *byte = self.dice.byte();
                }
            }
        }
    }
}
