//! One line: bytes to answers.

use super::group::{self, Fault, Fields, Notice};
use super::table::Mode;
use super::wire::{self, control};

const LONGEST_CONTENT: usize = 128;

#[derive(Clone, Copy, PartialEq, Eq)]
enum Phase {
    Outside,
    Frame,
    Group,
}

#[derive(Clone)]
pub struct Line {
    mode: Mode,
    phase: Phase,
    /// How often STX came, by the remainder of 65,536.
    frame: u16,
    /// Only looked at in a frame, and cleared where one begins: outside it may be anything.
    flawed: bool,
    /// These three are only looked at in a group, and cleared where one begins.
    damaged: bool,
    too_long: bool,
    length: usize,
    content: [u8; LONGEST_CONTENT],
}

/// An answer, and the number of the frame that it came in.
pub struct Entry<'line> {
    pub frame: u16,
    pub answer: Answer<'line>,
}

/// What a byte told. The texts of an accepted group lie in the line's content until its next group begins.
pub enum Answer<'line> {
    Accepted(Fields<'line>),
    Refused(Fault),
    Told(Notice),
}

impl Answer<'_> {
    pub fn number(&self) -> u8 {
        match self {
            Answer::Accepted(_) => 1,
            Answer::Refused(fault) => fault.notice as u8,
            Answer::Told(notice) => *notice as u8,
        }
    }

    /// Where a refused group went wrong; 0 for all but 12 and 14.
    pub fn place(&self) -> u8 {
        match self {
            Answer::Refused(fault) => fault.place,
            Answer::Accepted(_) | Answer::Told(_) => 0,
        }
    }
}

/// What became of a byte inside the line.
enum Step {
    Quiet,
    Told(Notice),
}

impl Line {
    pub fn new(mode: Mode) -> Line {
        Line {
            mode,
            phase: Phase::Outside,
            frame: 0,
            flawed: false,
            damaged: false,
            too_long: false,
            length: 0,
            content: [0; LONGEST_CONTENT],
        }
    }

    /// Takes bytes from the front, up to one that gives an answer. Gives how many it took, and the answer with its frame.
    pub fn feed(&mut self, bytes: &[u8]) -> (usize, Option<Entry<'_>>) {
        let mut count = 0;
        while count < bytes.len() {
            // Behind a group an LF comes as a rule, and behind the characters of a group its CR.
            if self.phase == Phase::Frame && bytes[count] == control::LINE_FEED {
                self.start_group();
                count += 1;
            }
            if self.phase == Phase::Group {
                count += self.take_text(&bytes[count..]);
                if bytes.get(count) == Some(&control::CARRIAGE_RETURN) {
                    self.phase = Phase::Frame;
                    let (frame, answer) = (self.frame, self.judge());
                    return (count + 1, Some(Entry { frame, answer }));
                }
            }
            let Some(&byte) = bytes.get(count) else {
                break;
            };
            count += 1;
            match self.step(byte) {
                Step::Quiet => {}
                Step::Told(notice) => {
                    let (frame, answer) = (self.frame, Answer::Told(notice));
                    return (count, Some(Entry { frame, answer }));
                }
            }
        }
        (count, None)
    }

    /// Most bytes are sound characters of a group that has room for them: they are taken in a loop of their own, eight
    /// at once as long as all eight are such, and then one by one. Gives how many there were.
    fn take_text(&mut self, bytes: &[u8]) -> usize {
        let room = &mut self.content[self.length..];
        let mut count = 0;
        for (places, eight) in room.chunks_exact_mut(8).zip(bytes.chunks_exact(8)) {
            if !eight.iter().fold(true, |all, &byte| all & is_text(byte)) {
                break;
            }
            for (place, &byte) in places.iter_mut().zip(eight) {
                *place = wire::character_of(byte);
            }
            count += 8;
        }
        for (place, &byte) in room[count..].iter_mut().zip(&bytes[count..]) {
            // The same as `is_text`: here, with a way out, quicker in this form.
            let is_text = match byte & 0x60 {
                0 => byte == wire::HORIZONTAL_TAB,
                _ => wire::is_sound(byte),
            };
            if !is_text {
                break;
            }
            *place = wire::character_of(byte);
            count += 1;
        }
        self.length += count;
        count
    }

    fn step(&mut self, byte: u8) -> Step {
        match byte {
            control::START_OF_TEXT => self.start_frame(),
            control::END_OF_TEXT => self.leave_frame(match self.phase {
                Phase::Frame if !self.flawed => Notice::FrameSound,
                _ => Notice::FrameFlawed,
            }),
            control::END_OF_TRANSMISSION => self.leave_frame(Notice::FrameInterrupted),
            control::LINE_FEED => self.start_group(),
            _ => {
                self.take(byte);
                Step::Quiet
            }
        }
    }

    fn start_frame(&mut self) -> Step {
        let was = self.phase;
        self.phase = Phase::Frame;
        self.frame = self.frame.wrapping_add(1);
        self.flawed = false;
        match was {
            Phase::Outside => Step::Quiet,
            Phase::Frame | Phase::Group => Step::Told(Notice::FrameRestarted),
        }
    }

    fn leave_frame(&mut self, notice: Notice) -> Step {
        let was = self.phase;
        self.phase = Phase::Outside;
        match was {
            Phase::Outside => Step::Quiet,
            Phase::Frame | Phase::Group => Step::Told(notice),
        }
    }

    fn start_group(&mut self) -> Step {
        if self.phase == Phase::Outside {
            return Step::Quiet;
        }
        let was = self.phase;
        self.phase = Phase::Group;
        self.damaged = false;
        self.too_long = false;
        self.length = 0;
        if was == Phase::Group {
            self.flawed = true;
            return Step::Told(Notice::GroupRestarted);
        }
        Step::Quiet
    }

    /// Any other byte: content in a group, a flaw of a frame.
    fn take(&mut self, byte: u8) {
        if self.phase != Phase::Group {
            self.flawed = true;
        } else if !wire::is_sound(byte) {
            self.damaged = true;
        } else if let Some(place) = self.content.get_mut(self.length) {
            *place = wire::character_of(byte);
            self.length += 1;
        } else {
            self.too_long = true;
        }
    }

    /// What the group that is complete gives; one that is refused leaves its frame flawed.
    fn judge(&mut self) -> Answer<'_> {
        let judged = if self.damaged {
            Err(Notice::GroupDamaged.into())
        } else if self.too_long {
            Err(Notice::TooLong.into())
        } else {
            group::judge(self.mode, &self.content[..self.length])
        };
        match judged {
            Ok(fields) => Answer::Accepted(fields),
            Err(fault) => {
                self.flawed = true;
                Answer::Refused(fault)
            }
        }
    }
}

/// No control character has one of these two bits, and of those without them HT alone is common.
fn is_text(byte: u8) -> bool {
    wire::is_sound(byte) & ((byte & 0x60 != 0) | (byte == wire::HORIZONTAL_TAB))
}
