//! One line (document 01, "One line"; document 02, M-108).
//!
//! The line is read as a whole: what has come so far is cut into frames, each
//! frame into groups. Every answer belongs to one byte, and the answers up to
//! a byte do not change when more bytes come. No number is kept either: that of
//! an answer is how many STX stand up to its byte.

use crate::group::{judge, Judgement, LONGEST_CONTENT};
use crate::numbers::{Answer, Refusal};
use crate::table::Mode;
use crate::wire::{
    character_of, CARRIAGE_RETURN, END_OF_TEXT, END_OF_TRANSMISSION, LINE_FEED, START_OF_TEXT,
};
use std::ops::Range;

/// What a byte means to a line. "An unsound byte is never a control
/// character."
#[derive(Clone, Copy, Debug, PartialEq, Eq)]
enum Signal {
    FrameControl(FrameControl),
    LineFeed,
    CarriageReturn,
    Plain(u8),
    Unsound,
}

/// The three characters that begin or leave a frame wherever they stand.
#[derive(Clone, Copy, Debug, PartialEq, Eq)]
enum FrameControl {
    Start,
    End,
    Interruption,
}

fn signal_of(wire_byte: u8) -> Signal {
    match character_of(wire_byte) {
        None => Signal::Unsound,
        Some(START_OF_TEXT) => Signal::FrameControl(FrameControl::Start),
        Some(END_OF_TEXT) => Signal::FrameControl(FrameControl::End),
        Some(END_OF_TRANSMISSION) => Signal::FrameControl(FrameControl::Interruption),
        Some(LINE_FEED) => Signal::LineFeed,
        Some(CARRIAGE_RETURN) => Signal::CarriageReturn,
        Some(character) => Signal::Plain(character),
    }
}

/// "65,535 followed by 0" (document 02, M-108): so many frame numbers there are.
const FRAME_NUMBERS: usize = 65_536;

/// An answer, the place of the byte that gave it, counted from 0, and the frame
/// number that it carries.
#[derive(Clone, Debug, PartialEq, Eq)]
pub struct PlacedAnswer {
    pub place: usize,
    pub frame: u16,
    pub answer: Answer,
}

/// Document 02, M-108: "0 when opened, one more at every STX", so it is how many
/// of these places lie at this one or before it. "An answer 5 carries the new
/// number": the byte that gives it is an STX itself.
fn frame_number(starts: &[usize], place: usize) -> u16 {
    let begun = starts.partition_point(|start| *start <= place);
    (begun % FRAME_NUMBERS) as u16
}

/// The places of every STX. A damaged one is no STX: "An unsound byte is never a
/// control character."
fn places_of_starts(wire: &[u8]) -> impl Iterator<Item = usize> + '_ {
    let is_start = |one: &u8| signal_of(*one) == Signal::FrameControl(FrameControl::Start);
    (0..wire.len()).filter(move |place| is_start(&wire[*place]))
}

/// A frame: what stands after an STX up to the next STX, ETX or EOT.
struct Frame {
    body: Range<usize>,
    /// The control that ends it, standing at `body.end`; none when the bytes
    /// end first.
    ended_by: Option<FrameControl>,
}

/// Reads all that came on a line since it was opened, and gives every answer
/// in the order of the bytes.
pub fn read_whole(mode: Mode, wire: &[u8]) -> Vec<PlacedAnswer> {
    let starts: Vec<usize> = places_of_starts(wire).collect();
    read_from(mode, wire, 0, &starts)
}

/// Reads what came from this place on: the first of all, or that of an STX, where
/// a frame begins whatever stood before it.
fn read_from(mode: Mode, wire: &[u8], begin: usize, starts: &[usize]) -> Vec<PlacedAnswer> {
    let signals: Vec<Signal> = wire[begin..].iter().map(|one| signal_of(*one)).collect();
    cut_into_frames(&signals)
        .iter()
        .flat_map(|frame| read_frame(mode, &signals, frame))
        .map(|(offset, answer)| PlacedAnswer {
            place: begin + offset,
            frame: frame_number(starts, begin + offset),
            answer,
        })
        .collect()
}

/// "STX: in a frame"; "ETX: outside"; "EOT: outside": so a frame runs from an
/// STX to the next of the three, and whatever stands elsewhere is outside and
/// gives nothing.
fn cut_into_frames(signals: &[Signal]) -> Vec<Frame> {
    let controls: Vec<(usize, FrameControl)> = signals
        .iter()
        .enumerate()
        .filter_map(|(place, signal)| match signal {
            Signal::FrameControl(control) => Some((place, *control)),
            _ => None,
        })
        .collect();
    let mut frames = Vec::new();
    for (index, (place, control)) in controls.iter().enumerate() {
        if *control == FrameControl::Start {
            let next = controls.get(index + 1);
            frames.push(Frame {
                body: place + 1..next.map_or(signals.len(), |(end, _)| *end),
                ended_by: next.map(|(_, control)| *control),
            });
        }
    }
    frames
}

/// The answers of a frame, each with its place among the signals.
fn read_frame(mode: Mode, signals: &[Signal], frame: &Frame) -> Vec<(usize, Answer)> {
    let mut answers = Vec::new();
    // "STX: in a frame, flaw mark cleared."
    let mut flawed = false;
    let mut ended_in_group = false;
    let mut place = frame.body.start;
    while place < frame.body.end {
        if signals[place] != Signal::LineFeed {
            // "Any other byte in a frame, CR included, sets the flaw", and so
            // does an unsound one.
            flawed = true;
            place += 1;
            continue;
        }
        // "LF: in a frame, opens an empty group."
        let begin = place + 1;
        match find_group_end(signals, begin..frame.body.end) {
            None => {
                ended_in_group = true;
                place = frame.body.end;
            }
            Some(end) if signals[end] == Signal::LineFeed => {
                // "In a group: answer 6, flaw, a new empty group opens": the
                // new one is opened by the same LF, in the next turn.
                flawed = true;
                answers.push((end, Answer::LineFeedInsideGroup));
                place = end;
            }
            Some(end) => {
                // "CR in a group: the group is judged, answer 1 or a refusal
                // (which sets the flaw); then in the frame."
                let answer = judge_on_line(mode, &signals[begin..end]);
                flawed |= matches!(answer, Answer::GroupRefused(_));
                answers.push((end, answer));
                place = end + 1;
            }
        }
    }
    if let Some(control) = frame.ended_by {
        let answer = match control {
            // "If it was in a frame or group: answer 5."
            FrameControl::Start => Answer::FrameBegunAgain,
            // "From a frame: 2 if no flaw, else 3. From a group: 3."
            FrameControl::End => Answer::FrameEnded {
                flawed: flawed || ended_in_group,
            },
            // "From a frame or group: 4."
            FrameControl::Interruption => Answer::FrameInterrupted,
        };
        answers.push((frame.body.end, answer));
    }
    answers
}

/// The place of the LF or CR that a group runs to, if there is one.
fn find_group_end(signals: &[Signal], range: Range<usize>) -> Option<usize> {
    let begin = range.start;
    signals[range]
        .iter()
        .position(|one| matches!(one, Signal::LineFeed | Signal::CarriageReturn))
        .map(|offset| begin + offset)
}

/// Judges what stood between LF and CR. "Order: 7 to 14 as numbered."
fn judge_on_line(mode: Mode, group: &[Signal]) -> Answer {
    // "In a group it marks the group damaged and adds no content."
    if group.contains(&Signal::Unsound) {
        return Answer::GroupRefused(Refusal::DamagedByte.into());
    }
    let content: Vec<u8> = group
        .iter()
        .filter_map(|signal| match signal {
            Signal::Plain(character) => Some(*character),
            _ => None,
        })
        .collect();
    // "Content, up to 128; from the 129th on the group is too long."
    if content.len() > LONGEST_CONTENT {
        return Answer::GroupRefused(Refusal::ContentTooLong.into());
    }
    match judge(mode.number(), &content) {
        Judgement::Refused(fault) => Answer::GroupRefused(fault),
        Judgement::Accepted(stretches) => Answer::GroupAccepted {
            label: text_of(stretches.label),
            stamp: text_of(stretches.stamp),
            data: text_of(stretches.data),
        },
    }
}

/// An accepted group holds only characters of 0x20 to 0x7E in its texts.
fn text_of(characters: &[u8]) -> String {
    characters.iter().map(|one| char::from(*one)).collect()
}

/// A line that bytes are fed to, piece by piece.
#[derive(Clone, Debug)]
pub struct Line {
    mode: Mode,
    /// All that came since the opening.
    wire: Vec<u8>,
    /// The places of every STX in it.
    starts: Vec<usize>,
    answers: Vec<PlacedAnswer>,
}

impl Line {
    /// A line that is outside and has seen nothing.
    pub fn new(mode: Mode) -> Line {
        Line {
            mode,
            wire: Vec::new(),
            starts: Vec::new(),
            answers: Vec::new(),
        }
    }

    /// Feeds bytes and gives the answers of these very bytes.
    pub fn feed(&mut self, bytes: &[u8]) -> Vec<PlacedAnswer> {
        // All answers up to the last STX are given, its own included, so what
        // came is cut anew only from there on.
        let begin = self.starts.last().copied().unwrap_or(0);
        let fed = self.wire.len();
        self.wire.extend_from_slice(bytes);
        self.starts
            .extend(places_of_starts(bytes).map(|place| fed + place));
        let before = self.answers.len();
        self.answers
            .truncate(self.answers.partition_point(|placed| placed.place <= begin));
        let anew = read_from(self.mode, &self.wire, begin, &self.starts);
        self.answers.extend(anew);
        self.answers[before..].to_vec()
    }

    /// How many bytes were fed.
    pub fn fed(&self) -> usize {
        self.wire.len()
    }

    /// The first answer given by a byte in the range, if there is one.
    pub fn first_answer_within(&self, range: Range<usize>) -> Option<&PlacedAnswer> {
        let earlier = self
            .answers
            .partition_point(|placed| placed.place < range.start);
        let next = self.answers.get(earlier)?;
        (next.place < range.end).then_some(next)
    }
}
