//! One long history, made by hand and not by dice, for the frame numbers of
//! document 02, M-108: "65,535 followed by 0". Every frame ends in an answer, and
//! a turn ends at an answer, so the 65,536th frame of a line takes that many
//! rounds.

use crate::captures::group_on_wire;
use crate::followed::{follow_call, FollowedLine};
use crate::frame_tally::FrameTally;
use crate::group::{check_character, summed_part, LONGEST_CONTENT};
use crate::replay::{perform, Call, Reply};
use crate::station::{Station, INBOX_SIZE, LINES, SMALLEST_SHEET};
use crate::table::Mode;
use std::collections::VecDeque;
use std::ops::RangeInclusive;

const STX: u8 = 0x82;
/// STX without its parity bit: no STX.
const DAMAGED_STX: u8 = 0x02;
const ETX: u8 = 0x03;
const EOT: u8 = 0x84;
const LF: u8 = 0x0A;
const CR: u8 = 0x8D;
/// A U, as content or between groups.
const PLAIN: u8 = 0x55;

/// How many frames a line has that comes round: the 65,536th has the number 0.
const LAST_FRAME: usize = 65_540;

/// Every so many rounds one is lent a sheet that is too short, and the next one a
/// sheet of one byte more than it must have.
const ROUNDS_BETWEEN_SHEETS: usize = 500;

/// What is done with a line, in its order.
enum Step {
    /// Nothing is done for so many rounds.
    Wait(usize),
    /// An opening with this mode number; it may be a refused one.
    Open(u8),
    /// These bytes are delivered, a piece before each round.
    Say(VecDeque<u8>),
    /// Nothing is done until the inbox is empty.
    Drain,
    /// A delivery of more STX than an inbox holds: it is refused, and they are
    /// not counted.
    Flood,
}

/// All that is done with one line.
struct Script {
    line: u8,
    /// How many bytes a delivery has at most.
    piece: usize,
    steps: VecDeque<Step>,
}

impl Script {
    /// The calls that come before the next round, with this much in the inbox.
    fn calls_before_round(&mut self, inbox: usize) -> Vec<Call> {
        let line = self.line;
        let mut room = INBOX_SIZE - inbox;
        let mut calls = Vec::new();
        while let Some(step) = self.steps.front_mut() {
            match step {
                Step::Wait(0) => {}
                Step::Wait(rounds) => {
                    *rounds -= 1;
                    return calls;
                }
                Step::Open(mode) => {
                    if Mode::from_number(*mode).is_some() {
                        room = INBOX_SIZE;
                    }
                    calls.push(Call::Open { line, mode: *mode });
                }
                Step::Say(bytes) => {
                    let length = bytes.len().min(self.piece);
                    if room < length {
                        return calls;
                    }
                    let piece = bytes.drain(..length).collect();
                    calls.push(Call::Deliver { line, bytes: piece });
                    if !bytes.is_empty() {
                        return calls;
                    }
                    room -= length;
                }
                Step::Drain if room < INBOX_SIZE => return calls,
                Step::Drain => {}
                Step::Flood => calls.push(Call::Deliver {
                    line,
                    bytes: vec![STX; INBOX_SIZE + 1],
                }),
            }
            self.steps.pop_front();
        }
        calls
    }
}

/// A content of this body, with its final separator and right check character.
fn closed(mode: Mode, body: &[u8]) -> Vec<u8> {
    let mut content = [body, &[mode.separator()]].concat();
    content.push(check_character(summed_part(mode, &content)));
    content
}

/// A group that is accepted.
fn right_group(mode: Mode) -> Vec<u8> {
    let body: &[u8] = match mode {
        Mode::Historic => b"PAPP 00750",
        Mode::Standard => b"SMAXSN\tH081225223518\t01200",
        Mode::Business => b"PS 36kVA",
    };
    group_on_wire(&closed(mode, body))
}

/// Groups that have every answer but those of a frame's end: 1, 7 to 14, 6 and 1
/// again. Only standard mode has 12.
fn groups_of_every_answer(mode: Mode) -> Vec<u8> {
    let bodies: &[&[u8]] = match mode {
        Mode::Historic => &[b"PAPX 00750", b"PAPP 0075", b"PAPP 0075A"],
        Mode::Standard => &[
            b"SNSTI\t00000",
            b"DATE\tH090229000000\t",
            b"IRMS1\t3",
            b"STGE\t003a0001",
        ],
        Mode::Business => &[b"D{bP 36kVA", b"PS 123456kVA", b"PS 36kVW"],
    };
    let mut unchecked = closed(mode, bodies[0]);
    *unchecked.last_mut().expect("a check character") ^= 1;
    let too_long = [PLAIN; LONGEST_CONTENT + 1];
    let mut wire = right_group(mode);
    wire.extend([LF, DAMAGED_STX, CR]);
    wire.extend([&[LF], &too_long[..], &[CR]].concat());
    wire.extend([LF, CR]);
    wire.extend(group_on_wire(&unchecked));
    for body in bodies {
        wire.extend(group_on_wire(&closed(mode, body)));
    }
    wire.extend([LF, PLAIN]);
    wire.extend(right_group(mode));
    wire
}

/// Whether the frame has a number at which something may turn: the first, where
/// the high byte comes in, where it has its top bit, and where it comes round.
fn is_at_edge(frame: usize) -> bool {
    matches!(
        frame % 65_536,
        0..=2 | 254..=257 | 32_767..=32_769 | 65_534..=65_535
    )
}

/// The frames of these numbers, counted from 1: those at an edge are full, and
/// the plain ones take turns.
fn frames(numbers: RangeInclusive<usize>, plain: &[&[u8]], full: &[u8]) -> Step {
    let wire = numbers.flat_map(|number| {
        if is_at_edge(number) {
            full
        } else {
            plain[number % plain.len()]
        }
    });
    Step::Say(wire.copied().collect())
}

fn say(bytes: &[u8]) -> Step {
    Step::Say(bytes.iter().copied().collect())
}

/// A frame with these bytes behind its STX.
fn frame_of(parts: &[&[u8]]) -> Vec<u8> {
    [&[STX], &parts.concat()[..]].concat()
}

/// Frames that end by the STX of the next, in a frame: 5.
fn begun_again_in_frames() -> Vec<Step> {
    let full = frame_of(&[&groups_of_every_answer(Mode::Standard)]);
    vec![
        Step::Open(1),
        frames(1..=LAST_FRAME, &[&[STX]], &full),
        say(&[ETX]),
    ]
}

/// Frames that end by the STX of the next, in a group: 5.
fn begun_again_in_groups() -> Vec<Step> {
    let full = frame_of(&[&groups_of_every_answer(Mode::Historic), &[LF, PLAIN]]);
    vec![
        Step::Open(0),
        frames(1..=LAST_FRAME, &[&[STX, LF]], &full),
        say(&[ETX]),
    ]
}

/// Frames without a flaw: 2.
fn sound_frames() -> Vec<Step> {
    let full = frame_of(&[&right_group(Mode::Business).repeat(2), &[ETX]]);
    vec![Step::Open(2), frames(1..=LAST_FRAME, &[&[STX, ETX]], &full)]
}

/// Damaged STX everywhere: 2 where one is outside, else 3.
fn damaged_starts() -> Vec<Step> {
    let every = groups_of_every_answer(Mode::Standard);
    let full = [
        &[DAMAGED_STX],
        &frame_of(&[&[DAMAGED_STX], &every, &[ETX]])[..],
    ]
    .concat();
    let plain: [&[u8]; 3] = [
        &[DAMAGED_STX, STX, ETX],
        &[STX, DAMAGED_STX, ETX],
        &[STX, LF, DAMAGED_STX, ETX],
    ];
    vec![Step::Open(1), frames(1..=LAST_FRAME, &plain, &full)]
}

/// Frames that are interrupted, in the frame and in a group: 4.
fn interrupted_frames() -> Vec<Step> {
    let full = frame_of(&[&groups_of_every_answer(Mode::Historic), &[EOT]]);
    let plain: [&[u8]; 2] = [&[STX, EOT], &[STX, LF, EOT]];
    vec![Step::Open(0), frames(1..=LAST_FRAME, &plain, &full)]
}

/// A line that is opened again in the group of its 65,535th frame, and then with
/// STX in its inbox.
fn opened_at_the_last_number() -> Vec<Step> {
    let [business, historic] =
        [Mode::Business, Mode::Historic].map(|mode| frame_of(&[&right_group(mode), &[ETX]]));
    vec![
        Step::Open(2),
        frames(1..=65_534, &[&[STX, ETX]], &business),
        say(&[STX, LF, PLAIN]),
        Step::Drain,
        Step::Open(2),
        // Outside, these give nothing.
        say(&[CR, ETX]),
        frames(1..=3, &[&[STX, ETX]], &business),
        say(&[STX; 100]),
        Step::Open(0),
        frames(1..=3, &[&[STX, ETX]], &historic),
    ]
}

/// A line that keeps its number over refused openings and refused deliveries.
fn refused_openings() -> Vec<Step> {
    let full = frame_of(&[&groups_of_every_answer(Mode::Business), &[LF, ETX]]);
    let plain: [&[u8]; 2] = [&[STX, ETX], &[STX]];
    vec![
        Step::Open(2),
        frames(1..=255, &plain, &full),
        Step::Drain,
        Step::Open(3),
        Step::Flood,
        frames(256..=40_000, &plain, &full),
        // With much in the inbox.
        Step::Open(255),
        frames(40_001..=65_534, &plain, &full),
        say(&[STX, LF, PLAIN]),
        Step::Drain,
        Step::Open(3),
        Step::Flood,
        say(&[ETX]),
        frames(65_536..=LAST_FRAME, &plain, &full),
        say(&[EOT]),
    ]
}

/// A line that is opened late, and then again and again: outside, in a frame, in
/// a group, and with STX in its inbox.
fn opened_again_and_again() -> Vec<Step> {
    let mut steps = vec![Step::Flood];
    for turn in 0..96 {
        let mode = Mode::from_number(turn % 3).expect("a mode");
        let plain = frame_of(&[&right_group(mode), &[ETX]]);
        let full = frame_of(&[&groups_of_every_answer(mode), &[ETX]]);
        steps.push(Step::Open(mode.number()));
        steps.push(frames(1..=300, &[&plain], &full));
        let last: &[u8] = match turn % 4 {
            0 => &[STX, EOT],
            1 => &[STX],
            2 => &[STX, LF, PLAIN],
            _ => &[STX; 100],
        };
        steps.push(say(last));
        if turn % 4 != 3 {
            steps.push(Step::Drain);
        }
    }
    steps
}

/// The calls of the long history. The lines begin one after the other, so that
/// their numbers differ.
pub fn long_history() -> Vec<Call> {
    let lines: [(usize, Vec<Step>); LINES] = [
        (3, begun_again_in_frames()),
        (256, begun_again_in_groups()),
        (100, sound_frames()),
        (64, damaged_starts()),
        (63, interrupted_frames()),
        (200, opened_at_the_last_number()),
        (129, refused_openings()),
        (90, opened_again_and_again()),
    ];
    let mut scripts: Vec<Script> = Vec::new();
    for (line, (piece, steps)) in (0..).zip(lines) {
        let first = Step::Wait(10 * usize::from(line));
        scripts.push(Script {
            line,
            piece,
            steps: [first].into_iter().chain(steps).collect(),
        });
    }
    let mut calls = Vec::new();
    let mut station = Station::new();
    for round in 0.. {
        let inboxes: Vec<usize> = (0..LINES as u8)
            .map(|line| station.inbox_length(line).unwrap_or(0))
            .collect();
        let idle = scripts.iter().all(|script| script.steps.is_empty());
        if idle && inboxes.iter().all(|inbox| *inbox == 0) {
            break;
        }
        let mut next = Vec::new();
        for (script, inbox) in scripts.iter_mut().zip(inboxes) {
            next.extend(script.calls_before_round(inbox));
        }
        let fill = (round % 256) as u8;
        let mut lend = |size| next.push(Call::Round { size, fill });
        if round % ROUNDS_BETWEEN_SHEETS == ROUNDS_BETWEEN_SHEETS - 1 {
            lend(SMALLEST_SHEET - 1);
            lend(SMALLEST_SHEET + 1);
        } else {
            lend(SMALLEST_SHEET);
        }
        for call in &next {
            perform(&mut station, call);
        }
        calls.extend(next);
    }
    calls
}

/// The log of the long history.
pub fn long_log(calls: &[Call]) -> Vec<u8> {
    calls.iter().flat_map(Call::to_record).collect()
}

/// What came up in the long history.
#[derive(Default)]
pub struct LongTally {
    calls: u64,
    rounds: u64,
    pub compared: bool,
    pub ended_well: bool,
    pub frames: FrameTally,
    lines: [FollowedLine; LINES],
}

impl LongTally {
    /// Notes one more call.
    pub fn note_call(&mut self, call: &Call, reply: &Reply) {
        self.calls += 1;
        self.rounds += u64::from(matches!(reply, Reply::Rounded { number: 0, .. }));
        self.frames.note_opening(call, reply, &self.lines);
        follow_call(&mut self.lines, call, reply);
        self.frames.note_round(reply, &self.lines);
    }

    /// The part of the closing report.
    pub fn report(&self) -> String {
        let compared = match (self.compared, self.ended_well) {
            (false, _) => "not compared",
            (true, true) => "compared",
            (true, false) => "compared, but it ended with another status than 0",
        };
        let times_of = |number: u16| -> u64 {
            let answers = 1..=14;
            answers
                .map(|answer| self.frames.times_numbered(answer, |one| one == number))
                .sum()
        };
        format!(
            "the long history: {} calls, {} of them accepted rounds, {compared}; {} answers with \
             the frame number 65535, {} with 0\n{}",
            self.calls,
            self.rounds,
            times_of(65_535),
            times_of(0),
            self.frames.report()
        )
    }
}
