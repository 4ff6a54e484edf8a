//! What came up of frame numbers (document 02, M-108) in the calls that were made.

use crate::followed::{stand_after, FollowedLine, Stand, STANDS};
use crate::replay::{Call, Reply};
use crate::station::{LINES, SMALLEST_SHEET};
use crate::wire::{to_wire, START_OF_TEXT};
use std::collections::BTreeMap;

/// The answers that a line can give.
const ANSWERS: std::ops::RangeInclusive<u8> = 1..=14;

/// What was seen of the numbers, of what they hang on, and of the sheets that
/// carry them.
#[derive(Default)]
pub struct FrameTally {
    /// How often an answer came on a sheet with this frame number.
    answers: BTreeMap<(u8, u16), u64>,
    /// How often rounds took an STX where a line stood so, sound or damaged.
    starts: BTreeMap<(Stand, bool), u64>,
    /// How often an open line that had taken an STX and stood so was to be opened
    /// again, and whether it was.
    openings: BTreeMap<(Stand, bool), u64>,
    /// How many of the accepted ones threw an STX away that no round had taken.
    openings_over_waiting_starts: u64,
    /// How often a round was lent a sheet of this size.
    sheets: BTreeMap<usize, u64>,
}

impl FrameTally {
    /// Notes an opening; the lines are as they were before it.
    pub fn note_opening(&mut self, call: &Call, reply: &Reply, lines: &[FollowedLine; LINES]) {
        let (Call::Open { line, .. }, Reply::Opened { number }) = (call, reply) else {
            return;
        };
        let sound = to_wire(START_OF_TEXT);
        let Some(line) = lines.get(usize::from(*line)) else {
            return;
        };
        if !line.taken_bytes().contains(&sound) {
            return;
        }
        let accepted = *number == 0;
        let key = (stand_after(line.taken_bytes()), accepted);
        *self.openings.entry(key).or_insert(0) += 1;
        let over_waiting = accepted && line.waiting_bytes().contains(&sound);
        self.openings_over_waiting_starts += u64::from(over_waiting);
    }

    /// Notes a round; the lines are as they were after it.
    pub fn note_round(&mut self, reply: &Reply, lines: &[FollowedLine; LINES]) {
        let Reply::Rounded { counts, sheet, .. } = reply else {
            return;
        };
        *self.sheets.entry(sheet.len()).or_insert(0) += 1;
        for entry in reply.entries() {
            let key = (entry.number, entry.frame);
            *self.answers.entry(key).or_insert(0) += 1;
        }
        let sound = to_wire(START_OF_TEXT);
        for (line, count) in lines.iter().zip(counts) {
            let taken = line.taken_bytes();
            for place in taken.len() - usize::from(*count)..taken.len() {
                if taken[place] == sound || taken[place] == START_OF_TEXT {
                    let key = (stand_after(&taken[..place]), taken[place] == sound);
                    *self.starts.entry(key).or_insert(0) += 1;
                }
            }
        }
    }

    /// Adds what another tally has.
    pub fn add(&mut self, other: FrameTally) {
        self.openings_over_waiting_starts += other.openings_over_waiting_starts;
        add_times(&mut self.answers, other.answers);
        add_times(&mut self.starts, other.starts);
        add_times(&mut self.openings, other.openings);
        add_times(&mut self.sheets, other.sheets);
    }

    /// How often an answer came with one of these frame numbers.
    pub fn times_numbered(&self, answer: u8, frame_is: impl Fn(u16) -> bool) -> u64 {
        self.answers
            .range((answer, 0)..=(answer, u16::MAX))
            .filter(|((_, frame), _)| frame_is(*frame))
            .map(|(_, times)| times)
            .sum()
    }

    /// The largest frame number that came with an answer.
    pub fn largest_number(&self, answer: u8) -> u16 {
        let mut of_answer = self.answers.range((answer, 0)..=(answer, u16::MAX));
        of_answer.next_back().map_or(0, |((_, frame), _)| *frame)
    }

    /// How often an STX, sound or damaged, was taken where a line stood so.
    pub fn times_begun(&self, stand: Stand, sound: bool) -> u64 {
        self.starts.get(&(stand, sound)).copied().unwrap_or(0)
    }

    /// How often a line that had taken an STX and stood so was opened again, or
    /// its opening was refused.
    pub fn times_opened(&self, stand: Stand, accepted: bool) -> u64 {
        self.openings.get(&(stand, accepted)).copied().unwrap_or(0)
    }

    /// How many of the accepted openings threw an STX away that no round had taken.
    pub fn times_opened_over_waiting(&self) -> u64 {
        self.openings_over_waiting_starts
    }

    /// How often a round was lent a sheet of this size.
    pub fn times_lent(&self, size: usize) -> u64 {
        self.sheets.get(&size).copied().unwrap_or(0)
    }

    /// The part of the closing report.
    pub fn report(&self) -> String {
        let largest = ANSWERS.map(|answer| self.largest_number(answer)).max();
        let mut report = format!(
            "frame numbers on sheets: the largest {}; answers with a number above 1, and the \
             largest:\n",
            largest.expect("there are answers")
        );
        for answer in ANSWERS {
            report.push_str(&format!(
                "  {answer:>6} {:>9} {:>9}\n",
                self.times_numbered(answer, |frame| frame > 1),
                self.largest_number(answer)
            ));
        }
        let by_stand = |times: &dyn Fn(Stand) -> [u64; 2]| {
            let shares = STANDS.map(|(stand, name)| {
                let [first, second] = times(stand);
                format!("{name} {first} and {second}")
            });
            shares.join("; ")
        };
        report.push_str(&format!(
            "STX that rounds took, sound and damaged: {}\n",
            by_stand(&|stand| [true, false].map(|sound| self.times_begun(stand, sound)))
        ));
        report.push_str(&format!(
            "openings of a line that had taken an STX, accepted and refused: {}; of {} of them \
             another STX lay in the inbox\n",
            by_stand(&|stand| [true, false].map(|accepted| self.times_opened(stand, accepted))),
            self.openings_over_waiting_starts
        ));
        let sizes = [SMALLEST_SHEET - 1, SMALLEST_SHEET, SMALLEST_SHEET + 1];
        let shares = sizes.map(|size| format!("{size} bytes {}", self.times_lent(size)));
        report.push_str(&format!("sheets lent of {}\n", shares.join(", of ")));
        report
    }
}

/// Adds how often things came.
pub fn add_times<Key: Ord>(sums: &mut BTreeMap<Key, u64>, more: BTreeMap<Key, u64>) {
    for (key, times) in more {
        *sums.entry(key).or_insert(0) += times;
    }
}
