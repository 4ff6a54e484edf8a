//! What a round tells.

use crate::numbers::{not_the_archive, Fault, Notice, Refusal};
use crate::station::LINES;
use core::fmt;

/// The bytes that a sheet must have.
const SHEET: usize = 1096;

/// What a line answered in a round.
#[derive(Clone, Copy, Debug, PartialEq, Eq)]
pub enum Answer<'a> {
    /// A group was accepted: document 01's number 1.
    Accepted {
        /// The group's label.
        label: &'a [u8],
        /// The group's stamp, as it came; empty where the label has none. What its season letter says: [`Group`](crate::Group).
        stamp: &'a [u8],
        /// The group's data.
        data: &'a [u8],
    },
    /// A group was refused, for this reason and at this place in its content: document 01's numbers 8 to 14.
    Refused(Fault),
    /// Something else is told of a frame or a group: document 01's numbers 2 to 7.
    Told(Notice),
}

impl Answer<'_> {
    /// Document 01's number of the answer, 1 to 14.
    pub const fn number(&self) -> u32 {
        match self {
            Answer::Accepted { .. } => 1,
            Answer::Refused(fault) => fault.number(),
            Answer::Told(notice) => notice.number(),
        }
    }

    /// Where in its content a refused group went wrong: the place of a [`Fault`], which 12 and 14 have.
    pub const fn place(&self) -> Option<usize> {
        match self {
            Answer::Refused(fault) => fault.place,
            Answer::Accepted { .. } | Answer::Told(_) => None,
        }
    }
}

/// As the listing has it: the number; for 1 also a space, label, space, stamp or `-`, space, data (document 01); for 12 and
/// 14 also a space and the place (document 02, M-104): `14 8`.
impl fmt::Display for Answer<'_> {
    fn fmt(&self, to: &mut fmt::Formatter<'_>) -> fmt::Result {
        write!(to, "{}", self.number())?;
        if let Answer::Accepted { label, stamp, data } = self {
            let stamp = if stamp.is_empty() { b"-" } else { *stamp };
            for field in [label, stamp, data] {
                to.write_str(" ")?;
                // The characters of an accepted group have seven bits, so each of them is its own ASCII character.
                field
                    .iter()
                    .try_for_each(|&character| write!(to, "{}", char::from(character)))?;
            }
        }
        match self.place() {
            Some(place) => write!(to, " {place}"),
            None => Ok(()),
        }
    }
}

/// An answer of a line, with the number of its frame (document 02, M-108): what a sheet has of a line.
///
/// The number tells which groups came together: those of one line that have the same number.
///
/// ```
/// use espandim::{Mode, Station};
///
/// let mut station = Station::new();
/// station.open(0, Mode::Historic)?;
/// station.deliver(0, b"\x82\x03\x82\x84\x82\x82\x03")?; // STX ETX, STX EOT, STX STX ETX
/// let mut told = Vec::new();
/// loop {
///     let round = station.round();
///     told.extend(round.entries().map(|(_, entry)| (entry.frame, entry.answer.number())));
///     if round.is_idle() {
///         break;
///     }
/// }
/// assert_eq!(told, [(1, 2), (2, 4), (4, 5), (4, 2)]); // the third frame has no answer: the fourth began before it ended
/// # Ok::<(), espandim::Refusal>(())
/// ```
#[derive(Clone, Copy, Debug, PartialEq, Eq)]
pub struct Entry<'a> {
    /// The number of the frame. A line's is 0 when it is opened, and one more at every STX, outside, in a frame or in a group;
    /// a damaged one is no STX. 65,535 is followed by 0.
    ///
    /// Answers 2, 3 and 4 have the number of the frame that they end, 5 has the new one, and all others that of the frame they
    /// came in. So the first frame after an opening has 1, and the 65,536th is the first with 0. Of a line that was not opened
    /// in between, two answers with the same number are of one frame, unless 65,536 frames or more began between them.
    pub frame: u16,
    /// What the line answered.
    pub answer: Answer<'a>,
}

/// As the listing has it, which does not show the number of the frame: the [`Answer`] alone.
impl fmt::Display for Entry<'_> {
    fn fmt(&self, to: &mut fmt::Formatter<'_>) -> fmt::Result {
        self.answer.fmt(to)
    }
}

/// What a round told: how many bytes each line's turn took, and what the lines answered, at most one answer a line.
#[must_use = "an answer is told by one round and by no other"]
#[derive(Clone)]
pub struct Round {
    sheet: [u8; SHEET],
    counts: [u8; LINES],
}

impl Round {
    pub(crate) fn blank() -> Round {
        Round {
            sheet: [0; SHEET],
            counts: [0; LINES],
        }
    }

    pub(crate) fn parts_mut(&mut self) -> (&mut [u8; SHEET], &mut [u8; LINES]) {
        (&mut self.sheet, &mut self.counts)
    }

    /// How many bytes the turn of each line took.
    pub fn counts(&self) -> [u8; LINES] {
        self.counts
    }

    /// Whether the round took nothing: all eight counts are 0, and no byte waits on an open line.
    pub fn is_idle(&self) -> bool {
        self.counts == [0; LINES]
    }

    /// What this line answered, if it answered and is a line.
    pub fn answer(&self, line: u32) -> Option<Answer<'_>> {
        Some(self.entry(line)?.answer)
    }

    /// What this line answered, with the number of its frame, if it answered and is a line.
    pub fn entry(&self, line: u32) -> Option<Entry<'_>> {
        let line = usize::try_from(line).ok().filter(|&line| line < LINES)?;
        let (low, high) = (self.sheet[8 + 2 * line], self.sheet[9 + 2 * line]);
        match u16::from_le_bytes([low, high]) {
            0 => None,
            offset => Some(read_entry(&self.sheet[usize::from(offset)..])),
        }
    }

    /// The lines that answered, in their order, and their answers.
    pub fn answers(&self) -> Answers<'_> {
        Answers {
            entries: self.entries(),
        }
    }

    /// The lines that answered, in their order, and their answers with the numbers of their frames.
    pub fn entries(&self) -> Entries<'_> {
        Entries {
            round: self,
            lines: 0..LINES as u32,
        }
    }
}

/// An entry: 1, and the lengths of label, stamp and data; or another number, two zeros and the place. Then the number of the
/// frame, low byte first, and behind 1 label, stamp and data. The proved archive writes no others; with another one a length
/// out of range panics here, and reads nothing.
fn read_entry(entry: &[u8]) -> Entry<'_> {
    let (head, text) = entry.split_at(6);
    Entry {
        frame: u16::from_le_bytes([head[4], head[5]]),
        answer: read_answer(head, text),
    }
}

fn read_answer<'a>(head: &[u8], text: &'a [u8]) -> Answer<'a> {
    if head[0] == 1 {
        let (label, rest) = text.split_at(usize::from(head[1]));
        let (stamp, rest) = rest.split_at(usize::from(head[2]));
        return Answer::Accepted {
            label,
            stamp,
            data: &rest[..usize::from(head[3])],
        };
    }
    let number = u32::from(head[0]);
    if let Some(notice) = Notice::from_number(number) {
        return Answer::Told(notice);
    }
    // 15 to 19 are refusals of calls, which no line answers.
    let refusal = Refusal::from_number(number).filter(|_| number <= 14);
    let refusal = refusal.unwrap_or_else(|| not_the_archive(number));
    Answer::Refused(Fault::told(refusal, usize::from(head[3])))
}

impl fmt::Debug for Round {
    fn fmt(&self, to: &mut fmt::Formatter<'_>) -> fmt::Result {
        struct ByLine<'a>(&'a Round);
        impl fmt::Debug for ByLine<'_> {
            fn fmt(&self, to: &mut fmt::Formatter<'_>) -> fmt::Result {
                to.debug_map().entries(self.0.entries()).finish()
            }
        }
        to.debug_struct("Round")
            .field("counts", &self.counts())
            .field("entries", &ByLine(self))
            .finish()
    }
}

impl<'a> IntoIterator for &'a Round {
    type Item = (u32, Answer<'a>);
    type IntoIter = Answers<'a>;

    fn into_iter(self) -> Answers<'a> {
        self.answers()
    }
}

/// The lines that answered in a round, in their order, and their answers.
#[derive(Clone, Debug)]
pub struct Answers<'a> {
    entries: Entries<'a>,
}

impl<'a> Iterator for Answers<'a> {
    type Item = (u32, Answer<'a>);

    fn next(&mut self) -> Option<(u32, Answer<'a>)> {
        let (line, entry) = self.entries.next()?;
        Some((line, entry.answer))
    }
}

/// The lines that answered in a round, in their order, and their answers with the numbers of their frames.
#[derive(Clone, Debug)]
pub struct Entries<'a> {
    round: &'a Round,
    lines: core::ops::Range<u32>,
}

impl<'a> Iterator for Entries<'a> {
    type Item = (u32, Entry<'a>);

    fn next(&mut self) -> Option<(u32, Entry<'a>)> {
        let round = self.round;
        self.lines.find_map(|line| Some((line, round.entry(line)?)))
    }
}
