//! The station of eight lines (document 01, "The station"; document 02, M-104
//! and M-108).

use crate::line::{Line, PlacedAnswer};
use crate::numbers::{Answer, Refusal};
use crate::table::Mode;

/// "Eight lines, 0 to 7."
pub const LINES: usize = 8;
/// "The inbox holds 256."
pub const INBOX_SIZE: usize = 256;
/// "Takes its oldest bytes, at most 64."
pub const LONGEST_TURN: usize = 64;
/// Document 02, M-108: "The smallest sheet, and so 18, is now at 1,096 bytes."
pub const SMALLEST_SHEET: usize = 1096;
/// "Entries follow from byte 24."
pub const FIRST_ENTRY: usize = 24;

/// An open line with all that was delivered since its opening; its inbox is
/// what was delivered and not yet taken.
#[derive(Clone, Debug)]
struct OpenLine {
    line: Line,
    taken: usize,
}

impl OpenLine {
    fn inbox_length(&self) -> usize {
        self.line.fed() - self.taken
    }

    /// One turn: "takes its oldest bytes, at most 64, and ends early after a
    /// byte that gives an answer". Gives the count of bytes taken.
    fn take_turn(&mut self) -> (usize, Option<PlacedAnswer>) {
        let longest = self.inbox_length().min(LONGEST_TURN);
        let window = self.taken..self.taken + longest;
        let (count, answer) = match self.line.first_answer_within(window) {
            None => (longest, None),
            Some(placed) => (placed.place + 1 - self.taken, Some(placed.clone())),
        };
        self.taken += count;
        (count, answer)
    }
}

/// The station: "all closed at first".
#[derive(Clone, Debug, Default)]
pub struct Station {
    lines: [Option<OpenLine>; LINES],
}

impl Station {
    pub fn new() -> Station {
        Station::default()
    }

    /// "Opening a line with a mode empties its inbox and puts it outside,
    /// whether it was open or not." Order: 16, 19.
    pub fn open(&mut self, line_number: u8, mode_number: u8) -> Result<(), Refusal> {
        let place = self
            .lines
            .get_mut(usize::from(line_number))
            .ok_or(Refusal::NoSuchLine)?;
        let mode = Mode::from_number(mode_number).ok_or(Refusal::UnknownMode)?;
        *place = Some(OpenLine {
            line: Line::new(mode),
            taken: 0,
        });
        Ok(())
    }

    /// "A delivery adds bytes to the inbox of an open line, all of them or
    /// none." Order: 16, 17, 15.
    pub fn deliver(&mut self, line_number: u8, bytes: &[u8]) -> Result<(), Refusal> {
        let open_line = self
            .lines
            .get_mut(usize::from(line_number))
            .ok_or(Refusal::NoSuchLine)?
            .as_mut()
            .ok_or(Refusal::LineClosed)?;
        if open_line.inbox_length() + bytes.len() > INBOX_SIZE {
            return Err(Refusal::NoRoom);
        }
        open_line.line.feed(bytes);
        Ok(())
    }

    /// "A round goes through lines 0 to 7" and writes the lent sheet. Gives
    /// "how many bytes each line's turn took"; "a refused round gives eight
    /// zero counts" (see `counts_of`) and changes nothing.
    pub fn round(&mut self, sheet: &mut [u8]) -> Result<[u8; LINES], Refusal> {
        if sheet.len() < SMALLEST_SHEET {
            return Err(Refusal::SheetTooShort);
        }
        let mut counts = [0; LINES];
        let mut offsets = [0; LINES];
        let mut entries: Vec<u8> = Vec::new();
        for (number, place) in self.lines.iter_mut().enumerate() {
            let Some(open_line) = place else { continue };
            let (count, answer) = open_line.take_turn();
            counts[number] = count as u8;
            if let Some(placed) = answer {
                offsets[number] = FIRST_ENTRY + entries.len();
                entries.extend(entry_of(&placed));
            }
        }
        let mut written: Vec<u8> = counts.to_vec();
        for offset in offsets {
            // "Eight offsets, 16 bits, low byte first, 0 where a line has no
            // answer."
            written.extend([(offset % 256) as u8, (offset / 256) as u8]);
        }
        written.extend(entries);
        // "Bytes after the last entry are unchanged."
        sheet[..written.len()].copy_from_slice(&written);
        Ok(counts)
    }

    /// How many bytes lie in the inbox of a line; none for a closed line.
    pub fn inbox_length(&self, line_number: u8) -> Option<usize> {
        self.lines
            .get(usize::from(line_number))?
            .as_ref()
            .map(OpenLine::inbox_length)
    }
}

/// The eight counts of a round, zeros for a refused one.
pub fn counts_of(round: &Result<[u8; LINES], Refusal>) -> [u8; LINES] {
    round.unwrap_or([0; LINES])
}

/// "An entry is answer number, label length, stamp length, data length, then
/// label, stamp and data. All but answer 1 have three zeros and no text."
/// Document 02, M-104: "for a refusal the fourth byte holds this place instead
/// of zero; the second and third stay zero". A content has at most 128
/// characters, so a byte holds it. M-108: the frame number, "two bytes, low byte
/// first, before the text".
fn entry_of(placed: &PlacedAnswer) -> Vec<u8> {
    let texts: [&str; 3] = match &placed.answer {
        Answer::GroupAccepted { label, stamp, data } => [label, stamp, data],
        _ => [""; 3],
    };
    let mut entry = vec![placed.answer.number()];
    match &placed.answer {
        Answer::GroupRefused(fault) => entry.extend([0, 0, fault.place as u8]),
        _ => entry.extend(texts.map(|text| text.len() as u8)),
    }
    entry.extend([(placed.frame % 256) as u8, (placed.frame / 256) as u8]);
    entry.extend(texts.concat().bytes());
    entry
}
