//! The station: eight lines, each with its inbox, and the rounds that serve them.
//!
//! The three calls are kept whole (`inline(never)`), since the proved station's are functions of a linked archive too.

use super::line::{Answer, Entry, Line};
use super::table::Mode;

pub const LINES: usize = 8;
pub const INBOX: usize = 256;
/// The bytes of the smallest sheet.
pub const SHEET: usize = 1096;
const LONGEST_TURN: usize = 64;
const FIRST_ENTRY: usize = 24;
/// The bytes of an entry before its text.
const HEAD: usize = 6;

/// Document 01's numbers of calls.
const DONE: u32 = 0;
const NO_ROOM: u32 = 15;
const LINE_UNKNOWN: u32 = 16;
const LINE_CLOSED: u32 = 17;
const SHEET_SHORT: u32 = 18;
const MODE_UNKNOWN: u32 = 19;

/// The bytes that wait, in one stretch: they are moved to the front only when there is no room behind them.
#[derive(Clone)]
struct Inbox {
    bytes: [u8; INBOX],
    from: usize,
    to: usize,
}

#[derive(Clone)]
struct OpenLine {
    line: Line,
    inbox: Inbox,
}

#[derive(Clone, Default)]
pub struct Station {
    lines: [Option<OpenLine>; LINES],
}

impl Inbox {
    fn add(&mut self, bytes: &[u8]) -> bool {
        let waiting = self.to - self.from;
        if bytes.len() > INBOX - waiting {
            return false;
        }
        if bytes.len() > INBOX - self.to {
            self.bytes.copy_within(self.from..self.to, 0);
            self.from = 0;
            self.to = waiting;
        }
        self.bytes[self.to..self.to + bytes.len()].copy_from_slice(bytes);
        self.to += bytes.len();
        true
    }
}

impl Station {
    #[inline(never)]
    pub fn open(&mut self, line: u32, mode: u32) -> u32 {
        let Some(place) = self.lines.get_mut(line as usize) else {
            return LINE_UNKNOWN;
        };
        let Some(mode) = Mode::from_number(mode) else {
            return MODE_UNKNOWN;
        };
        *place = Some(OpenLine {
            line: Line::new(mode),
            inbox: Inbox {
                bytes: [0; INBOX],
                from: 0,
                to: 0,
            },
        });
        DONE
    }

    #[inline(never)]
    pub fn deliver(&mut self, line: u32, bytes: &[u8]) -> u32 {
        match self.lines.get_mut(line as usize) {
            None => LINE_UNKNOWN,
            Some(None) => LINE_CLOSED,
            Some(Some(open)) => match open.inbox.add(bytes) {
                true => DONE,
                false => NO_ROOM,
            },
        }
    }

    #[inline(never)]
    pub fn round(&mut self, sheet: &mut [u8], counts: &mut [u8; LINES]) -> u32 {
        counts.fill(0);
        if sheet.len() < SHEET {
            return SHEET_SHORT;
        }
        sheet[..FIRST_ENTRY].fill(0);
        let mut end = FIRST_ENTRY;
        for (number, place) in self.lines.iter_mut().enumerate() {
            let Some(OpenLine { line, inbox }) = place else {
                continue;
            };
            let turn = inbox.from..inbox.to.min(inbox.from + LONGEST_TURN);
            let (count, entry) = line.feed(&inbox.bytes[turn]);
            inbox.from += count;
            counts[number] = count as u8;
            if let Some(entry) = entry {
                let offset = (end as u16).to_le_bytes();
                sheet[LINES + 2 * number..][..2].copy_from_slice(&offset);
                end += write_entry(&mut sheet[end..], &entry);
            }
        }
        sheet[..LINES].copy_from_slice(counts);
        DONE
    }
}

/// Writes an entry at the start of what is left of the sheet. Gives its length.
fn write_entry(sheet: &mut [u8], entry: &Entry) -> usize {
    let Entry { frame, answer } = entry;
    let [low, high] = frame.to_le_bytes();
    let Answer::Accepted(fields) = answer else {
        let head = [answer.number(), 0, 0, answer.place(), low, high];
        sheet[..HEAD].copy_from_slice(&head);
        return HEAD;
    };
    let (label, stamp, data) = (fields.label, fields.stamp, fields.data);
    let lengths = [label, stamp, data].map(|text| text.len() as u8);
    let head = [1, lengths[0], lengths[1], lengths[2], low, high];
    sheet[..HEAD].copy_from_slice(&head);
    let mut end = HEAD;
    for text in [label, stamp, data] {
        sheet[end..end + text.len()].copy_from_slice(text);
        end += text.len();
    }
    end
}
