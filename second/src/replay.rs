//! The log of a box's calls: its records, and what each of them prints.

use crate::group::{judge, write};
use crate::hexadecimal::hexadecimal;
use crate::numbers::number_of_call;
use crate::station::{counts_of, Station, FIRST_ENTRY, LINES};

/// A length over this makes a record unreadable.
pub const LONGEST_LENGTH: usize = 4096;

/// One record of the log.
#[derive(Clone, Debug, PartialEq, Eq)]
pub enum Call {
    Open {
        line: u8,
        mode: u8,
    },
    Deliver {
        line: u8,
        bytes: Vec<u8>,
    },
    Round {
        size: usize,
        fill: u8,
    },
    Judge {
        mode: u8,
        content: Vec<u8>,
    },
    Write {
        mode: u8,
        label: Vec<u8>,
        stamp: Vec<u8>,
        data: Vec<u8>,
        size: usize,
        fill: u8,
    },
}

impl Call {
    /// The record of the call: "a letter and its fields, numbers of 16 bits
    /// with the low byte first".
    pub fn to_record(&self) -> Vec<u8> {
        let mut record = Vec::new();
        match self {
            Call::Open { line, mode } => record.extend([b'O', *line, *mode]),
            Call::Deliver { line, bytes } => {
                record.extend([b'D', *line]);
                record.extend(low_byte_first(bytes.len()));
                record.extend(bytes);
            }
            Call::Round { size, fill } => {
                record.push(b'R');
                record.extend(low_byte_first(*size));
                record.push(*fill);
            }
            Call::Judge { mode, content } => {
                record.extend([b'J', *mode]);
                record.extend(low_byte_first(content.len()));
                record.extend(content);
            }
            Call::Write {
                mode,
                label,
                stamp,
                data,
                size,
                fill,
            } => {
                record.extend([b'W', *mode]);
                for field in [label, stamp, data] {
                    let length = u8::try_from(field.len()).expect("a field of at most 255");
                    record.push(length);
                    record.extend(field);
                }
                record.extend(low_byte_first(*size));
                record.push(*fill);
            }
        }
        record
    }
}

fn low_byte_first(number: usize) -> [u8; 2] {
    u16::try_from(number)
        .expect("a number of 16 bits")
        .to_le_bytes()
}

/// Why something is no record, in the words of docs/REPLAY.md.
pub type Why = &'static str;

const UNKNOWN_LETTER: Why = "unknown letter";
const LENGTH_OVER: Why = "length over 4096";
const CUT_SHORT: Why = "cut short";

/// What is no record: "its number, from 1", "the offset of its first byte,
/// from 0", and why.
#[derive(Clone, Copy, Debug, PartialEq, Eq)]
pub struct NoRecord {
    pub number: usize,
    pub offset: usize,
    pub why: Why,
}

/// A log, read whole: its calls, and the unreadable thing that followed, if
/// one did.
#[derive(Clone, Debug, PartialEq, Eq)]
pub struct Log {
    pub calls: Vec<Call>,
    pub unreadable: Option<NoRecord>,
}

/// Reads a whole log. "Where something is no record, the program says so in a
/// line and ends."
pub fn read_log(bytes: &[u8]) -> Log {
    let mut left = bytes;
    let mut calls = Vec::new();
    while !left.is_empty() {
        let offset = bytes.len() - left.len();
        match read_call(&mut left) {
            Ok(call) => calls.push(call),
            Err(why) => {
                let unreadable = Some(NoRecord {
                    number: calls.len() + 1,
                    offset,
                    why,
                });
                return Log { calls, unreadable };
            }
        }
    }
    Log {
        calls,
        unreadable: None,
    }
}

fn read_call(left: &mut &[u8]) -> Result<Call, Why> {
    match take_byte(left)? {
        b'O' => Ok(Call::Open {
            line: take_byte(left)?,
            mode: take_byte(left)?,
        }),
        b'D' => {
            let line = take_byte(left)?;
            let length = take_length(left)?;
            let bytes = take_bytes(left, length)?;
            Ok(Call::Deliver { line, bytes })
        }
        b'R' => Ok(Call::Round {
            size: take_length(left)?,
            fill: take_byte(left)?,
        }),
        b'J' => {
            let mode = take_byte(left)?;
            let length = take_length(left)?;
            let content = take_bytes(left, length)?;
            Ok(Call::Judge { mode, content })
        }
        b'W' => Ok(Call::Write {
            mode: take_byte(left)?,
            label: take_field(left)?,
            stamp: take_field(left)?,
            data: take_field(left)?,
            size: take_length(left)?,
            fill: take_byte(left)?,
        }),
        _ => Err(UNKNOWN_LETTER),
    }
}

fn take_byte(left: &mut &[u8]) -> Result<u8, Why> {
    let (first, rest) = left.split_first().ok_or(CUT_SHORT)?;
    *left = rest;
    Ok(*first)
}

fn take_bytes(left: &mut &[u8], count: usize) -> Result<Vec<u8>, Why> {
    if left.len() < count {
        return Err(CUT_SHORT);
    }
    let (taken, rest) = left.split_at(count);
    *left = rest;
    Ok(taken.to_vec())
}

fn take_field(left: &mut &[u8]) -> Result<Vec<u8>, Why> {
    let length = take_byte(left)?;
    take_bytes(left, usize::from(length))
}

fn take_length(left: &mut &[u8]) -> Result<usize, Why> {
    let low = take_byte(left)?;
    let high = take_byte(left)?;
    let length = usize::from(u16::from_le_bytes([low, high]));
    if length <= LONGEST_LENGTH {
        Ok(length)
    } else {
        Err(LENGTH_OVER)
    }
}

/// What a call gave.
#[derive(Clone, Debug, PartialEq, Eq)]
pub enum Reply {
    Opened {
        number: u8,
    },
    Delivered {
        number: u8,
    },
    Rounded {
        number: u8,
        counts: [u8; LINES],
        sheet: Vec<u8>,
    },
    Judged {
        number: u8,
        label: Vec<u8>,
        stamp: Vec<u8>,
        data: Vec<u8>,
        place: usize,
    },
    Written {
        number: u8,
        written: usize,
        buffer: Vec<u8>,
    },
    Unreadable(NoRecord),
}

impl Reply {
    /// The line that the reply prints, without its LF.
    pub fn text(&self) -> String {
        match self {
            Reply::Opened { number } => format!("O {number}"),
            Reply::Delivered { number } => format!("D {number}"),
            Reply::Rounded {
                number,
                counts,
                sheet,
            } => {
                let shown: Vec<String> = counts.iter().map(u8::to_string).collect();
                format!("R {number} {} {}", shown.join(" "), hexadecimal(sheet))
            }
            Reply::Judged {
                number,
                label,
                stamp,
                data,
                place,
            } => format!(
                "J {number} {} {} {} {place}",
                hexadecimal(label),
                hexadecimal(stamp),
                hexadecimal(data)
            ),
            Reply::Written {
                number,
                written,
                buffer,
            } => format!("W {number} {written} {}", hexadecimal(buffer)),
            Reply::Unreadable(NoRecord {
                number,
                offset,
                why,
            }) => format!("? {number} {offset} {why}"),
        }
    }

    /// The entries of an accepted round's sheet; none for other replies.
    pub fn entries(&self) -> Vec<Entry> {
        self.readable_entries()
            .expect("this reader's entries lie on its sheets")
    }

    /// The same, or nothing where they don't lie on the sheet, as may be with
    /// another program's.
    pub fn readable_entries(&self) -> Option<Vec<Entry>> {
        let Reply::Rounded {
            number: 0, sheet, ..
        } = self
        else {
            return Some(Vec::new());
        };
        sheet
            .get(LINES..FIRST_ENTRY)?
            .chunks(2)
            .map(|pair| usize::from(u16::from_le_bytes([pair[0], pair[1]])))
            .enumerate()
            .filter(|(_, offset)| *offset != 0)
            .map(|(line, offset)| Entry::read(line, offset, sheet.get(offset..)?))
            .collect()
    }
}

/// An entry of a sheet, read back from its bytes.
#[derive(Clone, Debug, PartialEq, Eq)]
pub struct Entry {
    pub line: usize,
    pub offset: usize,
    pub number: u8,
    /// Label, stamp and data of answer 1, else empty.
    pub texts: [Vec<u8>; 3],
    /// The place of a refusal (document 02, M-104), else 0.
    pub place: usize,
    /// The frame number (document 02, M-108).
    pub frame: u16,
}

impl Entry {
    /// Reads the entry that stands at the beginning of these bytes, if they have
    /// room for it. The fourth of them is a length for answer 1 only.
    fn read(line: usize, offset: usize, bytes: &[u8]) -> Option<Entry> {
        let (head, mut left) = bytes.split_at_checked(6)?;
        let number = head[0];
        let (lengths, place) = match number {
            1 => ([head[1], head[2], head[3]], 0),
            _ => ([0; 3], usize::from(head[3])),
        };
        let frame = u16::from_le_bytes([head[4], head[5]]);
        let mut texts: [Vec<u8>; 3] = Default::default();
        for (text, length) in texts.iter_mut().zip(lengths) {
            let (own, rest) = left.split_at_checked(usize::from(length))?;
            (*text, left) = (own.to_vec(), rest);
        }
        Some(Entry {
            line,
            offset,
            number,
            texts,
            place,
            frame,
        })
    }
}

/// Makes one call on a station.
pub fn perform(station: &mut Station, call: &Call) -> Reply {
    match call {
        Call::Open { line, mode } => Reply::Opened {
            number: number_of_call(&station.open(*line, *mode)),
        },
        Call::Deliver { line, bytes } => Reply::Delivered {
            number: number_of_call(&station.deliver(*line, bytes)),
        },
        Call::Round { size, fill } => {
            let mut sheet = vec![*fill; *size];
            let round = station.round(&mut sheet);
            Reply::Rounded {
                number: number_of_call(&round),
                counts: counts_of(&round),
                sheet,
            }
        }
        Call::Judge { mode, content } => {
            let judgement = judge(*mode, content);
            let stretches = judgement.stretches();
            Reply::Judged {
                number: judgement.number(),
                label: stretches.label.to_vec(),
                stamp: stretches.stamp.to_vec(),
                data: stretches.data.to_vec(),
                place: judgement.place(),
            }
        }
        Call::Write {
            mode,
            label,
            stamp,
            data,
            size,
            fill,
        } => {
            let mut buffer = vec![*fill; *size];
            let writing = write(*mode, label, stamp, data, &mut buffer);
            Reply::Written {
                number: number_of_call(&writing),
                written: writing.unwrap_or(0),
                buffer,
            }
        }
    }
}

/// Replays a whole log on a new station.
pub fn replies_to(log_bytes: &[u8]) -> Vec<Reply> {
    let log = read_log(log_bytes);
    let mut station = Station::new();
    let mut replies: Vec<Reply> = log
        .calls
        .iter()
        .map(|call| perform(&mut station, call))
        .collect();
    replies.extend(log.unreadable.map(Reply::Unreadable));
    replies
}

/// What replaying a log prints.
pub fn replay(log_bytes: &[u8]) -> String {
    text_of_replies(&replies_to(log_bytes))
}

/// The lines of a row of replies, "each line ends in LF".
pub fn text_of_replies(replies: &[Reply]) -> String {
    replies
        .iter()
        .map(|reply| format!("{}\n", reply.text()))
        .collect()
}
