//! Document 02, M-113, "Back on its feet after noise": what a program answers
//! behind an STX, held against what the same program answers for a freshly opened
//! line. Neither output is this reader's.

use crate::histories::{log_bytes, Item};
use crate::replay::{read_log, replay, Call, Entry, Reply};
use crate::station::{Station, INBOX_SIZE, LINES, SMALLEST_SHEET};
use crate::table::Mode;

/// A capture cut at an STX: what a listing is asked for, besides the whole.
pub struct CutCapture {
    /// The capture through the STX.
    pub front: Vec<u8>,
    /// "Fed from the same STX", for a freshly opened line of the same mode.
    pub fresh: Vec<u8>,
}

impl CutCapture {
    /// Cuts at the STX at this place, counted in the capture's wire bytes.
    pub fn at(capture: &[u8], start: usize) -> CutCapture {
        CutCapture {
            front: capture[..start + 2].to_vec(),
            fresh: [&capture[..1], &capture[start + 1..]].concat(),
        }
    }
}

/// Whether listings agree with M-113: what the whole capture lists behind its
/// front is what the fresh line lists behind its STX. "The answer at the STX
/// itself may differ", so it belongs to the front; and so does what a fresh line
/// lists at an STX, where it does.
pub fn listings_agree(whole: &[u8], front: &[u8], fresh: &[u8], at_start: &[u8]) -> bool {
    match (whole.strip_prefix(front), fresh.strip_prefix(at_start)) {
        (Some(behind), Some(expected)) => behind == expected,
        _ => false,
    }
}

/// An answer of a line as M-113 compares it, without frame number and offset, and
/// the place of the byte that gave it, counted from the opening.
#[derive(Clone, Debug, PartialEq, Eq)]
pub struct LineAnswer {
    pub at: usize,
    pub number: u8,
    pub texts: [Vec<u8>; 3],
    pub place: usize,
}

/// A line from one opening to the next, by what a program replied.
#[derive(Clone, Debug)]
pub struct Period {
    /// The number of the opening among the calls, from 0.
    pub opened_by: usize,
    pub line: usize,
    pub mode: Mode,
    pub delivered: Vec<u8>,
    pub taken: usize,
    pub answers: Vec<LineAnswer>,
}

impl Period {
    /// The bytes that the rounds took.
    pub fn taken_bytes(&self) -> &[u8] {
        &self.delivered[..self.taken.min(self.delivered.len())]
    }

    /// The answers to so many bytes behind an STX, their places counted from it.
    pub fn answers_behind(&self, start: usize, count: usize) -> Vec<LineAnswer> {
        let behind = start + 1..start + 1 + count;
        let answers = self.answers.iter().filter(|one| behind.contains(&one.at));
        answers
            .map(|one| LineAnswer {
                at: one.at - start,
                ..one.clone()
            })
            .collect()
    }

    /// How many bytes were taken behind an STX.
    fn taken_behind(&self, start: usize) -> usize {
        self.taken.saturating_sub(start + 1)
    }
}

/// How many bytes two lines have both taken behind an STX. They are the same bytes
/// but for a program that refuses a delivery wrongly, and then only those count that
/// are.
pub fn taken_by_both(first: &Period, start: usize, fresh: &Period) -> usize {
    let taken = first.taken_behind(start).min(fresh.taken_behind(0));
    let fed = first.delivered.iter().skip(start);
    let same = fed
        .zip(&fresh.delivered)
        .take_while(|(one, other)| one == other);
    same.count().saturating_sub(1).min(taken)
}

/// Whether two lines agree with M-113, of which the second was freshly opened and
/// had the bytes from that STX on. Where one has taken fewer bytes, "its answers
/// are a beginning of the other's".
pub fn lines_agree(first: &Period, start: usize, fresh: &Period) -> bool {
    let count = taken_by_both(first, start, fresh);
    first.answers_behind(start, count) == fresh.answers_behind(0, count)
}

/// The lines of a history, from each opening to the next. None where the output
/// is not one that tells of these calls.
pub fn periods_of(calls: &[Call], output: &[u8]) -> Option<Vec<Period>> {
    let text = std::str::from_utf8(output).ok()?;
    let mut printed = text.lines();
    let mut periods: Vec<Period> = Vec::new();
    let mut open: [Option<usize>; LINES] = [None; LINES];
    for (index, call) in calls.iter().enumerate() {
        let words: Vec<&str> = printed.next()?.split(' ').collect();
        match call {
            Call::Open { line, mode } if words == ["O", "0"] => {
                let line = usize::from(*line);
                *open.get_mut(line)? = Some(periods.len());
                periods.push(Period {
                    opened_by: index,
                    line,
                    mode: Mode::from_number(*mode)?,
                    delivered: Vec::new(),
                    taken: 0,
                    answers: Vec::new(),
                });
            }
            Call::Deliver { line, bytes } if words == ["D", "0"] => {
                let period = (*open.get(usize::from(*line))?)?;
                periods[period].delivered.extend(bytes);
            }
            Call::Round { .. } if words.starts_with(&["R", "0"]) => {
                let (counts, entries) = read_round(&words[2..])?;
                for (line, period) in open.iter().enumerate() {
                    let Some(period) = period else { continue };
                    let period = &mut periods[*period];
                    period.taken += counts[line];
                    let entries = entries.iter().filter(|entry| entry.line == line);
                    // A turn "ends early after a byte that gives an answer".
                    period.answers.extend(entries.map(|entry| LineAnswer {
                        at: period.taken.saturating_sub(1),
                        number: entry.number,
                        texts: entry.texts.clone(),
                        place: entry.place,
                    }));
                }
            }
            _ => {}
        }
    }
    Some(periods)
}

/// The counts and the entries of an accepted round, from its eight numbers and its
/// sheet in hex.
fn read_round(words: &[&str]) -> Option<([usize; LINES], Vec<Entry>)> {
    let [numbers @ .., hex] = words else {
        return None;
    };
    let numbers: Vec<u8> = numbers
        .iter()
        .map(|word| word.parse().ok())
        .collect::<Option<_>>()?;
    let counts: [u8; LINES] = numbers.try_into().ok()?;
    let sheet = hex
        .as_bytes()
        .chunks(2)
        .map(|pair| u8::from_str_radix(std::str::from_utf8(pair).ok()?, 16).ok())
        .collect::<Option<_>>()?;
    let reply = Reply::Rounded {
        number: 0,
        counts,
        sheet,
    };
    Some((counts.map(usize::from), reply.readable_entries()?))
}

/// A line that is to be opened in a mode, and bytes for it.
#[derive(Clone, Debug)]
pub struct Stream {
    pub line: usize,
    pub mode: Mode,
    pub wire: Vec<u8>,
}

/// The shortest history of one line: it is opened, and everything is delivered and
/// taken before more is delivered.
pub fn plain_history(stream: &Stream) -> Vec<Item> {
    let line = stream.line as u8;
    let mut calls = vec![Call::Open {
        line,
        mode: stream.mode.number(),
    }];
    let mut station = Station::new();
    let round = Call::Round {
        size: SMALLEST_SHEET,
        fill: 0,
    };
    let _ = station.open(line, stream.mode.number());
    for piece in stream.wire.chunks(INBOX_SIZE) {
        let _ = station.deliver(line, piece);
        calls.push(Call::Deliver {
            line,
            bytes: piece.to_vec(),
        });
        while station.inbox_length(line) != Some(0) {
            let _ = station.round(&mut [0; SMALLEST_SHEET]);
            calls.push(round.clone());
        }
    }
    calls.into_iter().map(Item::Call).collect()
}

/// A line of a history that took a sound STX, and the one of the second history
/// that was freshly opened for the bytes from there on.
#[derive(Clone, Copy, Debug)]
pub struct Pair {
    /// Which call opened it, and the place of the STX since then.
    pub opened_by: usize,
    pub start: usize,
    /// Which call of the second history opened the fresh one.
    pub fresh_by: usize,
}

/// The line that was opened by this call.
pub fn opened_by(periods: &[Period], call: usize) -> Option<&Period> {
    periods.iter().find(|one| one.opened_by == call)
}

/// A history's calls and log, and what a program printed for it.
#[derive(Clone)]
pub struct Replayed {
    pub calls: Vec<Call>,
    pub log: Vec<u8>,
    pub output: Vec<u8>,
}

impl Replayed {
    /// A history and what this reader prints for it.
    pub fn by_this_reader(items: &[Item]) -> Replayed {
        let log = log_bytes(items);
        Replayed {
            calls: read_log(&log).calls,
            output: replay(&log).into_bytes(),
            log,
        }
    }

    /// The same history with what another program printed.
    pub fn with_output(&self, output: Vec<u8>) -> Replayed {
        Replayed {
            output,
            ..self.clone()
        }
    }

    /// The lines of it, where the output can be read.
    pub fn periods(&self) -> Option<Vec<Period>> {
        periods_of(&self.calls, &self.output)
    }
}

/// The first pair that does not agree with M-113, by what a program printed for
/// both histories; the first one is told too where that can't be read.
pub fn find_parting(pairs: &[Pair], first: &Replayed, second: &Replayed) -> Option<Pair> {
    let (Some(first), Some(second)) = (first.periods(), second.periods()) else {
        return pairs.first().copied();
    };
    let agrees = |pair: &Pair| match (
        opened_by(&first, pair.opened_by),
        opened_by(&second, pair.fresh_by),
    ) {
        (Some(line), Some(fresh)) => lines_agree(line, pair.start, fresh),
        _ => false,
    };
    pairs.iter().find(|pair| !agrees(pair)).copied()
}
