//! The listing of a capture (document 01, "The listing"; document 02, M-100 and
//! M-104).

use crate::line::{read_whole, PlacedAnswer};
use crate::numbers::{Answer, Fault, Refusal};
use crate::table::Mode;

/// The mode of a capture and its wire bytes, or 20: "capture empty", or "not
/// begun by H, S or P" (document 02, M-100).
pub fn open_capture(capture: &[u8]) -> Result<(Mode, &[u8]), Refusal> {
    let (first, wire) = capture.split_first().ok_or(Refusal::BadCapture)?;
    let mode = Mode::from_letter(*first).ok_or(Refusal::BadCapture)?;
    Ok((mode, wire))
}

/// All answers of a capture, their places counted in its wire bytes, or 20.
pub fn answers_of_capture(capture: &[u8]) -> Result<Vec<PlacedAnswer>, Refusal> {
    let (mode, wire) = open_capture(capture)?;
    Ok(read_whole(mode, wire))
}

/// "Output: a line per answer." "Bad capture: `20`."
pub fn listing(capture: &[u8]) -> String {
    match answers_of_capture(capture) {
        Err(refusal) => format!("{}\n", refusal.number()),
        Ok(answers) => answers
            .iter()
            .map(|placed| listing_line(&placed.answer))
            .collect(),
    }
}

/// "The number; for 1 also a space, label, space, stamp or `-`, space, data."
/// Document 02, M-104: "a space and the place after 12 and 14".
fn listing_line(answer: &Answer) -> String {
    match answer {
        Answer::GroupAccepted { label, stamp, data } => {
            let shown_stamp = if stamp.is_empty() { "-" } else { stamp };
            format!("{} {label} {shown_stamp} {data}\n", answer.number())
        }
        Answer::GroupRefused(Fault {
            refusal: Refusal::WrongStamp | Refusal::WrongKind,
            place,
        }) => format!("{} {place}\n", answer.number()),
        _ => format!("{}\n", answer.number()),
    }
}
