//! The answers and refusals of document 01's table "Numbers", 13, 14, 19 and 20
//! as document 02, M-100, changes them, and 18 as M-108 does, and the place that
//! M-104 adds.

/// A refusal, by the sentence of the table that gives it.
#[derive(Clone, Copy, Debug, PartialEq, Eq, PartialOrd, Ord)]
pub enum Refusal {
    /// 7: "a damaged byte in the group (line only)"
    DamagedByte,
    /// 8: "content over 128"
    ContentTooLong,
    /// 9: "under 4 characters, or no separator just before the last, or the
    /// first separator is first of all or is that final one"
    WrongShape,
    /// 10: "check character wrong"
    WrongCheckCharacter,
    /// 11: "label not in the mode's list"
    UnknownLabel,
    /// 12: the stamp is not right, missing, or given where none belongs
    WrongStamp,
    /// 13: "data not of the width", or of a length outside the smallest and
    /// the largest
    WrongWidth,
    /// 14: "a data character not of the kind", or "any other data that don't
    /// fit the fields"
    WrongKind,
    /// 15: "inbox or lent buffer too short for all"
    NoRoom,
    /// 16: "line number 8 or more"
    NoSuchLine,
    /// 17: "delivery to a closed line"
    LineClosed,
    /// 18: "sheet under 1,096 bytes"
    SheetTooShort,
    /// 19: "a mode not 0 to 2"
    UnknownMode,
    /// 20: capture empty or "not begun by H, S or P"
    BadCapture,
}

impl Refusal {
    /// The number of the table.
    pub fn number(self) -> u8 {
        match self {
            Refusal::DamagedByte => 7,
            Refusal::ContentTooLong => 8,
            Refusal::WrongShape => 9,
            Refusal::WrongCheckCharacter => 10,
            Refusal::UnknownLabel => 11,
            Refusal::WrongStamp => 12,
            Refusal::WrongWidth => 13,
            Refusal::WrongKind => 14,
            Refusal::NoRoom => 15,
            Refusal::NoSuchLine => 16,
            Refusal::LineClosed => 17,
            Refusal::SheetTooShort => 18,
            Refusal::UnknownMode => 19,
            Refusal::BadCapture => 20,
        }
    }
}

/// A refused group: why, and "a place in the content, counted from 0" (document
/// 02, M-104).
#[derive(Clone, Copy, Debug, PartialEq, Eq)]
pub struct Fault {
    pub refusal: Refusal,
    pub place: usize,
}

/// "For all others 0": a refusal that is given no place has that.
impl From<Refusal> for Fault {
    fn from(refusal: Refusal) -> Fault {
        Fault { refusal, place: 0 }
    }
}

/// The number of an opening, delivery, writing or round: 0 when it "is not
/// refused", else the refusal's number.
pub fn number_of_call<Done>(result: &Result<Done, Refusal>) -> u8 {
    match result {
        Ok(_) => 0,
        Err(refusal) => refusal.number(),
    }
}

/// What a byte on a line can give ("Each byte gives at most one answer").
#[derive(Clone, Debug, PartialEq, Eq)]
pub enum Answer {
    /// 1: "group accepted", with its texts; an absent stamp is empty.
    GroupAccepted {
        label: String,
        stamp: String,
        data: String,
    },
    /// 2 or 3: "frame ended, unflawed or flawed"
    FrameEnded { flawed: bool },
    /// 4: "frame interrupted by EOT"
    FrameInterrupted,
    /// 5: "STX before the frame ended"
    FrameBegunAgain,
    /// 6: "LF inside a group"
    LineFeedInsideGroup,
    /// 7 to 14: the group that a CR closed is refused.
    GroupRefused(Fault),
}

impl Answer {
    /// The number of the table.
    pub fn number(&self) -> u8 {
        match self {
            Answer::GroupAccepted { .. } => 1,
            Answer::FrameEnded { flawed: false } => 2,
            Answer::FrameEnded { flawed: true } => 3,
            Answer::FrameInterrupted => 4,
            Answer::FrameBegunAgain => 5,
            Answer::LineFeedInsideGroup => 6,
            Answer::GroupRefused(fault) => fault.refusal.number(),
        }
    }
}
