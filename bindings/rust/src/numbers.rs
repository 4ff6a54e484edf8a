//! Document 01's numbers as enums, and in words.

use core::fmt;

/// What the numbers of document 01's table mean, 0 to 20; `espandim_words` of `include/espandim.h` has the same.
const WORDS: [&str; 21] = [
    "a call that is not refused",
    "group accepted",
    "frame ended, unflawed",
    "frame ended, flawed",
    "frame interrupted by EOT",
    "STX before the frame ended",
    "LF inside a group",
    "a damaged byte in the group",
    "content over 128",
    "no separators where they must be, or under 4 characters",
    "check character wrong",
    "label not in the mode's list",
    "stamp not right",
    "data not of the width",
    "a data character not of the kind",
    "inbox or lent buffer too short for all",
    "line number 8 or more",
    "delivery to a closed line",
    "sheet under 1,096 bytes",
    "mode not 0 to 2",
    "capture empty or not begun by H, S or P",
];

/// What a number of document 01's table means, in English; 20 is the number of a listing.
///
/// `None` for a number that is not in the table, as [`Notice::from_number`] and [`Refusal::from_number`] have it: what to
/// say of it is the caller's own choice.
///
/// ```
/// assert_eq!(espandim::words(10), Some("check character wrong"));
/// assert_eq!(espandim::words(21), None);
/// ```
pub fn words(number: u32) -> Option<&'static str> {
    WORDS.get(usize::try_from(number).ok()?).copied()
}

/// The words of a number that is in the table, and the number.
fn say(number: u32, to: &mut fmt::Formatter<'_>) -> fmt::Result {
    write!(to, "{} ({number})", WORDS[number as usize])
}

/// How a meter speaks. The number is document 01's, and for the business meter document 02's.
#[derive(Clone, Copy, Debug, PartialEq, Eq, Hash)]
#[repr(u32)]
pub enum Mode {
    /// Mode 0, separator SP.
    Historic = 0,
    /// Mode 1, separator HT.
    Standard = 1,
    /// Mode 2, separator SP: the PME-PMI, the business meter of document 02, M-100. It has no stamps: dates are data.
    Business = 2,
}

impl Mode {
    /// The number of the mode, 0 to 2.
    pub const fn number(self) -> u32 {
        self as u32
    }

    /// The mode with this number.
    pub const fn from_number(number: u32) -> Option<Mode> {
        Some(match number {
            0 => Mode::Historic,
            1 => Mode::Standard,
            2 => Mode::Business,
            _ => return None,
        })
    }
}

/// The mode with this number, as it came from a message or a file of settings; [`Refusal::ModeUnknown`] (19) for any other.
impl TryFrom<u32> for Mode {
    type Error = Refusal;

    fn try_from(number: u32) -> Result<Mode, Refusal> {
        Mode::from_number(number).ok_or(Refusal::ModeUnknown)
    }
}

/// What a line tells of its frames and groups, a group that is accepted or refused apart. The number is document 01's.
#[derive(Clone, Copy, Debug, PartialEq, Eq, Hash)]
#[repr(u32)]
pub enum Notice {
    /// The frame ended, unflawed.
    FrameSound = 2,
    /// The frame ended, flawed.
    FrameFlawed = 3,
    /// EOT interrupted the frame.
    FrameInterrupted = 4,
    /// STX came before the frame ended.
    FrameRestarted = 5,
    /// LF came inside a group.
    GroupRestarted = 6,
    /// A byte of the group was damaged, so that its content is not judged.
    GroupDamaged = 7,
}

impl Notice {
    /// Document 01's number of the notice, 2 to 7.
    pub const fn number(self) -> u32 {
        self as u32
    }

    /// The notice with this number.
    pub const fn from_number(number: u32) -> Option<Notice> {
        Some(match number {
            2 => Notice::FrameSound,
            3 => Notice::FrameFlawed,
            4 => Notice::FrameInterrupted,
            5 => Notice::FrameRestarted,
            6 => Notice::GroupRestarted,
            7 => Notice::GroupDamaged,
            _ => return None,
        })
    }
}

/// The notice in [`words`], with its number: `frame ended, flawed (3)`.
impl fmt::Display for Notice {
    fn fmt(&self, to: &mut fmt::Formatter<'_>) -> fmt::Result {
        say(self.number(), to)
    }
}

/// Why a group or a call is refused: 8 to 14 are those of a group that is read or written, 15 to 19 those of the calls. The
/// number is document 01's. A refused call changes nothing.
#[derive(Clone, Copy, Debug, PartialEq, Eq, Hash)]
#[repr(u32)]
pub enum Refusal {
    /// The content has over 128 characters.
    TooLong = 8,
    /// The content has under 4 characters, or its separators not where they must be.
    Misshapen = 9,
    /// The check character is wrong.
    CheckWrong = 10,
    /// The label is not in the mode's list.
    LabelUnknown = 11,
    /// The stamp is not right; in writing also where it is missing, or given to a label that has none, as none of
    /// [`Mode::Business`] has.
    StampWrong = 12,
    /// The data are not of the label's width; in [`Mode::Business`], shorter than its smallest or longer than its largest.
    WidthWrong = 13,
    /// A character of the data is not of the label's kind; in [`Mode::Business`], any other data that do not fit the label's
    /// fields.
    KindWrong = 14,
    /// The inbox, or the buffer to write to, has no room for all bytes.
    NoRoom = 15,
    /// The line's number is 8 or more.
    LineUnknown = 16,
    /// The line is closed.
    LineClosed = 17,
    /// The sheet has under 1,096 bytes. Document 01 has the number, but no call of this crate gives it: a [`Round`]
    /// brings a sheet of 1,096 bytes with it.
    ///
    /// [`Round`]: crate::Round
    SheetShort = 18,
    /// The mode is not 0 to 2. Only what takes a mode's raw number gives it.
    ModeUnknown = 19,
}

impl Refusal {
    /// Document 01's number of the refusal, 8 to 19.
    pub const fn number(self) -> u32 {
        self as u32
    }

    /// The refusal with this number.
    pub const fn from_number(number: u32) -> Option<Refusal> {
        Some(match number {
            8 => Refusal::TooLong,
            9 => Refusal::Misshapen,
            10 => Refusal::CheckWrong,
            11 => Refusal::LabelUnknown,
            12 => Refusal::StampWrong,
            13 => Refusal::WidthWrong,
            14 => Refusal::KindWrong,
            15 => Refusal::NoRoom,
            16 => Refusal::LineUnknown,
            17 => Refusal::LineClosed,
            18 => Refusal::SheetShort,
            19 => Refusal::ModeUnknown,
            _ => return None,
        })
    }
}

/// The refusal in [`words`], with its number: `line number 8 or more (16)`.
impl fmt::Display for Refusal {
    fn fmt(&self, to: &mut fmt::Formatter<'_>) -> fmt::Result {
        say(self.number(), to)
    }
}

impl core::error::Error for Refusal {}

/// Why a group is refused that was read, given alone or on a line, and where in its content it went wrong (document 02,
/// M-104).
#[derive(Clone, Copy, Debug, PartialEq, Eq, Hash)]
pub struct Fault {
    /// Why it is refused: 8 to 14, or 19 from [`judge_raw`](crate::judge_raw).
    pub refusal: Refusal,
    /// Where it went wrong, an index of the content: some place for 12 and 14, and none for all others.
    ///
    /// For [`Refusal::StampWrong`] (12) it is the first character after the label's separator, whatever is wrong with the
    /// stamp: the final separator where nothing stands between them. For [`Refusal::KindWrong`] (14) it is the first wrong
    /// data character: in [`Mode::Business`] the first that no fitting data of that length have there after the same
    /// beginning, and the first of all where no fitting data have that length.
    pub place: Option<usize>,
}

impl Fault {
    /// The archive tells 0 where there is no place. A label and its separator stand before every place that there is.
    pub(crate) fn told(refusal: Refusal, place: usize) -> Fault {
        Fault {
            refusal,
            place: (place > 0).then_some(place),
        }
    }

    /// Document 01's number of the refusal.
    pub const fn number(self) -> u32 {
        self.refusal.number()
    }
}

/// The refusal in [`words`], with its number, and the place where there is one: `stamp not right (12), place 5`.
impl fmt::Display for Fault {
    fn fmt(&self, to: &mut fmt::Formatter<'_>) -> fmt::Result {
        self.refusal.fmt(to)?;
        match self.place {
            Some(place) => write!(to, ", place {place}"),
            None => Ok(()),
        }
    }
}

impl core::error::Error for Fault {}

/// For whoever asks why, and not where: `?` takes a fault to a refusal.
impl From<Fault> for Refusal {
    fn from(fault: Fault) -> Refusal {
        fault.refusal
    }
}

/// What the number that a call gave means: `accepted`, or why it is refused.
pub(crate) fn outcome(number: u32, accepted: u32) -> Result<(), Refusal> {
    if number == accepted {
        return Ok(());
    }
    Err(Refusal::from_number(number).unwrap_or_else(|| not_the_archive(number)))
}

/// The contracts leave no other numbers than those that are looked for, so another archive has been linked.
pub(crate) fn not_the_archive(number: u32) -> ! {
    panic!("the linked archive answered {number}, which the proved one does not answer here")
}
