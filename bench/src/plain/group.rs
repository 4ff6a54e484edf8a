//! One group, judged: document 01's tests in document 01's order.

use super::business;
use super::stamp::{self, STAMP_LENGTH};
use super::table::{self, Kind, Mode};

/// Why a group is refused, or what else a line tells: document 01's numbers.
#[derive(Clone, Copy, PartialEq, Eq)]
#[repr(u8)]
pub enum Notice {
    FrameSound = 2,
    FrameFlawed = 3,
    FrameInterrupted = 4,
    FrameRestarted = 5,
    GroupRestarted = 6,
    GroupDamaged = 7,
    TooLong = 8,
    Misshapen = 9,
    CheckWrong = 10,
    LabelUnknown = 11,
    StampWrong = 12,
    WidthWrong = 13,
    KindWrong = 14,
}

/// Why a group is refused, and where in its content it went wrong (document 02, M-104): 0 for all but 12 and 14.
#[derive(Clone, Copy)]
pub struct Fault {
    pub notice: Notice,
    pub place: u8,
}

impl From<Notice> for Fault {
    fn from(notice: Notice) -> Fault {
        Fault { notice, place: 0 }
    }
}

/// Label, stamp and data as stretches of the content. An absent stamp is an empty one.
#[derive(Clone, Copy)]
pub struct Fields<'content> {
    pub label: &'content [u8],
    pub stamp: &'content [u8],
    pub data: &'content [u8],
}

/// Judges a content of at most 128 characters; the line has seen to that.
///
/// Where the line alone calls it, the compiler puts it into the line's loop unasked. It is asked to, since the look-up is
/// measured by a second call, which would otherwise slow the line down by 4 to 8 parts in a hundred.
#[inline(always)]
pub fn judge(mode: Mode, content: &[u8]) -> Result<Fields<'_>, Fault> {
    let separator = mode.separator();
    let [body @ .., last_separator, check] = content else {
        return Err(Notice::Misshapen.into());
    };
    // A body without a separator has the final one for its first.
    let Some(label_end) = body.iter().position(|&one| one == separator) else {
        return Err(Notice::Misshapen.into());
    };
    if *last_separator != separator || label_end == 0 {
        return Err(Notice::Misshapen.into());
    }
    if *check != check_character(mode, body) {
        return Err(Notice::CheckWrong.into());
    }
    let (label, rest) = (&body[..label_end], &body[label_end + 1..]);
    let rule = table::find(mode, label).ok_or(Notice::LabelUnknown)?;
    let (stamp, data) = match rule.season {
        None => (&rest[..0], rest),
        Some(season) => match rest.split_first_chunk::<STAMP_LENGTH>() {
            Some((stamp, [tab, data @ ..]))
                if *tab == separator && stamp::is_right(season, stamp) =>
            {
                (&stamp[..], data)
            }
            _ => {
                return Err(Fault {
                    notice: Notice::StampWrong,
                    place: (label_end + 1) as u8,
                })
            }
        },
    };
    let (smallest, largest) = rule.lengths;
    if !(usize::from(smallest)..=usize::from(largest)).contains(&data.len()) {
        return Err(Notice::WidthWrong.into());
    }
    if !all_of_kind(rule.kind, data) {
        let place = body.len() - data.len() + first_wrong(rule.kind, data);
        return Err(Fault {
            notice: Notice::KindWrong,
            place: place as u8,
        });
    }
    Ok(Fields { label, stamp, data })
}

/// The check character of what stands before the final separator. Standard mode counts that separator too.
pub fn check_character(mode: Mode, body: &[u8]) -> u8 {
    let sum: u32 = body.iter().map(|&one| u32::from(one)).sum();
    let counted = match mode {
        Mode::Historic | Mode::Business => sum,
        Mode::Standard => sum + u32::from(mode.separator()),
    };
    (counted % 64) as u8 + 32
}

fn all_of_kind(kind: Kind, data: &[u8]) -> bool {
    match kind {
        Kind::Decimal => all_digits(data),
        Kind::Hexadecimal => all(data, is_hexadecimal),
        Kind::Text => all_text(data),
        _ => business::has_fields(kind, data),
    }
}

/// Where data of a right length that are not of their kind go wrong. Only refused data are gone over again for it.
#[cold]
fn first_wrong(kind: Kind, data: &[u8]) -> usize {
    let first_not = |is_right: fn(u8) -> bool| data.iter().position(|&one| !is_right(one));
    match kind {
        Kind::Decimal => first_not(|one| one.is_ascii_digit()).unwrap_or(0),
        Kind::Hexadecimal => first_not(is_hexadecimal).unwrap_or(0),
        Kind::Text => first_not(is_text).unwrap_or(0),
        _ => business::first_wrong(kind, data),
    }
}

fn is_hexadecimal(one: u8) -> bool {
    matches!(one, b'0'..=b'9' | b'A'..=b'F')
}

pub fn is_text(one: u8) -> bool {
    matches!(one, b' '..=b'~')
}

pub fn all_digits(data: &[u8]) -> bool {
    all(data, |one| one.is_ascii_digit())
}

pub fn all_text(data: &[u8]) -> bool {
    all(data, is_text)
}

/// Whether all are right: eight are tested at once, and what is left one by one.
fn all(data: &[u8], is_right: impl Fn(u8) -> bool) -> bool {
    let mut eights = data.chunks_exact(8);
    eights.all(|eight| eight.iter().fold(true, |all, &one| all & is_right(one)))
        && eights.remainder().iter().all(|&one| is_right(one))
}
