//! One group, read and written (document 01, "One group"; document 02, M-100,
//! M-101 and M-104).

use crate::numbers::{Fault, Refusal};
use crate::table::{find_rule, Mode, Rule, Season};
use crate::wire::{all_to_wire, CARRIAGE_RETURN, HORIZONTAL_TAB, LINE_FEED};

/// "Any other sound character in a group is content, up to 128."
pub const LONGEST_CONTENT: usize = 128;

/// "A season letter, then YYMMDDhhmmss": 13 characters.
pub const STAMP_LENGTH: usize = 13;

/// "Label, stamp and data as stretches of its own bytes, not copies."
#[derive(Clone, Copy, Debug, PartialEq, Eq)]
pub struct Stretches<'content> {
    pub label: &'content [u8],
    pub stamp: &'content [u8],
    pub data: &'content [u8],
}

/// What judging one group gives.
#[derive(Clone, Copy, Debug, PartialEq, Eq)]
pub enum Judgement<'content> {
    Accepted(Stretches<'content>),
    Refused(Fault),
}

impl<'content> Judgement<'content> {
    /// 1, or the refusal's number.
    pub fn number(&self) -> u8 {
        match self {
            Judgement::Accepted(_) => 1,
            Judgement::Refused(fault) => fault.refusal.number(),
        }
    }

    /// Document 02, M-104: "Let judging a group also tell a place in the content,
    /// counted from 0"; it is 0 for an accepted group.
    pub fn place(&self) -> usize {
        match self {
            Judgement::Accepted(_) => 0,
            Judgement::Refused(fault) => fault.place,
        }
    }

    /// "Refused judging shows three empty stretches."
    pub fn stretches(&self) -> Stretches<'content> {
        match self {
            Judgement::Accepted(stretches) => *stretches,
            Judgement::Refused(_) => Stretches {
                label: &[],
                stamp: &[],
                data: &[],
            },
        }
    }
}

/// "Check character: add the character codes, take the remainder by 64, add
/// 32." A byte of 128 or more "enters the sum with its full number".
pub fn check_character(summed: &[u8]) -> u8 {
    let sum: u64 = summed.iter().map(|one| u64::from(*one)).sum();
    (sum % 64) as u8 + 32
}

/// Whether a stamp is right: "a season letter, then YYMMDDhhmmss"; "The season
/// is H or E", by document 02, M-101, also h or e, and SP alone for DPM and
/// FPM; "Month 01 to 12; day within that month, February having 29 days when
/// YY divides by 4; hour 00 to 23; minute and second 00 to 59."
pub fn stamp_is_right(season: Season, stamp: &[u8]) -> bool {
    if stamp.len() != STAMP_LENGTH {
        return false;
    }
    if !season.characters().contains(&stamp[0]) || !stamp[1..].iter().all(u8::is_ascii_digit) {
        return false;
    }
    let fields: Vec<u32> = stamp[1..]
        .chunks(2)
        .map(|pair| u32::from(pair[0] - b'0') * 10 + u32::from(pair[1] - b'0'))
        .collect();
    let (year, month, day) = (fields[0], fields[1], fields[2]);
    let (hour, minute, second) = (fields[3], fields[4], fields[5]);
    (1..=12).contains(&month)
        && (1..=days_in_month(year, month)).contains(&day)
        && hour <= 23
        && minute <= 59
        && second <= 59
}

/// "Day within that month, February having 29 days when YY divides by 4."
pub fn days_in_month(year: u32, month: u32) -> u32 {
    match month {
        2 if year.is_multiple_of(4) => 29,
        2 => 28,
        4 | 6 | 9 | 11 => 30,
        _ => 31,
    }
}

/// "Judging one group given alone." Order: 19, then "7 to 14 as numbered"; 7
/// is "line only".
pub fn judge(mode_number: u8, content: &[u8]) -> Judgement<'_> {
    match take_apart(mode_number, content) {
        Ok(stretches) => Judgement::Accepted(stretches),
        Err(fault) => Judgement::Refused(fault),
    }
}

fn take_apart(mode_number: u8, content: &[u8]) -> Result<Stretches<'_>, Fault> {
    let mode = Mode::from_number(mode_number).ok_or(Refusal::UnknownMode)?;
    if content.len() > LONGEST_CONTENT {
        return Err(Refusal::ContentTooLong.into());
    }
    let shape = find_shape(mode, content).ok_or(Refusal::WrongShape)?;
    if shape.check != check_character(shape.summed) {
        return Err(Refusal::WrongCheckCharacter.into());
    }
    let rule = find_rule(mode, shape.label).ok_or(Refusal::UnknownLabel)?;
    let (stamp, data) = match rule.stamp {
        None => (&content[..0], shape.rest),
        // "For 12 the first character after the label's separator", whatever is
        // wrong with the stamp. That may be the final separator itself.
        Some(season) => part_stamp(season, shape.rest).ok_or(Fault {
            refusal: Refusal::WrongStamp,
            place: shape.label.len() + 1,
        })?,
    };
    judge_data(rule, data).map_err(|refusal| match refusal {
        Refusal::WrongKind => Fault {
            refusal,
            place: place_of_wrong_data(rule, content, data),
        },
        other => other.into(),
    })?;
    Ok(Stretches {
        label: shape.label,
        stamp,
        data,
    })
}

/// The parts of a content that has the shape of a group.
struct Shape<'content> {
    label: &'content [u8],
    /// What stands between the first separator and the final one.
    rest: &'content [u8],
    /// What the sum runs over.
    summed: &'content [u8],
    check: u8,
}

/// "The last character is the check character, the one before it must be a
/// separator." "The label ends before the first separator." None for 9.
fn find_shape(mode: Mode, content: &[u8]) -> Option<Shape<'_>> {
    if content.len() < 4 {
        return None;
    }
    let (check, through_separator) = content.split_last()?;
    let (final_separator, body) = through_separator.split_last()?;
    if *final_separator != mode.separator() {
        return None;
    }
    // A body without a separator means: the first separator "is that final
    // one".
    let label_end = body.iter().position(|one| *one == mode.separator())?;
    if label_end == 0 {
        return None;
    }
    Some(Shape {
        label: &body[..label_end],
        rest: &body[label_end + 1..],
        summed: summed_part(mode, through_separator),
        check: *check,
    })
}

/// What the sum runs over, of a content through its final separator.
pub fn summed_part(mode: Mode, through_separator: &[u8]) -> &[u8] {
    if mode.sums_final_separator() {
        through_separator
    } else {
        &through_separator[..through_separator.len() - 1]
    }
}

/// "A stamped label is followed by 13 characters of stamp and an HT that is
/// not the final separator." What is given here ends before the final one.
fn part_stamp(season: Season, rest: &[u8]) -> Option<(&[u8], &[u8])> {
    if rest.get(STAMP_LENGTH) != Some(&HORIZONTAL_TAB) {
        return None;
    }
    let stamp = &rest[..STAMP_LENGTH];
    if !stamp_is_right(season, stamp) {
        return None;
    }
    Some((stamp, &rest[STAMP_LENGTH + 1..]))
}

/// 13, "data not of the width", then 14, "a data character not of the kind".
/// Document 02, M-100: of several fields or a varying length, "13 is a length
/// outside" the smallest and the largest, "14 any other data that don't fit the
/// fields", also where no alternative has the length.
fn judge_data(rule: &Rule, data: &[u8]) -> Result<(), Refusal> {
    if !(rule.shortest..=rule.longest).contains(&data.len()) {
        return Err(Refusal::WrongWidth);
    }
    if !rule.format.fits(data) {
        return Err(Refusal::WrongKind);
    }
    Ok(())
}

/// "For 14 the first wrong data character." Counted from the end of the content,
/// the data stand before the final separator and the check character.
fn place_of_wrong_data(rule: &Rule, content: &[u8], data: &[u8]) -> usize {
    let wrong = rule.format.first_wrong(data);
    content.len() - 2 - data.len() + wrong.expect("data that do not fit go wrong somewhere")
}

/// The wire bytes of a group: "LF, content and CR as sound wire bytes".
/// "Writer: 19, 11, 12, 13, 14".
pub fn compose(
    mode_number: u8,
    label: &[u8],
    stamp: &[u8],
    data: &[u8],
) -> Result<Vec<u8>, Refusal> {
    let mode = Mode::from_number(mode_number).ok_or(Refusal::UnknownMode)?;
    let rule = find_rule(mode, label).ok_or(Refusal::UnknownLabel)?;
    // "Stamp not right, missing, or given for an unstamped label": an empty
    // stamp is one that is not given.
    let stamp_fits = match rule.stamp {
        None => stamp.is_empty(),
        Some(season) => stamp_is_right(season, stamp),
    };
    if !stamp_fits {
        return Err(Refusal::WrongStamp);
    }
    judge_data(rule, data)?;
    let fields: Vec<&[u8]> = match rule.stamp {
        None => vec![label, data],
        Some(_) => vec![label, stamp, data],
    };
    let separator = [mode.separator()];
    let body = fields.join(&separator[..]);
    let through_separator = [&body[..], &separator[..]].concat();
    let check = check_character(summed_part(mode, &through_separator));
    let characters = [
        &[LINE_FEED][..],
        &through_separator[..],
        &[check, CARRIAGE_RETURN][..],
    ]
    .concat();
    Ok(all_to_wire(&characters))
}

/// Writes a group "at the start of a lent buffer, the rest unchanged", and
/// "tells how many bytes it wrote". 15 comes last; "every refused writing
/// changes no lent byte".
pub fn write(
    mode_number: u8,
    label: &[u8],
    stamp: &[u8],
    data: &[u8],
    buffer: &mut [u8],
) -> Result<usize, Refusal> {
    let wire = compose(mode_number, label, stamp, data)?;
    if wire.len() > buffer.len() {
        return Err(Refusal::NoRoom);
    }
    buffer[..wire.len()].copy_from_slice(&wire);
    Ok(wire.len())
}
