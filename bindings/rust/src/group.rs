//! The reader and the writer of one group, given alone.

use crate::boundary;
use crate::numbers::{outcome, Fault, Mode, Refusal};
use core::fmt;

/// How many characters a group's content may have.
pub const MOST_CONTENT: usize = 128;

/// Bytes that are enough for every group: LF, content and CR. The longest that is written, a `PJOURF+1`, has 111.
pub const MOST_WRITTEN: usize = MOST_CONTENT + 2;

/// The fields of an accepted group, as parts of the content that was judged.
#[derive(Clone, Copy, Debug, PartialEq, Eq)]
pub struct Group<'a> {
    /// The label.
    pub label: &'a [u8],
    /// The stamp, as it came: the season, then YYMMDDhhmmss; empty where the label has none. The season is `H` in winter and
    /// `E` in summer, and `h` or `e` from a clock in degraded mode, which lost its time and was not set again yet. For DPM1
    /// to DPM3 and FPM1 to FPM3 it is a space. In [`Mode::Business`] it is always empty.
    pub stamp: &'a [u8],
    /// The data, with every space that belongs to them. In [`Mode::Business`] a date is data: DD/MM/YY hh:mm:ss.
    pub data: &'a [u8],
}

/// Judges the content of one group, what stands between LF and CR, in characters with no parity bit.
///
/// # Errors
///
/// 8 to 14, from [`Refusal::TooLong`] to [`Refusal::KindWrong`]: the first that holds. With 12 and 14 comes the place in the
/// content where the stamp or the data went wrong:
///
/// ```
/// use espandim::{judge, Mode, Refusal};
///
/// let content = b"STGE\t003a0001\tZ";
/// let fault = judge(Mode::Standard, content).unwrap_err();
/// assert_eq!(fault.refusal, Refusal::KindWrong);
/// assert_eq!(fault.place.map(|place| content[place]), Some(b'a')); // the digits of STGE are large ones
/// assert_eq!(fault.to_string(), "a data character not of the kind (14), place 8");
/// ```
pub fn judge(mode: Mode, content: &[u8]) -> Result<Group<'_>, Fault> {
    judge_raw(mode.number(), content)
}

/// Judges the content of one group in the mode with this number.
///
/// # Errors
///
/// [`Refusal::ModeUnknown`] (19), then as [`judge`].
pub fn judge_raw(mode: u32, content: &[u8]) -> Result<Group<'_>, Fault> {
    let (mut stretches, mut place) = ([0; 6], 0);
    let number = boundary::judge(mode, content, &mut stretches, &mut place);
    outcome(number, 1).map_err(|refusal| Fault::told(refusal, place))?;
    let [label, label_length, stamp, stamp_length, data, data_length] = stretches;
    Ok(Group {
        label: &content[label..][..label_length],
        stamp: &content[stamp..][..stamp_length],
        data: &content[data..][..data_length],
    })
}

/// A group as sound wire bytes: LF, its content, and CR.
#[derive(Clone)]
pub struct Written {
    buffer: [u8; MOST_WRITTEN],
    length: usize,
}

impl Written {
    /// The wire bytes.
    pub fn as_bytes(&self) -> &[u8] {
        &self.buffer[..self.length]
    }
}

impl fmt::Debug for Written {
    fn fmt(&self, to: &mut fmt::Formatter<'_>) -> fmt::Result {
        to.debug_tuple("Written").field(&self.as_bytes()).finish()
    }
}

/// Writes the group with these fields; an empty stamp is one that is not given.
///
/// # Errors
///
/// 11 to 14, from [`Refusal::LabelUnknown`] to [`Refusal::KindWrong`]: the first that holds. There is always room, so
/// 15 is not given.
pub fn write(mode: Mode, label: &[u8], stamp: &[u8], data: &[u8]) -> Result<Written, Refusal> {
    let mut buffer = [0; MOST_WRITTEN];
    let length = write_raw(mode.number(), label, stamp, data, &mut buffer)?;
    Ok(Written { buffer, length })
}

/// Writes the group with these fields, in the mode with this number, at the start of a buffer of the caller's own, and
/// tells how many bytes that are. The rest of the buffer stays as it was.
///
/// # Errors
///
/// [`Refusal::ModeUnknown`] (19), then as [`write()`], then [`Refusal::NoRoom`] (15). All of them leave the buffer as
/// it was.
pub fn write_raw(
    mode: u32,
    label: &[u8],
    stamp: &[u8],
    data: &[u8],
    buffer: &mut [u8],
) -> Result<usize, Refusal> {
    let mut written = 0;
    outcome(
        boundary::write(mode, label, stamp, data, buffer, &mut written),
        0,
    )?;
    Ok(written)
}
