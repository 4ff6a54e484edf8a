//! Counts a capture's answers with the plain reader, as the proved program `tally` does: the loop of the line, with
//! next to nothing around it.

use crate::plain::line::Line;
use crate::plain::table::Mode;
use std::io::{self, Read};

/// The program reads its input in pieces of this size, so the plain reader does too.
const PIECE: usize = 4096;

/// The text of the counts: the numbers 1 to 14, each with how often it was given; `20` for a bad capture.
pub fn of(input: &mut impl Read) -> io::Result<String> {
    let mut letter = [0];
    if input.read(&mut letter)? == 0 {
        return Ok("20\n".to_string());
    }
    let Some(mode) = Mode::from_letter(letter[0]) else {
        return Ok("20\n".to_string());
    };
    let mut line = Line::new(mode);
    let mut counts = [0u64; 15];
    let mut piece = [0; PIECE];
    loop {
        let length = input.read(&mut piece)?;
        if length == 0 {
            break;
        }
        let mut rest = &piece[..length];
        while !rest.is_empty() {
            let (count, entry) = line.feed(rest);
            if let Some(entry) = entry {
                counts[usize::from(entry.answer.number())] += 1;
            }
            rest = &rest[count..];
        }
    }
    Ok((1..15)
        .map(|number| format!("{number} {}\n", counts[number]))
        .collect())
}
