//! The listing of a capture by the plain reader, to hold against that of the proved program.

use crate::plain::line::{Answer, Line};
use crate::plain::table::Mode;

pub fn of(capture: &[u8]) -> Vec<u8> {
    let mut text = Vec::new();
    let Some((letter, mut wire)) = capture.split_first() else {
        return b"20\n".to_vec();
    };
    let Some(mode) = Mode::from_letter(*letter) else {
        return b"20\n".to_vec();
    };
    let mut line = Line::new(mode);
    while !wire.is_empty() {
        let (count, entry) = line.feed(wire);
        if let Some(entry) = entry {
            write_line(&mut text, &entry.answer);
        }
        wire = &wire[count..];
    }
    text
}

fn write_line(text: &mut Vec<u8>, answer: &Answer) {
    text.extend(answer.number().to_string().into_bytes());
    if let Answer::Accepted(fields) = answer {
        let stamp = if fields.stamp.is_empty() {
            b"-"
        } else {
            fields.stamp
        };
        for field in [fields.label, stamp, fields.data] {
            text.push(b' ');
            text.extend_from_slice(field);
        }
    }
    if answer.place() > 0 {
        text.extend(format!(" {}", answer.place()).into_bytes());
    }
    text.push(b'\n');
}
