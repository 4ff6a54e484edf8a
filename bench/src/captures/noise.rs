//! Frames that came to harm: groups that are wrong as they were sent, and bytes that were hit on their way.

use super::business;
use super::dice::Dice;
use super::groups::{content, labels, right_content, wire_of};
use crate::plain::table::Mode;
use crate::plain::wire::control;

const GROUPS: usize = 40;

pub fn frame(mode: Mode, dice: &mut Dice) -> Vec<u8> {
    let labels = labels(mode);
    let mut frame = vec![control::START_OF_TEXT];
    for _ in 0..GROUPS {
        let right = right_content(mode, dice.pick(&labels), dice);
        let group = if dice.one_in(6) {
            match mode {
                Mode::Business => business::spoilt_content(right, dice),
                Mode::Historic | Mode::Standard => spoilt_content(right, dice),
            }
        } else {
            right
        };
        for byte in wire_of(&group) {
            if dice.one_in(50) {
                hit(byte, &mut frame, dice);
            } else {
                frame.push(byte);
            }
        }
    }
    frame.push(control::END_OF_TEXT);
    frame
}

/// A group that is refused in place of a right one, for one of the reasons 8 to 14.
fn spoilt_content(right: Vec<u8>, dice: &mut Dice) -> Vec<u8> {
    let mode = Mode::Standard;
    match dice.below(7) {
        0 => content(mode, b"PJOURF+1", None, &[b'7'; 140]),
        1 => right[..right.len() - 2].to_vec(),
        2 => with_next_check(right),
        3 => content(mode, b"EASF11", None, b"000012345"),
        4 => content(mode, b"SMAXSN", Some(b"H090229000000"), b"01200"),
        5 => content(mode, b"EAST", None, b"0000123456"),
        _ => content(mode, b"STGE", None, b"003A0o01"),
    }
}

/// The content with the check character behind its own.
pub fn with_next_check(right: Vec<u8>) -> Vec<u8> {
    let (check, front) = right.split_last().expect("a content is not empty");
    [front, &[32 + (check - 31) % 64]].concat()
}

/// A byte that is hit: mostly one bit of it, at times all of it, and rarely so that a control character comes in.
fn hit(byte: u8, frame: &mut Vec<u8>, dice: &mut Dice) {
    match dice.below(40) {
        0..=23 => frame.push(byte ^ (1 << dice.below(8))),
        24..=30 => {}
        31..=37 => frame.extend([byte, byte]),
        38 => frame.push(control::LINE_FEED),
        _ => frame.push(dice.pick(&[
            control::START_OF_TEXT,
            control::END_OF_TEXT,
            control::END_OF_TRANSMISSION,
            control::CARRIAGE_RETURN,
        ])),
    }
}
