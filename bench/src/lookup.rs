//! One look-up of a label in its mode's list.
//!
//! No reader has it as a call of its own, so it is taken as a difference: a group is judged with its right check
//! character, and the same group with a wrong one, which both readers refuse right before the look-up (document 01's
//! order: shape 9, check character 10, label 11, stamp 12, width 13, kind 14).
//!
//! So what comes between the look-up and the refusal is in the difference. For a label that is not in the list that is
//! next to nothing. For one that is, it is made as short as it can be: the data are empty, so that the group is refused by
//! 13, or by 12 where the label is stamped, and no character of stamp or data is looked at. But a reader that hands the
//! rule on from call to call pays for these calls here too.

use crate::captures::groups::{self, content};
use crate::plain::table::{self, Mode};
use crate::{ours, plain};
use std::hint::black_box;

/// Which labels are looked up, of a mode's list in the order of its characters.
#[derive(Clone, Copy, PartialEq, Eq)]
pub enum Which {
    First,
    /// The one before the middle: a search that halves the list may come upon the very middle at once.
    Middle,
    Last,
    /// Every label of the list.
    Each,
    /// Four that are not in the list: before all of it; the middle one with another last character, and with a character
    /// more; behind all of it. Each has a length that some labels have, or a search by lengths would be done at once.
    Missing,
}

impl Which {
    pub fn from_name(name: &str) -> Option<Which> {
        match name {
            "first" => Some(Which::First),
            "middle" => Some(Which::Middle),
            "last" => Some(Which::Last),
            "each" => Some(Which::Each),
            "missing" => Some(Which::Missing),
            _ => None,
        }
    }

    fn labels(self, mode: Mode) -> Vec<String> {
        let mut list = groups::labels(mode);
        list.sort_unstable();
        let middle = list[list.len() / 2 - 1];
        match self {
            Which::First => vec![list[0].to_string()],
            Which::Middle => vec![middle.to_string()],
            Which::Last => vec![list[list.len() - 1].to_string()],
            Which::Each => list.into_iter().map(str::to_string).collect(),
            Which::Missing => vec![
                "AAAA".to_string(),
                format!("{}Z", &middle[..middle.len() - 1]),
                format!("{middle}Z"),
                "ZZZZ".to_string(),
            ],
        }
    }

    /// The number that a group of one of these labels is refused by, where its data are empty.
    fn refusal(self, mode: Mode, label: &str) -> u32 {
        let rule = table::find(mode, label.as_bytes());
        assert_eq!(rule.is_none(), self == Which::Missing, "{label}");
        match rule {
            None => 11,
            Some(rule) if rule.season.is_some() => 12,
            Some(_) => 13,
        }
    }
}

/// A wrong check character is refused right before the look-up.
#[derive(Clone, Copy, PartialEq, Eq)]
pub enum Check {
    Right,
    Wrong,
}

impl Check {
    pub fn from_name(name: &str) -> Option<Check> {
        match name {
            "right" => Some(Check::Right),
            "wrong" => Some(Check::Wrong),
            _ => None,
        }
    }
}

pub struct Group {
    pub label: String,
    content: Vec<u8>,
    /// The number that both readers must refuse it by.
    pub refusal: u32,
    /// The place that they must tell with it.
    place: usize,
}

impl Group {
    fn new(mode: Mode, which: Which, check: Check, label: String) -> Group {
        let mut content = content(mode, label.as_bytes(), None, b"");
        let mut refusal = which.refusal(mode, &label);
        if check == Check::Wrong {
            *content.last_mut().expect("a content is not empty") ^= 1;
            refusal = 10;
        }
        let place = match refusal {
            12 => label.len() + 1,
            _ => 0,
        };
        Group {
            label,
            content,
            refusal,
            place,
        }
    }
}

/// A group of each of these labels.
pub fn groups(mode: Mode, which: Which, check: Check) -> Vec<Group> {
    let labels = which.labels(mode).into_iter();
    labels
        .map(|label| Group::new(mode, which, check, label))
        .collect()
}

/// Judges the groups so many times, and makes sure of every answer: no other group is to be measured unnoticed.
pub fn run(
    judge: impl Fn(Mode, &[u8]) -> (u32, usize),
    mode: Mode,
    groups: &[Group],
    times: usize,
) {
    for _ in 0..times {
        for group in groups {
            let told = judge(black_box(mode), black_box(&group.content));
            assert_eq!(told, (group.refusal, group.place), "{}", group.label);
        }
    }
}

pub fn by_ours(mode: Mode, content: &[u8]) -> (u32, usize) {
    ours::judge(mode.number(), content)
}

/// It stays out of the loop, as ours does, or the compiler could do a part of the work once for all times.
#[inline(never)]
pub fn by_plain(mode: Mode, content: &[u8]) -> (u32, usize) {
    match plain::group::judge(mode, content) {
        Ok(_) => (1, 0),
        Err(fault) => (fault.notice as u32, usize::from(fault.place)),
    }
}
