//! Labels that nearly are one of the list. Document 02, M-107: the lookup by
//! halves gives the row that the search from the top gave "for every sequence
//! of bytes", so also where a label has the beginning of another.

use crate::drafts::{Draft, Generator};
use crate::table::{all_rules, Mode, Rule};

/// How a label misses one of the list.
#[derive(Clone, Copy, Debug, PartialEq, Eq, PartialOrd, Ord)]
pub enum Miss {
    Empty,
    /// Its last byte is cut off.
    Cut,
    /// Its last byte is another.
    OtherEnd,
    /// One byte more stands behind it.
    Longer,
    /// Zero bytes stand behind it, as where a label is filled up to a size.
    ZerosBehind,
    /// More stands behind it, so that there are ten bytes at least: no label of
    /// any list has more than nine.
    TenOrMore,
    /// Bytes of it are higher by 128, so that it has the same low seven bits.
    HighByte,
}

/// All misses, and what the closing report calls them.
pub const MISSES: [(Miss, &str); 7] = [
    (Miss::Empty, "empty"),
    (Miss::Cut, "last byte cut off"),
    (Miss::OtherEnd, "another last byte"),
    (Miss::Longer, "one byte more"),
    (Miss::ZerosBehind, "zero bytes behind it"),
    (Miss::TenOrMore, "more behind it, ten bytes at least"),
    (Miss::HighByte, "a byte of 128 or more"),
];

/// What is made up on a line, where a byte of 128 or more cannot be sent. The
/// empty label has but one form, and the spoiling of labels has it already.
pub const MISSES_ON_LINE: [Miss; 5] = [
    Miss::Cut,
    Miss::OtherEnd,
    Miss::Longer,
    Miss::ZerosBehind,
    Miss::TenOrMore,
];

/// What is made up for judging and writing.
pub const MISSES_ALONE: [Miss; 6] = [
    Miss::Cut,
    Miss::OtherEnd,
    Miss::Longer,
    Miss::ZerosBehind,
    Miss::TenOrMore,
    Miss::HighByte,
];

/// The labels of the mode's list that this one misses, and how. The empty label
/// misses all alike, and is told once, without one.
pub fn misses_of(mode: Mode, label: &[u8]) -> Vec<(Miss, &'static str)> {
    if label.is_empty() {
        return vec![(Miss::Empty, "")];
    }
    all_rules(mode)
        .iter()
        .filter_map(|rule| Some((miss_of(rule.label.as_bytes(), label)?, rule.label.as_str())))
        .collect()
}

/// How a label misses this one of the list, if it is near to it.
fn miss_of(listed: &[u8], label: &[u8]) -> Option<Miss> {
    let beginning = &listed[..listed.len() - 1];
    if label == listed {
        return None;
    }
    if label == beginning {
        return Some(Miss::Cut);
    }
    if let Some(behind) = label.strip_prefix(listed) {
        return match behind {
            _ if label.len() >= 10 => Some(Miss::TenOrMore),
            _ if behind.iter().all(|one| *one == 0) => Some(Miss::ZerosBehind),
            [_] => Some(Miss::Longer),
            _ => None,
        };
    }
    if label.len() != listed.len() {
        return None;
    }
    if label.iter().map(|one| one % 128).eq(listed.iter().copied()) {
        return Some(Miss::HighByte);
    }
    label.starts_with(beginning).then_some(Miss::OtherEnd)
}

impl Generator {
    /// A group that is right but for its label, which misses one of the list.
    pub fn near_label_draft(&mut self, mode: Mode, misses: &[Miss]) -> Draft {
        self.note("label that misses one of the list");
        // Often a long one, for eight bytes are what a machine may take and
        // compare at once, and a ninth is then by itself.
        let lengths = all_rules(mode).iter().map(|rule| rule.label.len());
        let longest = lengths.max().expect("a mode has labels");
        let least = longest.min(*self.dice.pick(&[0, 0, 0, 8, 9]));
        let suited: Vec<&'static Rule> = all_rules(mode)
            .iter()
            .filter(|rule| rule.label.len() >= least)
            .collect();
        let mut draft = self.right_draft_of(mode, &suited);
        let miss = *self.dice.pick(misses);
        self.spoil_by(&mut draft.label, miss);
        draft
    }

    /// Makes a label miss itself in this way. By chance it is then another one
    /// of the list, as IMAX1 that is cut.
    pub fn spoil_by(&mut self, label: &mut Vec<u8>, miss: Miss) {
        match miss {
            Miss::Empty => label.clear(),
            Miss::Cut => {
                label.pop();
            }
            Miss::OtherEnd => {
                label.pop();
                label.push(*self.dice.pick(b"0123456789-+_ACSXis\x00\x01\x7F"));
            }
            Miss::Longer => label.push(*self.dice.pick(b"0123456789-+_ACSXis\x01\x7F")),
            Miss::ZerosBehind => {
                let zeros = *self.dice.pick(&[1, 1, 1, 2, 3, 4]);
                label.extend(vec![0; zeros]);
            }
            Miss::TenOrMore => {
                let length = *self.dice.pick(&[10, 10, 10, 11, 12, 16, 17, 18, 24, 40]);
                let repeated = match self.dice.below(3) {
                    0 => label.clone(),
                    _ => vec![*self.dice.pick(b"01A-\x00")],
                };
                let behind = repeated.iter().cycle();
                let missing = length - label.len();
                label.extend(behind.take(missing).copied().collect::<Vec<u8>>());
            }
            Miss::HighByte => {
                let anywhere = self.dice.below(label.len());
                let place = *self.dice.pick(&[0, label.len() - 1, anywhere]);
                label[place] |= 0x80;
            }
        }
    }
}
