//! Where a refused group went wrong (document 02, M-104): the captures have few kinds of wrong data, so both readers are held
//! against each other on groups with one wrong character, or one left out, at every place.

use crate::captures::dice::Dice;
use crate::captures::groups::{content, labels, right_content};
use crate::lookup::{by_ours, by_plain};
use crate::plain;
use crate::plain::group::Fields;
use crate::plain::table::Mode;

/// How many right groups of each label are spoilt: a business meter's data have several forms and lengths.
const RIGHT_GROUPS: usize = 8;

/// Compares the numbers and the places; gives of how many groups.
pub fn compared() -> usize {
    let mut dice = Dice::new(1);
    let mut count = 0;
    for mode in [Mode::Historic, Mode::Standard, Mode::Business] {
        for label in labels(mode) {
            for _ in 0..RIGHT_GROUPS {
                count += compare_spoilt(mode, &right_content(mode, label, &mut dice));
            }
        }
    }
    count
}

/// Compares what the readers tell of a right content once it is spoilt.
fn compare_spoilt(mode: Mode, right: &[u8]) -> usize {
    let Ok(Fields { label, stamp, data }) = plain::group::judge(mode, right) else {
        panic!("a right group is refused");
    };
    let with_stamp = |stamp: Vec<u8>| content(mode, label, Some(&stamp), data);
    let with_data =
        |data: Vec<u8>| content(mode, label, (!stamp.is_empty()).then_some(stamp), &data);
    let stamps = spoilt(stamp).map(with_stamp);
    let datas = spoilt(data).map(with_data);
    let mut count = 0;
    for content in stamps.chain(datas) {
        let (ours, plain) = (by_ours(mode, &content), by_plain(mode, &content));
        assert_eq!(ours, plain, "{}", String::from_utf8_lossy(&content));
        count += 1;
    }
    count
}

/// A text with each of its characters left out, and changed to every other.
fn spoilt(text: &[u8]) -> impl Iterator<Item = Vec<u8>> + '_ {
    (0..text.len()).flat_map(move |place| {
        let (front, back) = (&text[..place], &text[place + 1..]);
        let others = (0..=u8::MAX).map(move |other| [front, &[other], back].concat());
        others.chain([[front, back].concat()])
    })
}
