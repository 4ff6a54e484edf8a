//! Tests of labels that nearly are one of the list, for document 02, M-107:
//! "The new lookup must give the old one's row for every sequence of bytes."

use super::{closed, judged, made_for_the_gate};
use crate::dice::Dice;
use crate::drafts::{Draft, Generator};
use crate::group::write;
use crate::near_labels::{misses_of, Miss, MISSES, MISSES_ALONE, MISSES_ON_LINE};
use crate::numbers::number_of_call;
use crate::table::{all_rules, Mode, Rule, Season, MODES};
use crate::tally::{Place, GROUP_PLACES};
use std::collections::BTreeSet;

/// Judges and writes the label with a stamp and data that are right for the
/// rule, and gives both numbers.
fn numbers_with(mode: Mode, rule: &Rule, label: &[u8]) -> [u8; 2] {
    let stamp: &[u8] = match rule.stamp {
        None => b"",
        Some(Season::WinterOrSummer) => b"E081225223518",
        Some(Season::SpaceOnly) => b" 081225223518",
    };
    let mut generator = Generator::new(Dice::new(107));
    let data = generator.data_of_fields(&rule.alternatives[0]);
    let fields = match rule.stamp {
        None => vec![label, &data[..]],
        Some(_) => vec![label, stamp, &data[..]],
    };
    let number = mode.number();
    let body = fields.join(&mode.separator());
    let mut buffer = [0x55; 300];
    let writing = write(number, label, stamp, &data, &mut buffer);
    [
        judged(number, &closed(number, &body)),
        number_of_call(&writing),
    ]
}

/// Every label of every list with another byte at any place, with any byte
/// behind it, cut at any place, with up to nine zero bytes behind it, and twice:
/// 11, but where that is another label of the list.
#[test]
fn m_107_only_the_whole_label_is_the_label() {
    for mode in MODES {
        let rules = all_rules(mode).iter();
        let listed: BTreeSet<&[u8]> = rules.map(|rule| rule.label.as_bytes()).collect();
        for rule in all_rules(mode) {
            let label = rule.label.as_bytes();
            assert_eq!(numbers_with(mode, rule, label), [1, 0], "{}", rule.label);
            let mut others: Vec<Vec<u8>> = (0..label.len())
                .flat_map(|place| {
                    (0..=255).map(move |byte| {
                        let mut other = label.to_vec();
                        other[place] = byte;
                        other
                    })
                })
                .collect();
            others.extend((0..=255).map(|byte| [label, &[byte]].concat()));
            others.extend((1..10).map(|count| [label, &vec![0; count]].concat()));
            others.extend((1..label.len()).map(|length| label[..length].to_vec()));
            others.push([label, label].concat());
            others.retain(|other| !other.contains(&mode.separator()));
            for other in others {
                // Another label of the list may have another rule.
                if !listed.contains(&other[..]) {
                    let numbers = numbers_with(mode, rule, &other);
                    assert_eq!(numbers, [11, 11], "{mode:?} {other:?}");
                }
            }
            // Without a label a content is not in shape.
            assert_eq!(numbers_with(mode, rule, b""), [9, 11]);
        }
    }
}

/// A label, and the labels of standard mode that it misses.
type Expected = (&'static [u8], &'static [(Miss, &'static str)]);

#[test]
fn m_107_how_labels_miss_others() {
    let longest = MODES.map(|mode| {
        let lengths = all_rules(mode).iter().map(|rule| rule.label.len());
        lengths.max().expect("a mode has labels")
    });
    assert_eq!(longest, [8, 9, 8]);
    let expected: [Expected; 17] = [
        (b"", &[(Miss::Empty, "")]),
        (b"PRM", &[]),
        (b"PRM\0", &[(Miss::ZerosBehind, "PRM")]),
        (b"PRM\0\0\0\0\0\0", &[(Miss::ZerosBehind, "PRM")]),
        (b"PRM\0\0\0\0\0\0\0", &[(Miss::TenOrMore, "PRM")]),
        (b"PRM1", &[(Miss::Longer, "PRM")]),
        (b"PRM12", &[]),
        (b"PR", &[(Miss::Cut, "PRM")]),
        (b"P", &[]),
        (b"PRN", &[(Miss::OtherEnd, "PRM")]),
        (b"QRM", &[]),
        (b"\xD0RM", &[(Miss::HighByte, "PRM")]),
        (b"PR\xCD", &[(Miss::HighByte, "PRM")]),
        (b"PR\xCE", &[(Miss::OtherEnd, "PRM")]),
        (b"SMAXSN1-2", &[(Miss::OtherEnd, "SMAXSN1-1")]),
        (
            b"SMAXSN1-",
            &[(Miss::Longer, "SMAXSN1"), (Miss::Cut, "SMAXSN1-1")],
        ),
        (
            b"SMAXSN1-10",
            &[
                (Miss::TenOrMore, "SMAXSN"),
                (Miss::TenOrMore, "SMAXSN1"),
                (Miss::TenOrMore, "SMAXSN1-1"),
            ],
        ),
    ];
    for (label, misses) in expected {
        assert_eq!(misses_of(Mode::Standard, label), misses, "{label:?}");
    }
}

/// Each miss is made up from labels of every length that a list has, and what
/// can be sent has no byte of 128 or more.
#[test]
fn m_107_made_up_labels() {
    let mut generator = Generator::new(Dice::new(107));
    for mode in MODES {
        let lengths: BTreeSet<usize> = all_rules(mode)
            .iter()
            .map(|rule| rule.label.len())
            .collect();
        let mut made = |misses: &[Miss]| -> Vec<Draft> {
            (0..3000)
                .map(|_| generator.near_label_draft(mode, misses))
                .collect()
        };
        for miss in MISSES_ALONE {
            let drafts = made(&[miss]);
            let of_lengths: BTreeSet<usize> = drafts
                .iter()
                .filter(|draft| misses_of(mode, &draft.label).contains(&(miss, &draft.rule.label)))
                .map(|draft| draft.rule.label.len())
                .collect();
            // One byte or more behind nine bytes are ten at least.
            let possible = lengths
                .iter()
                .copied()
                .filter(|length| *length < 9 || !matches!(miss, Miss::Longer | Miss::ZerosBehind));
            assert_eq!(of_lengths, possible.collect(), "{mode:?} {miss:?}");
        }
        for draft in made(&MISSES_ON_LINE) {
            assert!(draft.label.is_ascii(), "{:?}", draft.label);
        }
    }
}

/// What the gate compares, made without running a program: labels that miss one
/// of the list in every way, in every mode and wherever groups are met, those of
/// eight and nine bytes too, and contents of fewer than eight characters.
#[test]
fn m_107_labels_in_the_captures_and_histories_of_the_gate() {
    let tally = made_for_the_gate();
    let missed = |place: Place, miss: Miss, length_is: fn(usize) -> bool| {
        MODES.map(|mode| tally.times_missed(place, mode, miss, |listed| length_is(listed.len())))
    };
    for (miss, way) in MISSES {
        for (place, name) in GROUP_PLACES {
            let in_modes = missed(place, miss, |_| true);
            let least = match (place, miss) {
                // A byte of 128 or more cannot be sent.
                (Place::Listing | Place::Sheet, Miss::HighByte) => {
                    assert_eq!(in_modes, [0; 3], "{name}");
                    continue;
                }
                // A sheet has few groups; they are read as in the listing.
                (Place::Sheet, _) => {
                    assert!(in_modes.iter().sum::<u64>() >= 3, "{name} {way}");
                    continue;
                }
                (_, Miss::Empty) => 1,
                (_, _) => 3,
            };
            assert!(
                in_modes.iter().all(|times| *times >= least),
                "{name} {way}: {in_modes:?}"
            );
            // The labels of nine bytes are of standard mode, and one byte more
            // makes ten of them.
            let [_, of_nine, _] = missed(place, miss, |length| length == 9);
            let of_eight: u64 = missed(place, miss, |length| length == 8).iter().sum();
            match miss {
                Miss::Empty => {}
                Miss::Longer | Miss::ZerosBehind => assert!(of_eight > 0, "{name} {way}"),
                _ => assert!(of_eight > 0 && of_nine > 0, "{name} {way}"),
            }
        }
    }
    for (place, name) in [(Place::Listing, "listing"), (Place::Judging, "judging")] {
        for mode in MODES {
            for numbers in [11..=11, 12..=14] {
                let times = tally.times_short(place, mode, numbers.clone());
                assert!(times > 0, "{name} {mode:?} {numbers:?}");
            }
        }
    }
    let on_sheets = MODES.map(|mode| tally.times_short(Place::Sheet, mode, 11..=14));
    assert!(on_sheets.iter().sum::<u64>() > 0);
}
