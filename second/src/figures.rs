//! Tests from documents 01 and 02 alone: document 01's figures, its edges, its
//! refusals in their order, its mistakes that look right, and what the requests
//! of document 02 change.

use crate::captures::group_on_wire;
use crate::compare::{go_through, Settings};
use crate::dice::Dice;
use crate::drafts::{Generator, Spoiling};
use crate::formats::{run, Kind};
use crate::group::{check_character, judge, stamp_is_right, write};
use crate::hexadecimal::hexadecimal;
use crate::histories::{log_bytes, Item, CALLS_IN_HISTORY};
use crate::line::{read_whole, Line, PlacedAnswer};
use crate::listing::listing;
use crate::numbers::{number_of_call, Answer, Refusal};
use crate::replay::{read_log, replay, replies_to, Call};
use crate::station::{counts_of, Station, LINES};
use crate::table::{
    all_rules, find_rule, labels_said, stamped_rules, Mode, Rule, Season, MODES, SMALL_SEASONS,
};
use crate::tally::{Tally, GROUP_PLACES};
use crate::wire::{all_to_wire, character_of, is_sound, to_wire};
use std::collections::BTreeSet;
use std::sync::OnceLock;

mod business;
mod frames;
mod labels;
mod places;
mod recovery;

const HISTORIC: u8 = 0;
const STANDARD: u8 = 1;
const BUSINESS: u8 = 2;

/// What the gate compares, made without running a program; once for all tests, for
/// it takes some seconds.
fn made_for_the_gate() -> &'static Tally {
    static MADE: OnceLock<Tally> = OnceLock::new();
    MADE.get_or_init(|| {
        let (tally, difference) = go_through(&Settings {
            seed: 1,
            count: 2000,
            listing_program: None,
            replay_program: None,
            only_recovery: false,
        });
        assert!(difference.is_none());
        tally
    })
}

/// Judges a content and gives its number.
fn judged(mode: u8, content: &[u8]) -> u8 {
    judge(mode, content).number()
}

/// Judges a content and gives its number and three stretches.
fn judged_with_texts(mode: u8, content: &[u8]) -> (u8, Vec<u8>, Vec<u8>, Vec<u8>) {
    let judgement = judge(mode, content);
    let stretches = judgement.stretches();
    (
        judgement.number(),
        stretches.label.to_vec(),
        stretches.stamp.to_vec(),
        stretches.data.to_vec(),
    )
}

fn accepted(label: &str, stamp: &str, data: &str) -> (u8, Vec<u8>, Vec<u8>, Vec<u8>) {
    (1, label.into(), stamp.into(), data.into())
}

/// A content closed by the mode's separator and the right check character.
fn closed(mode: u8, body: &[u8]) -> Vec<u8> {
    let mut content = body.to_vec();
    if mode == STANDARD {
        content.push(b'\t');
        content.push(check_character(&content));
    } else {
        let check = check_character(&content);
        content.extend([b' ', check]);
    }
    content
}

/// The numbers of the answers to characters that all arrive sound.
fn numbers_for(mode: Mode, characters: &[u8]) -> Vec<u8> {
    numbers_on_wire(mode, &all_to_wire(characters))
}

fn numbers_on_wire(mode: Mode, wire: &[u8]) -> Vec<u8> {
    read_whole(mode, wire)
        .iter()
        .map(|placed| placed.answer.number())
        .collect()
}

// "Figures to hold it against"

#[test]
fn figure_p1_and_p2_standard_sum_counts_the_final_separator() {
    assert_eq!(
        judged_with_texts(STANDARD, b"URMS1\t230\t?"),
        accepted("URMS1", "", "230")
    );
    assert_eq!(
        judged_with_texts(STANDARD, b"URMS1\t230\t6"),
        (10, vec![], vec![], vec![])
    );
}

#[test]
fn figure_p3_and_p4_historic_sum_leaves_the_final_separator_out() {
    assert_eq!(
        judged_with_texts(HISTORIC, b"PAPP 00750 -"),
        accepted("PAPP", "", "00750")
    );
    assert_eq!(judged(HISTORIC, b"PAPP 00750 M"), 10);
}

#[test]
fn figure_p5_and_p6_check_character_may_be_a_space() {
    assert_eq!(
        judged_with_texts(HISTORIC, b"IINST 009  "),
        accepted("IINST", "", "009")
    );
    assert_eq!(
        judged_with_texts(HISTORIC, b"IINST 002 Y"),
        accepted("IINST", "", "002")
    );
}

#[test]
fn figure_p7_and_p8_stamped_groups() {
    assert_eq!(
        judged_with_texts(STANDARD, b"SMAXSN\tH081225223518\t01200\t7"),
        accepted("SMAXSN", "H081225223518", "01200")
    );
    assert_eq!(
        judged_with_texts(STANDARD, b"DATE\tH081225223518\t\tH"),
        accepted("DATE", "H081225223518", "")
    );
}

#[test]
fn figure_p9_empty_content() {
    assert_eq!(judged(HISTORIC, b""), 9);
    assert_eq!(judged(STANDARD, b""), 9);
}

#[test]
fn figure_p10_and_p11_february() {
    assert!(stamp_is_right(Season::WinterOrSummer, b"H080229000000"));
    assert!(!stamp_is_right(Season::WinterOrSummer, b"H090229000000"));
}

#[test]
fn figure_p12_an_unsound_byte() {
    assert!(!is_sound(0x02));
    assert_eq!(character_of(0x02), None);
}

// "Characters on the wire"

#[test]
fn wire_bytes_of_the_control_characters() {
    let pairs = [
        (0x02, 0x82),
        (0x03, 0x03),
        (0x04, 0x84),
        (0x09, 0x09),
        (0x0A, 0x0A),
        (0x0D, 0x8D),
        (0x20, 0xA0),
    ];
    for (character, wire) in pairs {
        assert_eq!(to_wire(character), wire);
        assert_eq!(character_of(wire), Some(character));
    }
    for character in 0..128 {
        assert_eq!(character_of(to_wire(character)), Some(character));
        assert_eq!(character_of(to_wire(character) ^ 0x80), None);
    }
}

// "One group"

#[test]
fn lists_have_as_many_labels_as_they_say() {
    for mode in [Mode::Historic, Mode::Standard] {
        assert_eq!(Some(all_rules(mode).len()), labels_said(mode), "{mode:?}");
    }
    for mode in MODES {
        let labels: BTreeSet<&str> = all_rules(mode).iter().map(|rule| &rule.label[..]).collect();
        assert_eq!(labels.len(), all_rules(mode).len(), "{mode:?}");
    }
}

#[test]
fn labels_that_are_stamped() {
    let families = ["DATE", "SMAX", "CCA", "UMOY", "DPM", "FPM"];
    for rule in all_rules(Mode::Standard) {
        let stamped = families.iter().any(|name| rule.label.starts_with(name));
        assert_eq!(rule.stamp.is_some(), stamped, "{}", rule.label);
    }
    for mode in [Mode::Historic, Mode::Business] {
        for rule in all_rules(mode) {
            assert_eq!(rule.stamp, None, "{}", rule.label);
        }
    }
}

#[test]
fn some_rows_of_the_lists() {
    let expected = [
        (Mode::Standard, "ADSC", 12, Kind::Text, None),
        (
            Mode::Standard,
            "DATE",
            0,
            Kind::Text,
            Some(Season::WinterOrSummer),
        ),
        (Mode::Standard, "EASF01", 9, Kind::Decimal, None),
        (Mode::Standard, "EASF09", 9, Kind::Decimal, None),
        (Mode::Standard, "EASF10", 9, Kind::Decimal, None),
        (Mode::Standard, "STGE", 8, Kind::Hexadecimal, None),
        (
            Mode::Standard,
            "SMAXSN2-1",
            5,
            Kind::Decimal,
            Some(Season::WinterOrSummer),
        ),
        (
            Mode::Standard,
            "FPM2",
            2,
            Kind::Decimal,
            Some(Season::SpaceOnly),
        ),
        (Mode::Standard, "NJOURF+1", 2, Kind::Decimal, None),
        (Mode::Standard, "PPOINTE", 98, Kind::Text, None),
        (Mode::Historic, "BBRHPJR", 9, Kind::Decimal, None),
        (Mode::Historic, "IMAX2", 3, Kind::Decimal, None),
        (Mode::Historic, "HHPHC", 1, Kind::Text, None),
    ];
    for (mode, label, width, kind, stamp) in expected {
        let rule = find_rule(mode, label.as_bytes()).expect(label);
        assert_eq!(rule.format, run(kind, width, width));
        assert_eq!((rule.shortest, rule.longest), (width, width));
        assert_eq!(rule.stamp, stamp);
    }
    for label in ["EASF00", "EASF11", "EASD05", "ERQ5", "URMS4", "DPM4", ""] {
        assert_eq!(find_rule(Mode::Standard, label.as_bytes()), None);
    }
}

#[test]
fn season_of_the_six_labels_is_a_space_and_nothing_else() {
    for season in *b"HEhe " {
        let stamp = [&[season][..], b"081225223518"].concat();
        let group = |label: &str, data: &str| {
            let body = [label.as_bytes(), b"\t", &stamp, b"\t", data.as_bytes()].concat();
            judged(STANDARD, &closed(STANDARD, &body))
        };
        for label in ["DPM1", "DPM2", "DPM3", "FPM1", "FPM2", "FPM3"] {
            assert_eq!(group(label, "00"), if season == b' ' { 1 } else { 12 });
        }
        // h and e "are right wherever H and E are right" (document 02, M-101).
        for (label, data) in [("DATE", ""), ("UMOY1", "230"), ("CCASN-1", "00000")] {
            assert_eq!(group(label, data), if season == b' ' { 12 } else { 1 });
        }
    }
}

#[test]
fn ranges_of_the_stamp() {
    // The four letters, the small ones by document 02, M-101, differ in
    // nothing.
    let right = |digits: &str| {
        let answers = ["H", "E", "h", "e"].map(|letter| {
            let stamp = [letter, digits].concat();
            stamp_is_right(Season::WinterOrSummer, stamp.as_bytes())
        });
        assert_eq!(answers, [answers[0]; 4], "{digits}");
        answers[0]
    };
    for month in 1..=12 {
        for year in [0, 1, 2, 3, 4, 96, 99] {
            let last = match month {
                2 if year % 4 == 0 => 29,
                2 => 28,
                4 | 6 | 9 | 11 => 30,
                _ => 31,
            };
            for day in 0..=40 {
                assert_eq!(
                    right(&format!("{year:02}{month:02}{day:02}000000")),
                    (1..=last).contains(&day)
                );
            }
        }
    }
    assert!(!right("080001000000"));
    assert!(!right("081301000000"));
    assert!(right("080101235959"));
    assert!(!right("080101240000"));
    assert!(!right("080101006000"));
    assert!(!right("080101000060"));
    assert!(!right("08010100000"));
    assert!(!right("0801010000000"));
    assert!(!right("08010100000:"));
    assert!(!right(" 80101000000"));
}

#[test]
fn shape_of_a_group() {
    // "Under 4 characters"
    assert_eq!(judged(STANDARD, b"\t\t\t"), 9);
    assert_eq!(judged(STANDARD, b"A\t?"), 9);
    // "no separator just before the last"
    assert_eq!(judged(STANDARD, b"URMS1\t230?"), 9);
    assert_eq!(judged(HISTORIC, b"URMS1\t230\t?"), 9);
    assert_eq!(judged(STANDARD, b"PAPP 00750 -"), 9);
    // "the first separator is first of all"
    assert_eq!(judged(STANDARD, &closed(STANDARD, b"\tURMS1\t230")), 9);
    // "or is that final one"
    assert_eq!(judged(STANDARD, &closed(STANDARD, b"URMS1230")), 9);
    // The shortest content of the right shape.
    assert_eq!(judged(HISTORIC, &closed(HISTORIC, b"A ")), 11);
    assert_eq!(judged(STANDARD, &closed(STANDARD, b"A\t")), 11);
}

#[test]
fn stamp_and_the_separator_after_it() {
    let with = |body: &[u8]| judged(STANDARD, &closed(STANDARD, body));
    assert_eq!(with(b"DATE\tH081225223518\t"), 1);
    // "an HT that is not the final separator"
    assert_eq!(with(b"DATE\tH081225223518"), 12);
    assert_eq!(with(b"DATE\tH08122522351\t"), 12);
    assert_eq!(with(b"DATE\tH0812252235180\t"), 12);
    assert_eq!(with(b"DATE\t"), 12);
    assert_eq!(with(b"DATE\tH081225223518 "), 12);
    assert_eq!(with(b"DATE\tH081225223518\t\t"), 13);
    assert_eq!(with(b"UMOY1\tH081225223518\t\t30"), 14);
    // "a read group of an unstamped label has only data, so extra text is 13
    // or 14"
    assert_eq!(with(b"URMS1\tH081225223518\t230"), 13);
    assert_eq!(with(b"URMS1\t\t30"), 14);
    assert_eq!(with(b"ADSC\tH081225223518\t012345678901"), 13);
}

#[test]
fn historic_data_may_hold_spaces() {
    let body = b"PTEC H  .";
    assert_eq!(
        judged_with_texts(HISTORIC, &closed(HISTORIC, body)),
        accepted("PTEC", "", "H  .")
    );
    let body = b"MOTDETAT       ";
    assert_eq!(
        judged_with_texts(HISTORIC, &closed(HISTORIC, body)),
        accepted("MOTDETAT", "", "      ")
    );
    // HT is no separator in historic mode, and of no kind.
    assert_eq!(judged(HISTORIC, &closed(HISTORIC, b"PTEC \tABC")), 14);
}

#[test]
fn kinds_of_data() {
    let with = |body: &[u8]| judged(STANDARD, &closed(STANDARD, body));
    for character in 0..=255 {
        let decimal = b"0123456789".contains(&character);
        let hexadecimal = decimal || b"ABCDEF".contains(&character);
        let text = (0x20..=0x7E).contains(&character);
        let of = |right: bool| if right { 1 } else { 14 };
        assert_eq!(with(&[b"PREF\t0", &[character][..]].concat()), of(decimal));
        assert_eq!(
            with(&[b"STGE\t0000000", &[character][..]].concat()),
            of(hexadecimal)
        );
        assert_eq!(with(&[b"VTIC\t0", &[character][..]].concat()), of(text));
    }
}

#[test]
fn bytes_of_128_or_more_in_a_lent_content() {
    // "one of 128 or more enters the sum with its full number and is of no
    // kind"
    assert_eq!(judged(STANDARD, &closed(STANDARD, b"URMS\xB1\t230")), 11);
    assert_eq!(judged(STANDARD, &closed(STANDARD, b"URMS1\t23\xB0")), 14);
    assert_eq!(
        judged(STANDARD, &closed(STANDARD, b"DATE\t\xC8081225223518\t")),
        12
    );
    assert_eq!(judged(STANDARD, b"URMS1\t230\t\xBF"), 10);
    assert_eq!(judged(HISTORIC, b"PAPP\xA000750\xA0-"), 9);
}

#[test]
fn order_of_refusals_when_judging() {
    // 19, then 8 to 14 as numbered: each content has its own fault and all
    // the later ones it can have.
    assert_eq!(judged(3, &[b'A'; 129]), 19);
    assert_eq!(judged(255, b"URMS1\t230\t?"), 19);
    assert_eq!(judged(STANDARD, &[b'A'; 129]), 8);
    assert_eq!(judged(STANDARD, b"NOLABEL\tH\x01"), 9);
    assert_eq!(judged(STANDARD, b"NOLABEL\tx\t\x01"), 10);
    assert_eq!(judged(STANDARD, b"DATE\tx\t\x01"), 10);
    assert_eq!(judged(STANDARD, &closed(STANDARD, b"NOLABEL\tx")), 11);
    assert_eq!(
        judged(STANDARD, &closed(STANDARD, b"UMOY1\tX081225223518\tabcd")),
        12
    );
    assert_eq!(
        judged(STANDARD, &closed(STANDARD, b"UMOY1\tH081225223518\tabcd")),
        13
    );
    assert_eq!(
        judged(STANDARD, &closed(STANDARD, b"UMOY1\tH081225223518\tabc")),
        14
    );
    assert_eq!(
        judged(STANDARD, &closed(STANDARD, b"UMOY1\tH081225223518\t230")),
        1
    );
}

#[test]
fn content_of_128_and_129() {
    let labels: [(u8, &[u8]); 3] = [
        (HISTORIC, b"ADCO "),
        (STANDARD, b"ADSC\t"),
        (BUSINESS, b"ADS "),
    ];
    for (mode, label) in labels {
        let of_length = |length: usize| {
            let mut body = label.to_vec();
            body.resize(length - 2, b'0');
            closed(mode, &body)
        };
        assert_eq!(of_length(128).len(), 128);
        assert_eq!(judged(mode, &of_length(128)), 13);
        assert_eq!(judged(mode, &of_length(129)), 8);
        let on_line = |content: &[u8]| {
            let characters = [b"\x02\n", content, b"\r\x03"].concat();
            numbers_for(Mode::from_number(mode).expect("a mode"), &characters)
        };
        assert_eq!(on_line(&of_length(128)), [13, 3]);
        assert_eq!(on_line(&of_length(129)), [8, 3]);
        assert_eq!(on_line(&of_length(400)), [8, 3]);
    }
}

// Writing

#[test]
fn written_groups_are_read_again() {
    let mut generator = Generator::new(Dice::new(17));
    for mode in MODES {
        for rule in all_rules(mode) {
            let stamp = match rule.stamp {
                None => Vec::new(),
                Some(season) => generator.right_stamp(season),
            };
            let fields = generator.dice.pick(&rule.alternatives);
            let data = generator.data_of_fields(fields);
            let label = rule.label.as_bytes();
            let mut buffer = [0x55; 200];
            let written = write(mode.number(), label, &stamp, &data, &mut buffer)
                .expect("right fields are written");
            let with_stamp = if stamp.is_empty() { 0 } else { stamp.len() + 1 };
            assert_eq!(written, label.len() + 1 + with_stamp + data.len() + 4);
            assert!(buffer[..written].iter().all(|one| is_sound(*one)));
            assert!(buffer[written..].iter().all(|one| *one == 0x55));
            let characters: Vec<u8> = buffer[..written].iter().map(|one| one % 128).collect();
            assert_eq!(characters[0], b'\n');
            assert_eq!(characters[written - 1], b'\r');
            assert_eq!(
                judged_with_texts(mode.number(), &characters[1..written - 1]),
                (1, label.to_vec(), stamp.clone(), data.clone())
            );
            // 15: "lent buffer too short for all"
            let mut short = vec![0x55; written - 1];
            assert_eq!(
                write(mode.number(), label, &stamp, &data, &mut short),
                Err(Refusal::NoRoom)
            );
            assert!(short.iter().all(|one| *one == 0x55));
        }
    }
}

#[test]
fn whole_written_group_of_the_listing_case() {
    let mut buffer = [0; 13];
    assert_eq!(write(STANDARD, b"URMS1", b"", b"230", &mut buffer), Ok(13));
    assert_eq!(
        buffer,
        [0x0A, 0x55, 0xD2, 0x4D, 0x53, 0xB1, 0x09, 0xB2, 0x33, 0x30, 0x09, 0x3F, 0x8D]
    );
}

#[test]
fn order_of_refusals_when_writing() {
    // "Writer: 19, 11, 12, 13, 14, 15."
    let number = |mode: u8, label: &str, stamp: &str, data: &str, size: usize| {
        let mut buffer = vec![0x55; size];
        let writing = write(
            mode,
            label.as_bytes(),
            stamp.as_bytes(),
            data.as_bytes(),
            &mut buffer,
        );
        if writing.is_err() {
            assert!(buffer.iter().all(|one| *one == 0x55));
        }
        number_of_call(&writing)
    };
    let stamp = "H081225223518";
    assert_eq!(number(3, "NOLABEL", "x", "abcd", 0), 19);
    assert_eq!(number(1, "NOLABEL", "x", "abcd", 0), 11);
    assert_eq!(number(1, "PAPP", "", "00750", 100), 11);
    assert_eq!(number(0, "URMS1", "", "230", 100), 11);
    assert_eq!(number(1, "", "", "", 100), 11);
    assert_eq!(number(1, "URMS1\t", "", "230", 100), 11);
    assert_eq!(number(1, "UMOY1", "x", "abcd", 0), 12);
    assert_eq!(number(1, "UMOY1", "", "230", 100), 12);
    assert_eq!(number(1, "DPM1", stamp, "00", 100), 12);
    assert_eq!(number(1, "URMS1", stamp, "230", 100), 12);
    assert_eq!(number(1, "URMS1", stamp, "abcd", 0), 12);
    assert_eq!(number(1, "UMOY1", stamp, "abcd", 0), 13);
    assert_eq!(number(1, "UMOY1", stamp, "abc", 0), 14);
    assert_eq!(number(1, "UMOY1", stamp, "230", 0), 15);
    assert_eq!(number(1, "UMOY1", stamp, "230", 26), 15);
    assert_eq!(number(1, "UMOY1", stamp, "230", 27), 0);
}

// "One line"

const RIGHT: &[u8] = b"\nURMS1\t230\t?\r";

#[test]
fn each_sentence_of_one_line() {
    let standard = |parts: &[&[u8]]| numbers_for(Mode::Standard, &parts.concat());
    // "STX then ETX alone is a sound frame."
    assert_eq!(standard(&[b"\x02\x03"]), [2]);
    assert_eq!(standard(&[b"\x02", RIGHT, b"\x03"]), [1, 2]);
    // Outside: nothing.
    assert_eq!(standard(&[b"\x03\x04\r\nA", RIGHT, b"\x03"]), []);
    // STX in a frame and in a group.
    assert_eq!(standard(&[b"\x02\x02\x03"]), [5, 2]);
    assert_eq!(standard(&[b"\x02\nURMS1\x02\x03"]), [5, 2]);
    // ETX from a flawed frame, from a group.
    assert_eq!(standard(&[b"\x02A\x03"]), [3]);
    assert_eq!(standard(&[b"\x02\r\x03"]), [3]);
    assert_eq!(standard(&[b"\x02\n\x03"]), [3]);
    // EOT from a frame, from a group; outside afterwards.
    assert_eq!(standard(&[b"\x02\x04", RIGHT, b"\x03"]), [4]);
    assert_eq!(standard(&[b"\x02\nURMS1\x04\x04\x03"]), [4]);
    // LF in a group: 6, and a new empty group.
    assert_eq!(standard(&[b"\x02\nURMS1", RIGHT, b"\x03"]), [6, 1, 3]);
    assert_eq!(standard(&[b"\x02\n\n", RIGHT, b"\x03"]), [6, 6, 1, 3]);
    // A refusal sets the flaw, and a right group does not take it away.
    assert_eq!(standard(&[b"\x02\n\r", RIGHT, b"\x03"]), [9, 1, 3]);
    // "Keeping the flaw of the frame before" is a mistake.
    assert_eq!(standard(&[b"\x02\n\r\x03\x02\x03"]), [9, 3, 2]);
    assert_eq!(standard(&[b"\x02A\x02\x03"]), [5, 2]);
}

#[test]
fn unsound_bytes_on_a_line() {
    let right = all_to_wire(RIGHT);
    let standard = |parts: &[&[u8]]| numbers_on_wire(Mode::Standard, &parts.concat());
    // Outside it does nothing, and an unsound STX begins no frame.
    assert_eq!(standard(&[&[0x02, 0x01], &right, &[0x03]]), []);
    // In a frame it sets the flaw.
    assert_eq!(standard(&[&[0x82, 0x01], &right, &[0x03]]), [1, 3]);
    assert_eq!(standard(&[&[0x82, 0x83, 0x03]]), [3]);
    // "Taking a damaged LF for a real one" is a mistake.
    let damaged_line_feed = [&[0x8A][..], &right[1..]].concat();
    assert_eq!(standard(&[&[0x82], &damaged_line_feed, &[0x03]]), [3]);
    assert_eq!(
        standard(&[&[0x82, 0x0A, 0x8A], &right[1..], &[0x03]]),
        [7, 3]
    );
    // A damaged byte "adds no content", but the group is damaged.
    for place in 1..right.len() {
        let mut longer = right.clone();
        longer.insert(place, 0x31);
        assert_eq!(standard(&[&[0x82], &longer, &[0x03]]), [7, 3]);
    }
    // A damaged CR closes nothing.
    let damaged_end = [&right[..right.len() - 1], &[0x0D]].concat();
    assert_eq!(standard(&[&[0x82], &damaged_end, &[0x03]]), [3]);
    assert_eq!(standard(&[&[0x82], &damaged_end, &[0x8D, 0x03]]), [7, 3]);
    // 6 for an LF in a damaged group; the new group is undamaged.
    assert_eq!(standard(&[&[0x82, 0x0A, 0x01], &right, &[0x03]]), [6, 1, 3]);
    // "Order: 7 to 14 as numbered": damaged and too long is 7, damaged with
    // nothing in it too.
    let long = vec![0x41; 200];
    assert_eq!(
        standard(&[&[0x82, 0x0A], &long, &[0x01, 0x8D, 0x03]]),
        [7, 3]
    );
    assert_eq!(
        standard(&[&[0x82, 0x0A, 0x01], &long, &[0x8D, 0x03]]),
        [7, 3]
    );
    assert_eq!(standard(&[&[0x82, 0x0A, 0x01, 0x8D, 0x03]]), [7, 3]);
    // 6 for an LF in a group that is too long; the new group is not.
    assert_eq!(
        standard(&[&[0x82, 0x0A], &long, &right, &[0x03]]),
        [6, 1, 3]
    );
}

/// The sentences of "One line" one by one, as a line that is outside, in a
/// frame or in a group. It is here only to hold the reader of whole captures
/// against it.
fn read_sentence_by_sentence(mode: Mode, wire: &[u8]) -> Vec<PlacedAnswer> {
    enum State {
        Outside,
        InFrame,
        InGroup { content: Vec<u8>, damaged: bool },
    }
    let empty_group = || State::InGroup {
        content: Vec::new(),
        damaged: false,
    };
    let mut state = State::Outside;
    let mut flaw = false;
    // "Each line keeps a frame number, 0 when opened" (document 02, M-108).
    let mut frame: u16 = 0;
    let mut answers = Vec::new();
    for (place, byte) in wire.iter().enumerate() {
        if character_of(*byte) == Some(0x02) {
            // "One more at every STX, 65,535 followed by 0."
            frame = frame.wrapping_add(1);
        }
        let mut give = |answer| {
            answers.push(PlacedAnswer {
                place,
                frame,
                answer,
            })
        };
        match (character_of(*byte), &mut state) {
            (Some(0x02), _) => {
                if !matches!(state, State::Outside) {
                    give(Answer::FrameBegunAgain);
                }
                state = State::InFrame;
                flaw = false;
            }
            (Some(0x03), _) => {
                match state {
                    State::Outside => {}
                    State::InFrame => give(Answer::FrameEnded { flawed: flaw }),
                    State::InGroup { .. } => give(Answer::FrameEnded { flawed: true }),
                }
                state = State::Outside;
            }
            (Some(0x04), _) => {
                if !matches!(state, State::Outside) {
                    give(Answer::FrameInterrupted);
                }
                state = State::Outside;
            }
            (_, State::Outside) => {}
            (Some(0x0A), State::InFrame) => state = empty_group(),
            (_, State::InFrame) => flaw = true,
            (Some(0x0A), State::InGroup { .. }) => {
                give(Answer::LineFeedInsideGroup);
                flaw = true;
                state = empty_group();
            }
            (Some(0x0D), State::InGroup { content, damaged }) => {
                let judgement = judge(mode.number(), content);
                let text = |part: &[u8]| String::from_utf8(part.to_vec()).expect("text");
                let stretches = judgement.stretches();
                let answer = match (*damaged, judgement.number()) {
                    (true, _) => Answer::GroupRefused(Refusal::DamagedByte.into()),
                    (false, 1) => Answer::GroupAccepted {
                        label: text(stretches.label),
                        stamp: text(stretches.stamp),
                        data: text(stretches.data),
                    },
                    (false, _) => match judgement {
                        crate::group::Judgement::Refused(fault) => Answer::GroupRefused(fault),
                        crate::group::Judgement::Accepted(_) => unreachable!(),
                    },
                };
                flaw |= answer.number() != 1;
                give(answer);
                state = State::InFrame;
            }
            (Some(character), State::InGroup { content, .. }) => content.push(character),
            (None, State::InGroup { damaged, .. }) => *damaged = true,
        }
    }
    answers
}

#[test]
fn whole_reading_agrees_with_the_sentences_one_by_one() {
    for index in 0..3000 {
        let mut generator = Generator::new(Dice::for_item(99, 1, index));
        let capture = generator.capture();
        let wire = capture.get(1..).unwrap_or(&[]);
        for mode in MODES {
            assert_eq!(
                read_whole(mode, wire),
                read_sentence_by_sentence(mode, wire)
            );
        }
    }
}

#[test]
fn cuts_of_the_feeding_change_nothing() {
    for index in 0..60 {
        let mut generator = Generator::new(Dice::for_item(98, 1, index));
        let mode = generator.mode();
        let mut wire = generator.traffic(mode, 300);
        wire.truncate(500);
        let mut line = Line::new(mode);
        let mut answers = Vec::new();
        let mut left = &wire[..];
        while !left.is_empty() {
            let length = generator.dice.between(0, 20).min(left.len());
            answers.extend(line.feed(&left[..length]));
            left = &left[length..];
        }
        assert_eq!(answers, read_whole(mode, &wire));
    }
}

// "The station"

fn open_station(line: u8, mode: u8) -> Station {
    let mut station = Station::new();
    assert_eq!(station.open(line, mode), Ok(()));
    station
}

#[test]
fn order_of_refusals_when_opening() {
    let mut station = Station::new();
    // "Opening: 16, 19."
    assert_eq!(station.open(8, 3), Err(Refusal::NoSuchLine));
    assert_eq!(station.open(8, 0), Err(Refusal::NoSuchLine));
    assert_eq!(station.open(255, 1), Err(Refusal::NoSuchLine));
    assert_eq!(station.open(7, 3), Err(Refusal::UnknownMode));
    assert_eq!(station.deliver(7, b""), Err(Refusal::LineClosed));
    assert_eq!(station.open(7, 1), Ok(()));
    assert_eq!(station.deliver(7, &[0x82, 0x82]), Ok(()));
    // A refused opening leaves the line as it was.
    assert_eq!(station.open(7, 3), Err(Refusal::UnknownMode));
    assert_eq!(station.inbox_length(7), Some(2));
}

#[test]
fn order_of_refusals_when_delivering() {
    let mut station = open_station(0, 0);
    // "Delivery: 16, 17, 15."
    assert_eq!(station.deliver(8, &[0; 257]), Err(Refusal::NoSuchLine));
    assert_eq!(station.deliver(7, &[0; 257]), Err(Refusal::LineClosed));
    assert_eq!(station.deliver(7, &[]), Err(Refusal::LineClosed));
    assert_eq!(station.deliver(0, &[0; 257]), Err(Refusal::NoRoom));
    assert_eq!(station.inbox_length(0), Some(0));
    assert_eq!(station.deliver(0, &[0; 256]), Ok(()));
    assert_eq!(station.deliver(0, &[0]), Err(Refusal::NoRoom));
    // "An empty delivery to an open line is accepted."
    assert_eq!(station.deliver(0, &[]), Ok(()));
    assert_eq!(station.inbox_length(0), Some(256));
}

#[test]
fn room_freed_by_a_round_is_used_again() {
    let mut station = open_station(3, 1);
    assert_eq!(station.deliver(3, &[0; 256]), Ok(()));
    let mut sheet = [0xEE; 1096];
    for _ in 0..20 {
        assert_eq!(station.round(&mut sheet), Ok([0, 0, 0, 64, 0, 0, 0, 0]));
        assert_eq!(station.deliver(3, &[0; 65]), Err(Refusal::NoRoom));
        assert_eq!(station.deliver(3, &[0; 64]), Ok(()));
    }
}

#[test]
fn sheet_of_1096_and_1095() {
    let mut station = open_station(0, 1);
    assert_eq!(station.deliver(0, &[0x82, 0x03]), Ok(()));
    let mut short = [0xEE; 1095];
    let refused = station.round(&mut short);
    assert_eq!(refused, Err(Refusal::SheetTooShort));
    // "A refused round gives eight zero counts."
    assert_eq!(counts_of(&refused), [0; LINES]);
    assert_eq!(short, [0xEE; 1095]);
    assert_eq!(station.inbox_length(0), Some(2));
    assert_eq!(station.round(&mut []), Err(Refusal::SheetTooShort));
    let mut sheet = [0xEE; 1096];
    assert_eq!(station.round(&mut sheet), Ok([2, 0, 0, 0, 0, 0, 0, 0]));
    assert_eq!(sheet[..8], [2, 0, 0, 0, 0, 0, 0, 0]);
    assert_eq!(
        sheet[8..24],
        [24, 0, 0, 0, 0, 0, 0, 0, 0, 0, 0, 0, 0, 0, 0, 0]
    );
    assert_eq!(sheet[24..30], [2, 0, 0, 0, 1, 0]);
    assert!(sheet[30..].iter().all(|one| *one == 0xEE));
    let mut long = [0xEE; 2000];
    assert_eq!(station.round(&mut long), Ok([0; LINES]));
    assert_eq!(long[..24], [0; 24]);
    assert!(long[24..].iter().all(|one| *one == 0xEE));
}

#[test]
fn an_answer_on_the_63rd_64th_and_65th_byte() {
    // An ETX gives the answer; one byte stands after it. For each round: the
    // count of the turn and the offset of the entry.
    let cases: [(usize, [(u8, u8); 3]); 3] = [
        (63, [(63, 24), (1, 0), (0, 0)]),
        (64, [(64, 24), (1, 0), (0, 0)]),
        (65, [(64, 0), (1, 24), (1, 0)]),
    ];
    for (number_of_answering_byte, rounds) in cases {
        let mut station = open_station(7, 1);
        let mut bytes = vec![0x41; number_of_answering_byte - 2];
        bytes.extend([0x82, 0x03, 0x41]);
        assert_eq!(station.deliver(7, &bytes), Ok(()));
        for (count, offset) in rounds {
            let mut sheet = [0xEE; 1096];
            let counts = station.round(&mut sheet).expect("long enough");
            assert_eq!(counts, [0, 0, 0, 0, 0, 0, 0, count]);
            assert_eq!(sheet[..8], counts);
            assert_eq!(sheet[8..22], [0; 14]);
            assert_eq!(sheet[22..24], [offset, 0]);
        }
    }
}

#[test]
fn line_7_and_8() {
    let mut station = Station::new();
    assert_eq!(station.open(7, 0), Ok(()));
    assert_eq!(station.open(8, 0), Err(Refusal::NoSuchLine));
    assert_eq!(station.deliver(7, &[0x82]), Ok(()));
    assert_eq!(station.deliver(8, &[0x82]), Err(Refusal::NoSuchLine));
    let mut sheet = [0; 1096];
    assert_eq!(station.round(&mut sheet), Ok([0, 0, 0, 0, 0, 0, 0, 1]));
}

#[test]
fn a_sheet_with_entries_of_several_lines() {
    let mut station = Station::new();
    for line in [0, 2, 5, 7] {
        assert_eq!(station.open(line, 1), Ok(()));
    }
    let whole = [&[0x82][..], &all_to_wire(RIGHT), &[0x03]].concat();
    assert_eq!(station.deliver(0, &whole), Ok(()));
    assert_eq!(station.deliver(5, &[0x82, 0x82]), Ok(()));
    let mut stamped = vec![0x82];
    let mut buffer = [0; 60];
    let written = write(1, b"DPM1", b" 081225223518", b"07", &mut buffer).expect("right");
    stamped.extend(&buffer[..written]);
    assert_eq!(station.deliver(7, &stamped), Ok(()));
    let mut sheet = [0xEE; 1097];
    let counts = station.round(&mut sheet).expect("long enough");
    assert_eq!(counts, [14, 0, 0, 0, 0, 2, 0, stamped.len() as u8]);
    let mut expected = counts.to_vec();
    expected.extend([24, 0, 0, 0, 0, 0, 0, 0, 0, 0, 38, 0, 0, 0, 44, 0]);
    expected.extend(b"\x01\x05\x00\x03\x01\x00URMS1230");
    expected.extend(b"\x05\x00\x00\x00\x02\x00");
    expected.extend(b"\x01\x04\x0D\x02\x01\x00DPM1 08122522351807");
    assert_eq!(sheet[..expected.len()], expected[..]);
    assert!(sheet[expected.len()..].iter().all(|one| *one == 0xEE));
    // "Opening a line ... empties its inbox and puts it outside, whether it
    // was open or not."
    assert_eq!(station.open(0, 0), Ok(()));
    assert_eq!(station.deliver(5, &[0x03]), Ok(()));
    assert_eq!(station.round(&mut sheet), Ok([0, 0, 0, 0, 0, 1, 0, 0]));
    assert_eq!(sheet[24], 2);
    assert_eq!(station.deliver(0, &[0x03]), Ok(()));
    assert_eq!(station.round(&mut sheet), Ok([1, 0, 0, 0, 0, 0, 0, 0]));
    assert_eq!(sheet[8..24], [0; 16]);
}

#[test]
fn rounds_give_the_answers_of_the_line_in_order() {
    for index in 0..40 {
        let mut generator = Generator::new(Dice::for_item(97, 1, index));
        let mode = generator.mode();
        let wire = generator.traffic(mode, 600);
        let mut station = open_station(4, mode.number());
        let mut left = &wire[..];
        let mut gathered = Vec::new();
        let mut taken = 0;
        while !left.is_empty() || station.inbox_length(4) != Some(0) {
            let length = generator.dice.between(0, 90).min(left.len());
            if station.deliver(4, &left[..length]).is_ok() {
                left = &left[length..];
            }
            let mut sheet = [0; 1096];
            let before = station.inbox_length(4).expect("open");
            let counts = station.round(&mut sheet).expect("long enough");
            let after = station.inbox_length(4).expect("open");
            assert_eq!(usize::from(counts[4]), before - after);
            assert!(counts[4] > 0 || before == 0);
            taken += usize::from(counts[4]);
            if sheet[16] != 0 {
                let frame = u16::from_le_bytes([sheet[28], sheet[29]]);
                gathered.push((taken - 1, sheet[24], sheet[27], frame));
            }
        }
        let fourth_byte = |answer: &Answer| match answer {
            Answer::GroupAccepted { data, .. } => data.len() as u8,
            Answer::GroupRefused(fault) => fault.place as u8,
            _ => 0,
        };
        let expected: Vec<(usize, u8, u8, u16)> = read_whole(mode, &wire)
            .iter()
            .map(|placed| {
                let answer = &placed.answer;
                let fourth = fourth_byte(answer);
                (placed.place, answer.number(), fourth, placed.frame)
            })
            .collect();
        assert_eq!(gathered, expected);
    }
}

// "The listing"

#[test]
fn whole_case_of_the_listing() {
    let capture = [
        0x53, 0x82, 0x0A, 0x55, 0xD2, 0x4D, 0x53, 0xB1, 0x09, 0xB2, 0x33, 0x30, 0x09, 0x3F, 0x8D,
        0x03,
    ];
    assert_eq!(listing(&capture), "1 URMS1 - 230\n2\n");
}

#[test]
fn bad_captures_and_captures_without_answers() {
    assert_eq!(listing(b""), "20\n");
    assert_eq!(listing(b"h"), "20\n");
    assert_eq!(listing(b"Q\x82\x03"), "20\n");
    assert_eq!(listing(b"\xC8\x82\x03"), "20\n");
    assert_eq!(listing(b"\xD3\x82\x03"), "20\n");
    assert_eq!(listing(b"H"), "");
    assert_eq!(listing(b"S\x82\x0A\x41"), "");
    assert_eq!(listing(b"H\x82\x03"), "2\n");
}

#[test]
fn stamps_and_empty_data_in_the_listing() {
    let capture_of = |content: &[u8]| {
        let characters = [b"\x02\n", content, b"\r\x03"].concat();
        [b"S", &all_to_wire(&characters)[..]].concat()
    };
    assert_eq!(
        listing(&capture_of(b"DATE\tH081225223518\t\tH")),
        "1 DATE H081225223518 \n2\n"
    );
    let content = closed(STANDARD, b"DPM1\t 081225223518\t00");
    assert_eq!(
        listing(&capture_of(&content)),
        "1 DPM1  081225223518 00\n2\n"
    );
}

// The log of a box's calls

#[test]
fn replies_have_their_form() {
    let calls = [
        Call::Open { line: 0, mode: 1 },
        Call::Open { line: 8, mode: 1 },
        Call::Deliver {
            line: 0,
            bytes: vec![0x82, 0x03],
        },
        Call::Round {
            size: 2,
            fill: 0xAB,
        },
        Call::Round { size: 0, fill: 1 },
        Call::Judge {
            mode: 1,
            content: b"URMS1\t230\t?".to_vec(),
        },
        Call::Judge {
            mode: 3,
            content: vec![],
        },
        Call::Write {
            mode: 1,
            label: b"PREF".to_vec(),
            stamp: vec![],
            data: b"06".to_vec(),
            size: 12,
            fill: 0xFF,
        },
        Call::Write {
            mode: 1,
            label: b"PREF".to_vec(),
            stamp: vec![],
            data: b"06".to_vec(),
            size: 3,
            fill: 0xFF,
        },
        Call::Write {
            mode: 0,
            label: vec![],
            stamp: vec![],
            data: vec![],
            size: 0,
            fill: 0,
        },
    ];
    let items: Vec<Item> = calls.iter().cloned().map(Item::Call).collect();
    let log = log_bytes(&items);
    assert_eq!(read_log(&log).calls, calls);
    let check = to_wire(check_character(b"PREF\t06\t"));
    assert_eq!(
        replay(&log),
        format!(
            "O 0\nO 16\nD 0\nR 18 0 0 0 0 0 0 0 0 abab\nR 18 0 0 0 0 0 0 0 0 -\n\
             J 1 55524d5331 - 323330 0\nJ 19 - - - 0\n\
             W 0 11 0a50d2c5c609303609{check:02x}8dff\nW 15 0 ffffff\nW 11 0 -\n"
        )
    );
}

/// docs/REPLAY.md: "`?`, its number, the offset of its first byte, and why".
#[test]
fn unreadable_logs() {
    assert_eq!(replay(b""), "");
    assert_eq!(replay(b"X"), "? 1 0 unknown letter\n");
    assert_eq!(replay(b"O\x00\x00X"), "O 0\n? 2 3 unknown letter\n");
    assert_eq!(replay(b"O\x00"), "? 1 0 cut short\n");
    assert_eq!(replay(b"R\x01\x10\x00"), "? 1 0 length over 4096\n");
    assert_eq!(replay(b"R\x01"), "? 1 0 cut short\n");
    assert_eq!(replay(b"D\x00\x02\x00A"), "? 1 0 cut short\n");
    assert_eq!(replay(b"XO\x00\x00"), "? 1 0 unknown letter\n");
    let long = [&b"J\x01\x00\x10"[..], &[b'A'; 4096]].concat();
    assert_eq!(replay(&long), "J 8 - - - 0\n");
    let two = [&long[..], b"O\x08\x00", b"W\x01\x05URM"].concat();
    assert_eq!(replay(&two), "J 8 - - - 0\nO 16\n? 3 4103 cut short\n");
    let too_long = [&b"J\x01\x01\x10"[..], &[b'A'; 4097]].concat();
    assert_eq!(replay(&too_long), "? 1 0 length over 4096\n");
    assert!(replay(b"R\x00\x10\x00").starts_with("R 0 0 0 0 0 0 0 0 0 0000"));
}

/// "A line's answers, and its deliveries' refusals, depend on its own openings
/// and deliveries and on where the accepted rounds fall between them."
#[test]
fn a_line_does_not_depend_on_the_others() {
    for index in 0..30 {
        let mut generator = Generator::new(Dice::for_item(96, 2, index));
        let history = generator.history(index);
        let calls: Vec<Call> = read_log(&log_bytes(&history)).calls;
        assert!(calls.len() >= CALLS_IN_HISTORY);
        for line in 0..LINES {
            let own = |call: &Call| match call {
                Call::Open { line: one, .. } | Call::Deliver { line: one, .. } => {
                    usize::from(*one) == line
                }
                Call::Round { size, .. } => *size >= 1096,
                _ => false,
            };
            let alone: Vec<Item> = calls
                .iter()
                .filter(|c| own(c))
                .cloned()
                .map(Item::Call)
                .collect();
            let together: Vec<Item> = calls.iter().cloned().map(Item::Call).collect();
            let seen = |items: &[Item]| -> Vec<String> {
                let replies = replies_to(&log_bytes(items));
                let pairs = items.iter().zip(&replies);
                pairs
                    .filter(|(item, _)| matches!(item, Item::Call(call) if own(call)))
                    .map(|(_, reply)| match reply {
                        crate::replay::Reply::Rounded { counts, .. } => {
                            // "Only the offset of its entry may depend on
                            // other lines."
                            let own_entries: Vec<String> = reply
                                .entries()
                                .iter()
                                .filter(|entry| entry.line == line)
                                // "The number counting as part of the answer"
                                // (document 02, M-108).
                                .map(|entry| {
                                    let (number, texts) = (entry.number, &entry.texts);
                                    format!("{number} {texts:?} {} {}", entry.place, entry.frame)
                                })
                                .collect();
                            format!("{} {own_entries:?}", counts[line])
                        }
                        other => other.text(),
                    })
                    .collect()
            };
            assert_eq!(seen(&together), seen(&alone));
        }
    }
}

// Document 02, M-101: "Lower-case seasons"

const THE_SIX: [&str; 6] = ["DPM1", "DPM2", "DPM3", "FPM1", "FPM2", "FPM3"];

/// Label, stamp and data of a group, right in all but perhaps the season.
fn fields_with(rule: &Rule, season: u8) -> [Vec<u8>; 3] {
    let stamp = [&[season][..], b"081225223518"].concat();
    [rule.label.clone().into(), stamp, vec![b'0'; rule.longest]]
}

/// The content of such a group.
fn content_with(rule: &Rule, season: u8) -> Vec<u8> {
    closed(STANDARD, &fields_with(rule, season).join(&b'\t'))
}

/// A frame of such groups, on the wire.
fn frame_with(rules: &[&Rule], season: u8) -> Vec<u8> {
    let groups = rules
        .iter()
        .flat_map(|rule| group_on_wire(&content_with(rule, season)));
    [0x82].into_iter().chain(groups).chain([0x03]).collect()
}

fn text(characters: &[u8]) -> &str {
    std::str::from_utf8(characters).expect("text")
}

/// "They are right wherever H and E are right, in reader and writer, and stay
/// wrong for DPM and FPM."
#[test]
fn m_101_right_seasons_of_every_stamped_label() {
    assert_eq!(stamped_rules().len(), 24);
    for rule in stamped_rules() {
        let six = THE_SIX.contains(&rule.label.as_str());
        let right: &[u8] = if six { b" " } else { b"HEhe" };
        for season in 0..=255 {
            let [label, stamp, data] = fields_with(rule, season);
            let content = content_with(rule, season);
            let mut buffer = [0x55; 60];
            let writing = write(STANDARD, &label, &stamp, &data, &mut buffer);
            let judging = judged_with_texts(STANDARD, &content);
            if right.contains(&season) {
                // What is written is what was just read, the letter as it came.
                assert_eq!(judging, (1, label, stamp, data));
                let wire = group_on_wire(&content);
                assert_eq!(writing, Ok(wire.len()));
                assert_eq!(buffer[..wire.len()], wire);
            } else {
                assert_eq!(judging, (12, vec![], vec![], vec![]), "{label:?} {season}");
                assert_eq!(writing, Err(Refusal::WrongStamp), "{label:?} {season}");
                assert_eq!(buffer, [0x55; 60]);
            }
        }
    }
}

#[test]
fn m_101_small_seasons_are_shown_as_they_came() {
    for rule in stamped_rules() {
        let six = THE_SIX.contains(&rule.label.as_str());
        for season in SMALL_SEASONS {
            let [label, stamp, data] = fields_with(rule, season);
            let wire = frame_with(&[rule], season);
            // Where the stamp begins (M-104).
            let place = label.len() + 1;
            // The listing.
            let listed = if six {
                format!("12 {place}\n3\n")
            } else {
                format!("1 {} {} {}\n2\n", text(&label), text(&stamp), text(&data))
            };
            assert_eq!(listing(&[b"S", &wire[..]].concat()), listed);
            // A sheet.
            let mut station = open_station(0, STANDARD);
            assert_eq!(station.deliver(0, &wire), Ok(()));
            let mut sheet = [0xEE; 1096];
            let taken = wire.len() as u8 - 1;
            assert_eq!(station.round(&mut sheet), Ok([taken, 0, 0, 0, 0, 0, 0, 0]));
            // The first frame (M-108).
            let entry = if six {
                vec![12, 0, 0, place as u8, 1, 0]
            } else {
                let head = [1, label.len() as u8, 13, data.len() as u8, 1, 0];
                [&head[..], &label, &stamp, &data].concat()
            };
            let (shown, rest) = sheet[24..].split_at(entry.len());
            assert_eq!(shown, entry);
            assert!(rest.iter().all(|one| *one == 0xEE));
            // Replay.
            let written = group_on_wire(&content_with(rule, season));
            let replayed = if six {
                format!("J 12 - - - {place}\nW 12 0 55\n")
            } else {
                let hex = [&label, &stamp, &data].map(|field| hexadecimal(field));
                let buffer = hexadecimal(&written);
                format!("J 1 {} 0\nW 0 {} {buffer}\n", hex.join(" "), written.len())
            };
            let judging = Call::Judge {
                mode: STANDARD,
                content: content_with(rule, season),
            };
            let writing = Call::Write {
                mode: STANDARD,
                label,
                stamp,
                data,
                size: if six { 1 } else { written.len() },
                fill: 0x55,
            };
            let log = log_bytes(&[Item::Call(judging), Item::Call(writing)]);
            assert_eq!(replay(&log), replayed);
        }
    }
}

/// "After a long outage one meter's clock lost its time": a line sends large
/// seasons, then small ones, then large ones again.
#[test]
fn m_101_a_clock_loses_its_time_and_gets_it_back() {
    let rules = ["DATE", "SMAXSN", "UMOY1"].map(|label| {
        let rule = find_rule(Mode::Standard, label.as_bytes());
        rule.expect("in the list")
    });
    let mut capture = b"S".to_vec();
    let mut listed = String::new();
    let mut station = open_station(3, STANDARD);
    for (season, number) in (*b"HhHEeE").into_iter().zip(1..) {
        let frame = frame_with(&rules, season);
        capture.extend(&frame);
        let letter = char::from(season);
        listed.push_str(&format!(
            "1 DATE {letter}081225223518 \n\
             1 SMAXSN {letter}081225223518 00000\n\
             1 UMOY1 {letter}081225223518 000\n\
             2\n"
        ));
        assert_eq!(station.deliver(3, &frame), Ok(()));
        let mut sheet = [0xEE; 1096];
        for rule in rules {
            assert!(station.round(&mut sheet).is_ok());
            assert_eq!(sheet[24], 1);
            assert_eq!(sheet[28..30], [number, 0]);
            assert_eq!(sheet[30 + rule.label.len()], season);
        }
        assert!(station.round(&mut sheet).is_ok());
        assert_eq!(sheet[24..30], [2, 0, 0, 0, number, 0]);
    }
    assert_eq!(listing(&capture), listed);
}

/// A stamp with a small season and a fault elsewhere is made up as well.
#[test]
fn m_101_spoilt_stamps_have_all_four_letters() {
    let mut generator = Generator::new(Dice::new(101));
    let stamps: Vec<Vec<u8>> = (0..5000)
        .map(|_| generator.spoilt_draft(Mode::Standard, &[Spoiling::Stamp]))
        .filter(|draft| draft.rule.stamp == Some(Season::WinterOrSummer))
        .map(|draft| draft.stamp)
        .filter(|stamp| stamp.len() == 13 && !stamp_is_right(Season::WinterOrSummer, stamp))
        .collect();
    // Month 13, day 00, 29 February of a common year, hour 24, minute and
    // second 60, each at its place in the stamp.
    let faults = [
        (3, "13"),
        (5, "00"),
        (3, "0229"),
        (7, "24"),
        (9, "60"),
        (11, "60"),
    ];
    for letter in *b"HEhe" {
        for (place, digits) in faults {
            let drawn = stamps
                .iter()
                .any(|stamp| stamp[0] == letter && stamp[place..].starts_with(digits.as_bytes()));
            assert!(drawn, "{} {place} {digits}", char::from(letter));
        }
    }
}

/// A spoilt season is wrong for its label: h and e are so for DPM and FPM only.
#[test]
fn m_101_spoilt_seasons() {
    let mut generator = Generator::new(Dice::new(102));
    let mut of_letters = BTreeSet::new();
    let mut of_the_six = BTreeSet::new();
    for _ in 0..5000 {
        let draft = generator.spoilt_draft(Mode::Standard, &[Spoiling::Season]);
        match draft.rule.stamp {
            None => continue,
            Some(Season::WinterOrSummer) => of_letters.insert(draft.stamp[0]),
            Some(Season::SpaceOnly) => of_the_six.insert(draft.stamp[0]),
        };
    }
    let has_all =
        |drawn: &BTreeSet<u8>, wanted: &[u8]| wanted.iter().all(|one| drawn.contains(one));
    assert!(b"HEhe".iter().all(|one| !of_letters.contains(one)));
    assert!(has_all(&of_letters, b" DFGIdfgi"));
    assert!(!of_the_six.contains(&b' '));
    assert!(has_all(&of_the_six, b"HEhe"));
}

/// What the gate compares, made without running a program: captures and
/// histories hold both small seasons with every stamped label, and still every
/// answer.
#[test]
fn m_101_small_seasons_in_the_captures_and_histories_of_the_gate() {
    let tally = made_for_the_gate();
    let report = tally.report(2000, 200);
    for (place, name) in GROUP_PLACES {
        for rule in stamped_rules() {
            for small in SMALL_SEASONS {
                let times = tally.times_met(place, &rule.label, small);
                assert!(times > 0, "{name} {} {}", rule.label, char::from(small));
            }
        }
        let line = format!("  {name}: h with 18 and 6, e with 18 and 6; ");
        assert!(report.contains(&line), "{report}");
    }
    for number in 0..=20 {
        assert!(tally.times_answered(number) > 0, "{number}");
    }
}
