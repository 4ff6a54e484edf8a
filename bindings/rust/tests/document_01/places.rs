//! Document 02, M-104, "Say where it went wrong": "a place in the content, counted from 0".

use crate::groups::{data_of, stamp_of, wrong_at, BUSINESS, HISTORIC, STANDARD};
use crate::wire::{content, frame, STX};
use espandim::{judge, Answer, Fault, Mode, Notice, Refusal, Station};

use Mode::{Business, Historic, Standard};

/// The number of a content, and the place that comes with it: given alone, and on a line where a wire can carry the
/// characters. Both are the same.
fn told(mode: Mode, content: &[u8]) -> (u32, Option<usize>) {
    let alone = match judge(mode, content) {
        Ok(_) => (1, None),
        Err(fault) => (fault.number(), fault.place),
    };
    let carried = |&one: &u8| matches!(one, b'\t' | 0x20..=0x7F);
    if content.iter().all(carried) {
        assert_eq!(told_on_a_line(mode, content), alone, "{content:?}");
    }
    alone
}

fn told_on_a_line(mode: Mode, content: &[u8]) -> (u32, Option<usize>) {
    let mut station = Station::new();
    station.open(2, mode).unwrap();
    station.deliver(2, &frame(&[content])).unwrap();
    loop {
        let round = station.round();
        assert!(!round.is_idle());
        if let Some(answer) = round.answer(2) {
            return (answer.number(), answer.place());
        }
    }
}

/// Figures that were worked out by hand, with check characters that are right: mode, content, number and place.
const FIGURES: [(Mode, &[u8], u32, usize); 34] = [
    // A stamp that is missing, without its separator, of no such day or hour, or with another label's season.
    (Standard, b"SMAXSN\t01200\t?", 12, 7),
    (Standard, b"SMAXSN\tH081225223518 01200\tN", 12, 7),
    (Standard, b"DATE\tH081225223518\t?", 12, 5),
    (Standard, b"DATE\t 081225223518\t\t ", 12, 5),
    (Standard, b"DATE\tH090229000000\t\t7", 12, 5),
    (Standard, b"DATE\tH001301000000\t\t&", 12, 5),
    (Standard, b"DATE\tH000101240000\t\t)", 12, 5),
    (Standard, b"DPM1\tH081225223518\t00\t\\", 12, 5),
    (Standard, b"FPM3\th081225223518\t00\t@", 12, 5),
    // Nothing at all in its place: the place is that of the final separator.
    (Standard, b"DATE\t\tP", 12, 5),
    // A small digit, a separator inside the data, a letter behind a right stamp, a byte of eight bits.
    (Standard, b"STGE\t003a0001\tZ", 14, 8),
    (Standard, b"URMS1\t2\t0\tU", 14, 7),
    (Standard, b"SMAXSN\tH081225223518\t012o0\t6", 14, 24),
    (Historic, b"PAPP 0075a ^", 14, 9),
    (Historic, b"PTEC H\xC3.. S", 14, 6),
    (Historic, b"PAPP 0075\xB0 -", 14, 9),
    // A business meter's signs and units.
    (Business, b"DATE 25/12/08 22/35/18 !", 14, 16),
    (Business, b"PA1_s 0 kW &", 14, 7),
    (Business, b"PA1_s 123456kW K", 14, 11),
    (Business, b"PA1_s 12kVA 9", 14, 8),
    (Business, b"PA1_s 12H.kW /", 14, 8),
    (Business, b"PS 36kVW $", 14, 7),
    (Business, b"PS 36VA #", 14, 5),
    (Business, b"TGPHI_s 12-,34 1", 14, 10),
    (Business, b"TGPHI_s +0,25 <", 14, 8),
    (Business, b"TDYN1CF 25/12/08 22:00:00 HPH A", 14, 25),
    (Business, b"PREAVIS EJP 9", 14, 8),
    // Four characters are PROD, and five are CONSO.
    (Business, b"CONFIG CONS )", 14, 7),
    (Business, b"CONFIG PRODU @", 14, 7),
    // No text of TARIFDYN has six characters; one has seven.
    (Business, b"TARIFDYN NACTIF V", 14, 9),
    (Business, b"TARIFDYN ACTIFS [", 14, 9),
    (Business, b"TARIFDYN INACTIV /", 14, 15),
    // Too long, with a wrong character in it too: "for all others 0".
    (Standard, b"URMS1\t2X00\tT", 13, 0),
    (Business, b"PA1MN 123456kW T", 13, 0),
];

#[test]
fn the_figures() {
    for (mode, content, number, place) in FIGURES {
        let expected = (number, (place > 0).then_some(place));
        let text = String::from_utf8_lossy(content);
        assert_eq!(told(mode, content), expected, "{text}");
    }
}

/// A label of historic or standard mode, with a right stamp where it has one, and right data.
struct Row {
    mode: Mode,
    label: &'static str,
    stamp: &'static [u8],
    kind: &'static str,
    data: Vec<u8>,
}

impl Row {
    fn content(&self, stamp: &[u8], data: &[u8]) -> Vec<u8> {
        content(self.mode, self.label.as_bytes(), stamp, data)
    }

    /// Where stamp and data begin.
    fn behind_label(&self) -> usize {
        self.label.len() + 1
    }

    /// Where the data begin.
    fn behind_stamp(&self) -> usize {
        match self.stamp.len() {
            0 => self.behind_label(),
            length => self.behind_label() + length + 1,
        }
    }
}

fn rows() -> Vec<Row> {
    let mut rows = Vec::new();
    let historic = HISTORIC.iter().map(|row| (Historic, row));
    let standard = STANDARD.iter().map(|row| (Standard, row));
    for (mode, row) in historic.chain(standard) {
        let mut words = row.split(' ');
        let rule = words.next().unwrap();
        let (kind, width) = rule.trim_end_matches('*').split_at(1);
        let data = data_of(kind, width.parse().unwrap());
        rows.extend(words.map(|label| Row {
            mode,
            label,
            stamp: if rule.ends_with('*') {
                stamp_of(label)
            } else {
                b""
            },
            kind,
            data: data.clone(),
        }));
    }
    rows
}

/// Characters that are not of a kind: those next to it in the code, those of another, and those of none.
fn wrong_characters(kind: &str) -> &'static [u8] {
    match kind {
        "N" => b"/:A \x00\x09\x80\xB0\xFF",
        "X" => b"/:@Ga \x00\x09\x80\xC1\xFF",
        _ => b"\x00\x09\x1F\x7F\x80\xA0\xFF",
    }
}

/// "For 14 the first wrong data character": each of every label's data, alone and with all behind it wrong too.
#[test]
fn the_first_wrong_data_character_of_every_label_is_told() {
    let mut last = 0;
    for row in rows() {
        for index in 0..row.data.len() {
            let place = row.behind_stamp() + index;
            for &character in wrong_characters(row.kind) {
                let (mut one, mut many) = (row.data.clone(), row.data.clone());
                one[index] = character;
                many[index..].fill(character);
                for data in [one, many] {
                    let content = row.content(row.stamp, &data);
                    assert_eq!(told(row.mode, &content), (14, Some(place)), "{}", row.label);
                }
            }
            last = last.max(place);
        }
    }
    // The last of the 98 of PJOURF+1.
    assert_eq!(last, 8 + 1 + 97);
}

/// The same of a business meter: after a right beginning, the first character that no field takes anywhere.
#[test]
fn the_first_wrong_data_character_of_every_business_label_is_told() {
    for (names, rights) in BUSINESS {
        for label in names.split(' ') {
            for right in rights.iter() {
                for index in 0..right.len() {
                    let mut data = right.as_bytes().to_vec();
                    data[index..].fill(0x7F);
                    let content = content(Business, label.as_bytes(), b"", &data);
                    let place = label.len() + 1 + index;
                    assert_eq!(told(Business, &content), (14, Some(place)), "{label}");
                }
            }
        }
    }
}

/// Stamps that are wrong: one character, each in its turn; a month that is none; one character short, one long, and none.
fn wrong_stamps(right: &[u8]) -> Vec<Vec<u8>> {
    let mut wrong: Vec<Vec<u8>> = (0..right.len())
        .map(|index| [&right[..index], b"?", &right[index + 1..]].concat())
        .collect();
    wrong.push([&right[..3], b"13", &right[5..]].concat());
    wrong.push(right[..12].to_vec());
    wrong.push([right, b"0"].concat());
    wrong.push(Vec::new());
    wrong
}

/// "For 12 the first character after the label's separator", whatever is wrong with the stamp or behind it.
#[test]
fn a_wrong_stamp_of_every_label_is_told_at_its_first_character() {
    let mut labels = 0;
    for row in rows().iter().filter(|row| !row.stamp.is_empty()) {
        labels += 1;
        let mut wrong = Vec::new();
        for stamp in wrong_stamps(row.stamp) {
            wrong.extend([&row.data[..], b"?"].map(|data| row.content(&stamp, data)));
        }
        // The separator behind the stamp is the final one, or another character stands there.
        wrong.push(row.content(b"", row.stamp));
        wrong.push(row.content(b"", &[row.stamp, b" ", &row.data].concat()));
        for content in wrong {
            let expected = (12, Some(row.behind_label()));
            assert_eq!(told(row.mode, &content), expected, "{}", row.label);
        }
    }
    assert_eq!(labels, 24);
}

/// A place is an index of the content that was judged.
#[test]
fn a_place_lies_in_the_content() {
    let content = b"PA1_s 123456kW K";
    let fault = judge(Business, content).unwrap_err();
    assert_eq!(fault.place.map(|place| content[place]), Some(b'6'));
    let content = b"DATE\t\tP";
    assert_eq!(judge(Standard, content), wrong_at(5, Refusal::StampWrong));
    assert_eq!(content[5], b'\t');
}

/// Lines that tell places stand beside those that tell none, and the place of one is not that of another.
#[test]
fn each_line_tells_the_place_of_its_own_group() {
    let cases: [(Mode, &[u8], &str); 7] = [
        (Standard, b"STGE\t003a0001\tZ", "14 8"),
        (Standard, b"URMS1\t230\t?", "1 URMS1 - 230"),
        (Standard, b"SMAXSN\t01200\t?", "12 7"),
        (Historic, b"PAPP 00750 M", "10"),
        (Historic, b"PAPP 0075a ^", "14 9"),
        (Business, b"PA1MN 123456kW T", "13"),
        (Business, b"PA1_s 123456kW K", "14 11"),
    ];
    let mut station = Station::new();
    for (line, (mode, content, _)) in (0..).zip(cases) {
        station.open(line, mode).unwrap();
        station.deliver(line, &frame(&[content])).unwrap();
    }
    station.open(7, Standard).unwrap();
    station.deliver(7, &[STX, STX]).unwrap();
    let round = station.round();
    for (line, (_, _, said)) in (0..).zip(cases) {
        assert_eq!(round.answer(line).unwrap().to_string(), said);
    }
    let refused = |refusal, place| Some(Answer::Refused(Fault { refusal, place }));
    assert_eq!(round.answer(0), refused(Refusal::KindWrong, Some(8)));
    assert_eq!(round.answer(2), refused(Refusal::StampWrong, Some(7)));
    assert_eq!(round.answer(3), refused(Refusal::CheckWrong, None));
    assert_eq!(round.answer(5), refused(Refusal::WidthWrong, None));
    let restarted = Answer::Told(Notice::FrameRestarted);
    assert_eq!(round.answer(7), Some(restarted));
    let places = (0..8).map(|line| round.answer(line).unwrap().place());
    let expected = [Some(8), None, Some(7), None, Some(9), None, Some(11), None];
    assert!(places.eq(expected));
}
