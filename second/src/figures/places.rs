//! Tests of document 02, M-104, "Say where it went wrong": the place that judging
//! tells, and where it is shown.

use super::business::{fits_by_hand, labels_and_lengths, rule_of, LENGTHS};
use super::*;
use crate::formats::{exactly, one_text_of, Format};
use crate::tally::{Place, READING_PLACES};
use crate::wrong_places::{ways_of, Way, WAYS};

/// Contents, the number and the place of each: the customer's worked groups that
/// are refused as 12 or 14, and some of each other answer.
const GROUPS: [(u8, &[u8], u8, usize); 61] = [
    (STANDARD, b"URMS1\t230\t?", 1, 0),
    (STANDARD, b"URMS1\t230\t6", 10, 0),
    (HISTORIC, b"PAPP 00750 -", 1, 0),
    (HISTORIC, b"IINST 009  ", 1, 0),
    (HISTORIC, b"", 9, 0),
    (STANDARD, b"SMAXSN\tH081225223518\t01200\t7", 1, 0),
    (STANDARD, b"DATE\tH081225223518\t\tH", 1, 0),
    (STANDARD, b"DATE\t 081225223518\t\t ", 12, 5),
    (STANDARD, b"DPM1\tH081225223518\t00\t\\", 12, 5),
    (STANDARD, b"FPM3\th081225223518\t00\t@", 12, 5),
    (STANDARD, b"IRMS1\t3\tQ", 13, 0),
    (STANDARD, b"SNSTI\t00000\t3", 11, 0),
    (STANDARD, b"STGE\t003a0001\tZ", 14, 8),
    (STANDARD, b"DATE\tH081225223518\t0\t8", 13, 0),
    (STANDARD, b"SMAXSN\t01200\t?", 12, 7),
    (STANDARD, b"DATE\tH081225223518\t?", 12, 5),
    (STANDARD, b"SMAXSN\tH081225223518 01200\tN", 12, 7),
    (STANDARD, b"URMS1\tH081225223518\t230\t7", 13, 0),
    (STANDARD, b"URMS1\t2\t0\tU", 14, 7),
    (HISTORIC, b"PTEC  HC. E", 1, 0),
    (HISTORIC, b"PTEC H\xC3.. S", 14, 6),
    (HISTORIC, b"PAPP 0075\xB0 -", 14, 9),
    (HISTORIC, b"PAPP 00750 \xAD", 10, 0),
    (HISTORIC, b"PAPP\xA000750 -", 9, 0),
    (STANDARD, b"DATE\tH090229000000\t\t7", 12, 5),
    (STANDARD, b"DATE\tH000431000000\t\t)", 12, 5),
    (STANDARD, b"DATE\tH001301000000\t\t&", 12, 5),
    (STANDARD, b"DATE\tH000001000000\t\t\"", 12, 5),
    (STANDARD, b"DATE\tH000100000000\t\t\"", 12, 5),
    (STANDARD, b"DATE\tH000101240000\t\t)", 12, 5),
    (STANDARD, b"DATE\tH000101006000\t\t)", 12, 5),
    (STANDARD, b"DATE\tH000101000060\t\t)", 12, 5),
    (BUSINESS, b"TRAME TEST 9", 1, 0),
    (BUSINESS, b"MESURES2 TJ MU 6", 13, 0),
    (BUSINESS, b"DATE 25/12/08 22:35:18 7", 1, 0),
    (BUSINESS, b"DATE 25/12/08 22/35/18 !", 14, 16),
    (BUSINESS, b"D{bP 01/01/10 00:00:00 &", 11, 0),
    (BUSINESS, b"PA1_s 0TkW Z", 1, 0),
    (BUSINESS, b"PA1_s 0 kW &", 14, 7),
    (BUSINESS, b"PA1_s kW V", 13, 0),
    (BUSINESS, b"PA1_s 123456kW K", 14, 11),
    (BUSINESS, b"PA1_s 12kVA 9", 14, 8),
    (BUSINESS, b"PA1_s 12H.kW /", 14, 8),
    (BUSINESS, b"EAP_s 12345678kWh 6", 13, 0),
    (BUSINESS, b"CONFIG CONS )", 14, 7),
    (BUSINESS, b"CONFIG PRODU @", 14, 7),
    (BUSINESS, b"PS 36kVA N", 1, 0),
    (BUSINESS, b"PS 36kVW $", 14, 7),
    (BUSINESS, b"PS 36VA #", 14, 5),
    (BUSINESS, b"PREAVIS DEP  S", 1, 0),
    (BUSINESS, b"TGPHI_s -99999,99 6", 13, 0),
    (BUSINESS, b"TGPHI_s 12-,34 1", 14, 10),
    (BUSINESS, b"TGPHI_s +0,25 <", 14, 8),
    (BUSINESS, b"TARIFDYN INACTIF _", 1, 0),
    (BUSINESS, b"TARIFDYN NACTIF V", 14, 9),
    (BUSINESS, b"TARIFDYN ACTIFS [", 14, 9),
    (BUSINESS, b"TARIFDYN INACTIV /", 14, 15),
    (BUSINESS, b"PREAVIS2 TD- ? 0", 13, 0),
    (BUSINESS, b"TDYN1CF 25/12/08 22:00:00 HPH A", 14, 25),
    (BUSINESS, b"PREAVIS EJP 9", 14, 8),
    (3, b"PREAVIS EJP 9", 19, 0),
];

/// The number and the place of a judged content.
fn judged_at(mode: u8, content: &[u8]) -> (u8, usize) {
    let judgement = judge(mode, content);
    (judgement.number(), judgement.place())
}

/// The number and the place of a group that has these fields, parted by the
/// mode's separator, and is right otherwise.
fn judged_fields_at(mode: Mode, fields: &[&[u8]]) -> (u8, usize) {
    let body = fields.join(&mode.separator());
    judged_at(mode.number(), &closed(mode.number(), &body))
}

#[test]
fn m_104_worked_groups() {
    for (mode, content, number, place) in GROUPS {
        assert_eq!(judged_at(mode, content), (number, place), "{content:?}");
    }
}

/// "The listing prints a space and the place after 12 and 14." "In a sheet entry
/// for a refusal the fourth byte holds this place instead of zero; the second and
/// third stay zero." The log of a box's calls shows it last, for 1 and 19 too.
#[test]
fn m_104_where_the_place_is_shown() {
    for (number_of_mode, content, number, place) in GROUPS {
        let judging = Call::Judge {
            mode: number_of_mode,
            content: content.to_vec(),
        };
        let replayed = replay(&judging.to_record());
        let (begin, end) = replayed.trim_end().rsplit_once(' ').expect("fields");
        assert!(begin.starts_with(&format!("J {number} ")), "{replayed}");
        assert_eq!(end, place.to_string(), "{replayed}");
        // What a line can send, and has a mode for.
        let (Some(mode), true) = (Mode::from_number(number_of_mode), content.is_ascii()) else {
            continue;
        };
        let wire = [&[0x82][..], &group_on_wire(content)].concat();
        if number != 1 {
            let listed = match number {
                12 | 14 => format!("{number} {place}\n"),
                _ => format!("{number}\n"),
            };
            assert_eq!(listing(&[&[mode.letter()], &wire[..]].concat()), listed);
        }
        let mut station = open_station(6, number_of_mode);
        assert_eq!(station.deliver(6, &wire), Ok(()));
        let mut sheet = [0xEE; 1096];
        assert!(station.round(&mut sheet).is_ok());
        assert_eq!(sheet[24], number);
        if number != 1 {
            assert_eq!(sheet[25..31], [0, 0, place as u8, 1, 0, 0xEE]);
        }
    }
    let examples = [
        (
            STANDARD,
            &b"URMS1\t230\t?"[..],
            "J 1 55524d5331 - 323330 0\n",
        ),
        (STANDARD, b"STGE\t003a0001\tZ", "J 14 - - - 8\n"),
        (3, b"", "J 19 - - - 0\n"),
    ];
    for (mode, content, line) in examples {
        let content = content.to_vec();
        assert_eq!(replay(&Call::Judge { mode, content }.to_record()), line);
    }
}

/// Answers 2 to 6 are no refusals of a group, and 7 to 11 and 13 have no place:
/// the fourth byte is zero, and the listing shows nothing behind the number.
#[test]
fn m_104_answers_without_a_place() {
    let long = [b'A'; 129];
    let groups: [(&[u8], u8); 10] = [
        (b"\x82\x03", 2),
        (b"\x82A\x03", 3),
        (b"\x82\x84", 4),
        (b"\x82\x82", 5),
        (b"\x82\n\n", 6),
        (b"\x82\n\x01\x8D", 7),
        (&[b"\x82\n", &long[..], b"\x8D"].concat(), 8),
        (b"\x82\n\x8D", 9),
        (
            &[b"\x82", &group_on_wire(b"URMS1\t230\t6")[..]].concat(),
            10,
        ),
        (&[b"\x82", &group_on_wire(b"IRMS1\t3\tQ")[..]].concat(), 13),
    ];
    for (wire, number) in groups {
        assert_eq!(listing(&[b"S", wire].concat()), format!("{number}\n"));
        let mut station = open_station(0, STANDARD);
        assert_eq!(station.deliver(0, wire), Ok(()));
        let mut sheet = [0xEE; 1096];
        while sheet[8] != 24 {
            assert!(station.round(&mut sheet).is_ok());
        }
        // Only the 5 begins a second frame (M-108).
        let frame = if number == 5 { 2 } else { 1 };
        assert_eq!(sheet[24..31], [number, 0, 0, 0, frame, 0, 0xEE]);
    }
}

/// "For 12 the first character after the label's separator", whatever is wrong.
#[test]
fn m_104_wrong_stamps() {
    for rule in stamped_rules() {
        let label = rule.label.as_bytes();
        let right: &[u8] = match rule.stamp {
            Some(Season::SpaceOnly) => b" 081225223518",
            _ => b"H081225223518",
        };
        let data = vec![b'0'; rule.longest];
        assert_eq!(
            judged_fields_at(Mode::Standard, &[label, right, &data]),
            (1, 0)
        );
        let mut stamps: Vec<Vec<u8>> = (0..13)
            .map(|place| {
                let mut stamp = right.to_vec();
                stamp[place] = b'x';
                stamp
            })
            .collect();
        stamps.extend((0..13).map(|length| right[..length].to_vec()));
        stamps.push([right, b"0"].concat());
        let expected = (12, label.len() + 1);
        for stamp in stamps {
            let judged = judged_fields_at(Mode::Standard, &[label, &stamp, &data]);
            assert_eq!(judged, expected, "{} {stamp:?}", rule.label);
        }
        // No data, and no separator of its own.
        assert_eq!(judged_fields_at(Mode::Standard, &[label, right]), expected);
        // The first character after the label's separator is the final one.
        assert_eq!(judged_fields_at(Mode::Standard, &[label, b""]), expected);
    }
}

/// "For 14 the first wrong data character", at every place of every label of
/// modes 0 and 1, and with another wrong one at any place behind it.
#[test]
fn m_104_wrong_characters_of_one_kind() {
    let mut last_of_all = 0;
    for mode in [Mode::Historic, Mode::Standard] {
        for rule in all_rules(mode) {
            let stamp: &[u8] = match rule.stamp {
                None => b"",
                Some(Season::WinterOrSummer) => b"e081225223518",
                Some(Season::SpaceOnly) => b" 081225223518",
            };
            let label = rule.label.as_bytes();
            let before = match rule.stamp {
                None => label.len() + 1,
                Some(_) => label.len() + 1 + 13 + 1,
            };
            let judged = |data: &[u8]| match rule.stamp {
                None => judged_fields_at(mode, &[label, data]),
                Some(_) => judged_fields_at(mode, &[label, stamp, data]),
            };
            for first in 0..rule.longest {
                for second in [first, (first + rule.longest) / 2, rule.longest - 1] {
                    let mut data = vec![b'0'; rule.longest];
                    (data[first], data[second]) = (0x7F, 0x1F);
                    let expected = (14, before + first);
                    assert_eq!(judged(&data), expected, "{} {data:?}", rule.label);
                    last_of_all = last_of_all.max(before + first);
                }
            }
            // 13 has no place, whatever else is wrong.
            assert_eq!(judged(&vec![0x7F; rule.longest + 1]), (13, 0));
        }
    }
    // The last of 98 characters behind PJOURF+1 and HT.
    assert_eq!(last_of_all, 106);
}

/// Fitting data of a label, some of every alternative and of every length.
fn fitting_data(rule: &Rule) -> Vec<Vec<u8>> {
    let mut generator = Generator::new(Dice::new(104));
    let mut fitting = Vec::new();
    for fields in &rule.alternatives {
        let mut lengths = Format::of_fields(fields).lengths();
        while !lengths.is_empty() {
            let data = generator.data_of_fields(fields);
            if lengths.remove(&data.len()) {
                fitting.push(data);
            }
        }
    }
    fitting
}

/// The place by hand: a character is right when fitting data of that length have
/// it after the same beginning. If there are any, the rest of other fitting data
/// of that alternative and length makes some when it is put behind the beginning.
fn place_by_hand(label: &str, fitting: &[Vec<u8>], data: &[u8]) -> usize {
    let fits = |data: &[u8]| data.is_ascii() && fits_by_hand(label, text(data));
    let is_right = |place: usize| {
        let of_length = fitting.iter().filter(|other| other.len() == data.len());
        let mut rests = of_length.map(|other| &other[place + 1..]);
        rests.any(|rest| fits(&[&data[..=place], rest].concat()))
    };
    let wrong = (0..data.len()).find(|place| !is_right(*place));
    wrong.expect("refused as 14")
}

/// Each label of the business meter with right data of every alternative and
/// length, in which one character becomes any other, is left out or put in, or
/// two become others.
#[test]
fn m_104_every_place_of_the_business_meter() {
    for (label, least, most) in labels_and_lengths() {
        let fitting = fitting_data(rule_of(label));
        let agree = |data: &[u8]| {
            let right = data.is_ascii() && fits_by_hand(label, text(data));
            let expected = match (least..=most).contains(&data.len()) {
                false => (13, 0),
                true if right => (1, 0),
                true => (14, label.len() + 1 + place_by_hand(label, &fitting, data)),
            };
            let judged = judged_fields_at(Mode::Business, &[label.as_bytes(), data]);
            assert_eq!(judged, expected, "{label} {data:?}");
        };
        for data in &fitting {
            for place in 0..data.len() {
                let (before, after) = (&data[..place], &data[place + 1..]);
                agree(&[before, after].concat());
                for other in *b"0T-,.:/ kWVAhIPCx\x7F\xB0" {
                    agree(&[before, &[other], after].concat());
                    agree(&[before, &[other, data[place]], after].concat());
                    let mut two = [before, &[other], after].concat();
                    two[(place + data.len()) / 2] = other;
                    agree(&two);
                }
            }
        }
    }
}

/// All data of these characters and this length.
fn all_of_length(characters: &[u8], length: usize) -> Vec<Vec<u8>> {
    (0..length).fold(vec![Vec::new()], |shorter, _| {
        shorter
            .iter()
            .flat_map(|data| {
                characters
                    .iter()
                    .map(move |one| [&data[..], &[*one]].concat())
            })
            .collect()
    })
}

/// "The first that no fitting data of that length have there after the same
/// beginning", word for word: over all data of some characters.
fn hold_against_all(
    format: &Format,
    characters: &[u8],
    length: usize,
    fits: impl Fn(&[u8]) -> bool,
) {
    let all = all_of_length(characters, length);
    let fitting: Vec<&Vec<u8>> = all.iter().filter(|data| fits(data)).collect();
    let beginnings: BTreeSet<&[u8]> = fitting
        .iter()
        .flat_map(|data| (0..length).map(|last| &data[..=last]))
        .collect();
    for data in &all {
        let wrong = (0..length).find(|last| !beginnings.contains(&data[..=*last]));
        assert_eq!(format.first_wrong(data), wrong, "{data:?}");
    }
}

#[test]
fn m_104_all_data_of_some_characters() {
    for (label, characters, longest) in [
        ("PS", &b"1kWVA"[..], 6),
        ("PA1_s", b"1TkWx", 6),
        ("PA1MN", b"1kW ", 7),
        ("TGPHI_s", b"1-,.", 7),
        ("PREAVIS", b"DEP x", 4),
        ("CONFIG", b"CONSPRD", 5),
        ("TARIFDYN", b"ACTIF", 6),
        ("PTCOUR1", b"H \x1F\x7F", 3),
        ("EA_s", b"1Wh", 8),
    ] {
        let rule = rule_of(label);
        for length in rule.shortest..=longest {
            hold_against_all(&rule.format, characters, length, |data| {
                fits_by_hand(label, text(data))
            });
        }
    }
    // Formats that no label has: two runs beside one another, and endings that
    // may belong to either text.
    let digits = |least, most| run(Kind::Decimal, least, most);
    let two_runs = Format::Sequence(vec![digits(1, 3), digits(2, 2), exactly("1")]);
    let texts = Format::Sequence(vec![
        one_text_of(&["a", "ab"]),
        one_text_of(&["", "b", "bc"]),
    ]);
    for length in 1..=7 {
        hold_against_all(&two_runs, b"12x", length, |data| two_runs.fits(data));
        hold_against_all(&texts, b"abc", length, |data| texts.fits(data));
    }
}

#[test]
fn m_104_how_data_go_wrong() {
    use Way::*;
    let expected: [(&str, &str, &[Way]); 12] = [
        ("PS", "36kVW", &[AtLast, TogetherOnly, FirstIsSooner]),
        ("PS", "360kA", &[AtLast, TogetherOnly, LastIsSooner]),
        ("PS", "36VA", &[Between, TogetherOnly, LastIsSooner]),
        ("PA1_s", "12kVA", &[Between, Again, OtherLength]),
        ("PA1_s", "123456kW", &[Between]),
        ("PA1_s", "12xxW", &[Between, Again]),
        ("TGPHI_s", "+0,25", &[AtFirst]),
        ("TGPHI_s", "-0;25", &[Between, FirstIsSooner]),
        ("TGPHI_s", "1-,25", &[Between, LastIsSooner]),
        ("CONFIG", "CONS", &[AtFirst, Again, OtherLength]),
        ("CONFIG", "cONSO", &[AtFirst]),
        ("TARIFDYN", "NACTIF", &[NoLength]),
    ];
    for (label, data, ways) in expected {
        let found = ways_of(rule_of(label), data.as_bytes(), label.len() + 1);
        assert_eq!(found, ways, "{label} {data}");
    }
    let of_standard = |label: &str| find_rule(Mode::Standard, label.as_bytes()).expect(label);
    let behind = ways_of(of_standard("CCASN"), b"0x0x0", 21);
    assert_eq!(behind, [Between, Again, BehindStamp]);
    let far = [&[b'0'; 97][..], b"\x7F"].concat();
    assert_eq!(
        ways_of(of_standard("PJOURF+1"), &far, 106),
        [AtLast, HundredOrMore]
    );
}

/// What the gate compares, made without running a program: data go wrong in every
/// way wherever groups are read, at many places; and data of every format of the
/// business meter at the first character, at the last, and between.
#[test]
fn m_104_places_in_the_captures_and_histories_of_the_gate() {
    let tally = made_for_the_gate();
    let report = tally.report(2000, 200);
    let stamps: BTreeSet<usize> = stamped_rules()
        .iter()
        .map(|rule| rule.label.len() + 1)
        .collect();
    for (place, name) in READING_PLACES {
        // Behind labels of four to nine characters.
        assert_eq!(tally.places_met(place, 12), stamps, "{name}");
        let of_data = tally.places_met(place, 14);
        let least = match place {
            Place::Listing => 80,
            Place::Sheet => 50,
            _ => 30,
        };
        assert!(of_data.len() >= least, "{name} {}", of_data.len());
        assert_eq!(of_data.last(), Some(&106), "{name}");
        let line = format!(
            "  {name}: {} and {}; the last 106\n",
            stamps.len(),
            of_data.len()
        );
        assert!(report.contains(&line), "{report}");
        for (way, words) in WAYS {
            let times = MODES.map(|mode| tally.times_wrong(place, mode, way, |_| true));
            assert!(times.iter().sum::<u64>() >= 3, "{name} {words}: {times:?}");
        }
    }
    for (labels, least, most) in LENGTHS {
        let labels: Vec<&str> = labels.split_ascii_whitespace().collect();
        for way in [Way::AtFirst, Way::Between, Way::AtLast, Way::Again] {
            let times = tally.times_wrong(Place::Listing, Mode::Business, way, |label| {
                labels.contains(&label)
            });
            assert!(times > 0, "{labels:?} {least} {most} {way:?}");
        }
    }
    for label in ["PS", "PMAX_s", "PMAX_i"] {
        for way in [Way::TogetherOnly, Way::FirstIsSooner, Way::LastIsSooner] {
            let times = tally.times_wrong(Place::Listing, Mode::Business, way, |one| one == label);
            assert!(times > 0, "{label} {way:?}");
        }
    }
}
