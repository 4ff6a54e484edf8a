//! Tests of document 02, M-100, from document 003: the older business meter.

use super::*;
use crate::business;
use crate::drafts::Draft;
use crate::formats::{exactly, one_text_of, Format};
use crate::tally::Place;

/// Contents, the answer to each in mode 2, and label and data of those that are
/// accepted. The groups of document 003, 2.9.3, and near misses of them.
const GROUPS: [(&str, u8, &str, &str); 114] = [
    ("TRAME TEST 9", 1, "TRAME", "TEST"),
    ("ADS 000000000000 X", 1, "ADS", "000000000000"),
    ("PTCOUR1 HPE +", 1, "PTCOUR1", "HPE"),
    ("PREAVIS DEP 3", 1, "PREAVIS", "DEP"),
    ("PTCOUR1 HCE ^", 1, "PTCOUR1", "HCE"),
    ("PTCOUR1 HPH .", 1, "PTCOUR1", "HPH"),
    ("PTCOUR1 HCH !", 1, "PTCOUR1", "HCH"),
    ("PTCOUR1 P ^", 1, "PTCOUR1", "P"),
    ("PTCOUR1 P   ^", 1, "PTCOUR1", "P  "),
    ("PTCOUR1 XXX V", 1, "PTCOUR1", "XXX"),
    ("PTCOUR2 HP '", 1, "PTCOUR2", "HP"),
    ("PTCOUR2 HP  G", 1, "PTCOUR2", "HP "),
    ("PTCOUR2 HC Z", 1, "PTCOUR2", "HC"),
    ("PTCOUR2 HC  :", 1, "PTCOUR2", "HC "),
    ("MESURES1 TJ MU      U", 1, "MESURES1", "TJ MU     "),
    ("MESURES1 TJ LU      T", 1, "MESURES1", "TJ LU     "),
    ("MESURES1 TJ LU-SD   8", 1, "MESURES1", "TJ LU-SD  "),
    ("MESURES1 TJ LU-P    Q", 1, "MESURES1", "TJ LU-P   "),
    ("MESURES1 TJ LU-PH   9", 1, "MESURES1", "TJ LU-PH  "),
    ("MESURES1 TJ LU-CH   ,", 1, "MESURES1", "TJ LU-CH  "),
    ("MESURES1 TJ EJP     2", 1, "MESURES1", "TJ EJP    "),
    ("MESURES1 TJ EJP-SD  V", 1, "MESURES1", "TJ EJP-SD "),
    ("MESURES1 TJ EJP-PM  \\", 1, "MESURES1", "TJ EJP-PM "),
    ("MESURES1 TJ EJP-HH  O", 1, "MESURES1", "TJ EJP-HH "),
    ("MESURES1 TV A5 BASE P", 1, "MESURES1", "TV A5 BASE"),
    ("MESURES1 TV A8 BASE S", 1, "MESURES1", "TV A8 BASE"),
    ("MESURES1 BT 4 SUP36 @", 1, "MESURES1", "BT 4 SUP36"),
    ("MESURES1 BT 5 SUP36 A", 1, "MESURES1", "BT 5 SUP36"),
    ("MESURES1 HTA 5      '", 1, "MESURES1", "HTA 5     "),
    ("MESURES1 HTA 8      *", 1, "MESURES1", "HTA 8     "),
    ("MESURES2 TJ MU 6", 13, "", ""),
    ("PTCOUR1 PM +", 1, "PTCOUR1", "PM"),
    ("PTCOUR1 PM  K", 1, "PTCOUR1", "PM "),
    ("PTCOUR1 HH ^", 1, "PTCOUR1", "HH"),
    ("PTCOUR1 JA Y", 1, "PTCOUR1", "JA"),
    ("PTCOUR1 JA  9", 1, "PTCOUR1", "JA "),
    ("PTCOUR1 HPD *", 1, "PTCOUR1", "HPD"),
    ("PTCOUR1 HCD ]", 1, "PTCOUR1", "HCD"),
    ("PTCOUR1 HCE ^", 1, "PTCOUR1", "HCE"),
    ("PTCOUR1 P  >", 1, "PTCOUR1", "P "),
    ("PTCOUR1     .", 1, "PTCOUR1", "   "),
    ("DATE 25/12/08 22:35:18 7", 1, "DATE", "25/12/08 22:35:18"),
    ("DATE 25/12/08 22/35/18 !", 14, "", ""),
    ("DATE 99/99/99 99:99:99 <", 1, "DATE", "99/99/99 99:99:99"),
    ("DebP 01/01/10 00:00:00 P", 1, "DebP", "01/01/10 00:00:00"),
    ("D{bP 01/01/10 00:00:00 &", 11, "", ""),
    ("PA1_s 0TkW Z", 1, "PA1_s", "0TkW"),
    ("PA1_s 0kW F", 1, "PA1_s", "0kW"),
    ("PA1_s 0 kW &", 14, "", ""),
    ("PA1_s 32767kW _", 1, "PA1_s", "32767kW"),
    ("PA1_s 32767TkW 3", 1, "PA1_s", "32767TkW"),
    ("PA1_s 99999kW 3", 1, "PA1_s", "99999kW"),
    ("PA1_s 012kW )", 1, "PA1_s", "012kW"),
    ("PA1_s kW V", 13, "", ""),
    ("PA1_s 123456kW K", 14, "", ""),
    ("PA1_s 12kVA 9", 14, "", ""),
    ("PA1_s 12H.kW /", 14, "", ""),
    ("EAP_s 9999999kWh !", 1, "EAP_s", "9999999kWh"),
    ("EAP_s 0kWh B", 1, "EAP_s", "0kWh"),
    ("EAP_s 12345678kWh 6", 13, "", ""),
    ("EaP-1_s 42kWh 6", 1, "EaP-1_s", "42kWh"),
    ("EAP-1_s 42kWh V", 11, "", ""),
    ("ER+P_s 9999999kvarh O", 1, "ER+P_s", "9999999kvarh"),
    ("ER-P-1_i 0kvarh F", 1, "ER-P-1_i", "0kvarh"),
    ("EaP_s2 7kWh [", 1, "EaP_s2", "7kWh"),
    ("EAP_s2 7kWh ;", 11, "", ""),
    ("CONFIG CONSO 8", 1, "CONFIG", "CONSO"),
    ("CONFIG PROD +", 1, "CONFIG", "PROD"),
    ("CONFIG CONS )", 14, "", ""),
    ("CONFIG PRODU @", 14, "", ""),
    ("PS 36kVA N", 1, "PS", "36kVA"),
    ("PS 250kW <", 1, "PS", "250kW"),
    ("PS 32767kVA .", 1, "PS", "32767kVA"),
    ("PS 36kVW $", 14, "", ""),
    ("PS 36VA #", 14, "", ""),
    ("PREAVIS DEP  S", 1, "PREAVIS", "DEP "),
    ("EA_s 1234567Wh C", 1, "EA_s", "1234567Wh"),
    ("EA_i 0Wh =", 1, "EA_i", "0Wh"),
    ("ER+_s 12varh (", 1, "ER+_s", "12varh"),
    ("ER-_i 0varh -", 1, "ER-_i", "0varh"),
    ("EAPP_s 5VAh ,", 1, "EAPP_s", "5VAh"),
    ("EAPP_s 5Wh ,", 13, "", ""),
    ("TGPHI_s -9999,99 =", 1, "TGPHI_s", "-9999,99"),
    ("TGPHI_s 99999,99 I", 1, "TGPHI_s", "99999,99"),
    ("TGPHI_s 0,25 Q", 1, "TGPHI_s", "0,25"),
    ("TGPHI_s 0.25 S", 1, "TGPHI_s", "0.25"),
    ("TGPHI_s -0,25 >", 1, "TGPHI_s", "-0,25"),
    ("TGPHI_s ,25 !", 13, "", ""),
    ("TGPHI_s -99999,99 6", 13, "", ""),
    ("TGPHI_s 0,2 \\", 13, "", ""),
    ("TGPHI_s 12-,34 1", 14, "", ""),
    ("TGPHI_s +0,25 <", 14, "", ""),
    ("MODE CONTROLE K", 1, "MODE", "CONTROLE"),
    ("PA1MN 12kW B", 1, "PA1MN", "12kW"),
    ("PMAX_s 12kVA -", 1, "PMAX_s", "12kVA"),
    ("PMAX_i 12kW #", 1, "PMAX_i", "12kW"),
    ("TARIFDYN ACTIF H", 1, "TARIFDYN", "ACTIF"),
    ("TARIFDYN INACTIF _", 1, "TARIFDYN", "INACTIF"),
    ("TARIFDYN NACTIF V", 14, "", ""),
    ("TARIFDYN ACTIFS [", 14, "", ""),
    ("TARIFDYN INACTIV /", 14, "", ""),
    ("ETATDYN1 000 Z", 1, "ETATDYN1", "000"),
    ("ETATDYN1 HPE '", 1, "ETATDYN1", "HPE"),
    ("ETATDYN2 P   [", 1, "ETATDYN2", "P  "),
    ("ETATDYN2 P [", 13, "", ""),
    ("PREAVIS1 TD-PM  M", 1, "PREAVIS1", "TD-PM "),
    ("PREAVIS1 TD-HPH 0", 1, "PREAVIS1", "TD-HPH"),
    ("PREAVIS2 TD- ?  P", 1, "PREAVIS2", "TD- ? "),
    ("PREAVIS2 TD- ? 0", 13, "", ""),
    ("PREAVIS1 TD-?   O", 1, "PREAVIS1", "TD-?  "),
    (
        "TDYN1CD 25/12/08 06:00:00-PM  +",
        1,
        "TDYN1CD",
        "25/12/08 06:00:00-PM ",
    ),
    (
        "TDYN2FF 25/12/08 22:00:00-HPH R",
        1,
        "TDYN2FF",
        "25/12/08 22:00:00-HPH",
    ),
    ("TDYN1CF 25/12/08 22:00:00 HPH A", 14, "", ""),
    ("PREAVIS EJP 9", 14, "", ""),
];

/// The lengths of data, as 2.9.3 gives them with the units of Tableau 10.
pub(super) const LENGTHS: [(&str, usize, usize); 21] = [
    ("TRAME", 4, 4),
    ("ADS", 12, 12),
    ("MESURES1 MESURES2", 10, 10),
    (
        "DATE DATEPA1 DATEPA2 DATEPA3 DATEPA4 DATEPA5 DATEPA6 \
         DebP DebP-1 FinP-1 DebP_2 DebP-1_2 FinP-1_2",
        17,
        17,
    ),
    ("EA_s EA_i", 3, 9),
    ("ER+_s ER-_s ER+_i ER-_i", 5, 11),
    ("EAPP_s EAPP_i", 4, 10),
    ("PTCOUR1 PTCOUR2", 1, 3),
    ("TARIFDYN", 5, 7),
    ("ETATDYN1 ETATDYN2", 3, 3),
    ("PREAVIS1 PREAVIS2", 6, 6),
    (
        "TDYN1CD TDYN1CF TDYN1FD TDYN1FF TDYN2CD TDYN2CF TDYN2FD TDYN2FF",
        21,
        21,
    ),
    ("MODE", 8, 8),
    ("CONFIG", 4, 5),
    (
        "PA1_s PA2_s PA3_s PA4_s PA5_s PA6_s PA1_i PA2_i PA3_i PA4_i PA5_i PA6_i",
        3,
        8,
    ),
    ("EAP_s EAP_i EaP-1_s EaP-1_i EaP_s2 EaP-1_s2", 4, 10),
    (
        "ER+P_s ER-P_s ER+P_i ER-P_i ER+P-1_s ER-P-1_s ER+P-1_i ER-P-1_i",
        6,
        12,
    ),
    ("PS PMAX_s PMAX_i", 3, 8),
    ("PREAVIS", 3, 4),
    ("PA1MN", 3, 7),
    ("TGPHI_s TGPHI_i", 4, 8),
];

/// Each label with its least and its most characters.
pub(super) fn labels_and_lengths() -> impl Iterator<Item = (&'static str, usize, usize)> {
    LENGTHS.into_iter().flat_map(|(labels, least, most)| {
        let labels = labels.split_ascii_whitespace();
        labels.map(move |label| (label, least, most))
    })
}

pub(super) fn rule_of(label: &str) -> &'static Rule {
    find_rule(Mode::Business, label.as_bytes()).expect(label)
}

/// Judges a group of mode 2 that has these fields and is right otherwise.
fn judged_fields(label: &str, data: &[u8]) -> u8 {
    let body = [label.as_bytes(), b" ", data].concat();
    judged(BUSINESS, &closed(BUSINESS, &body))
}

/// The number of a writing in mode 2, into a buffer that is long enough.
fn written(label: &str, stamp: &[u8], data: &[u8]) -> u8 {
    let mut buffer = [0x55; 300];
    let writing = write(BUSINESS, label.as_bytes(), stamp, data, &mut buffer);
    if writing.is_err() {
        assert_eq!(buffer, [0x55; 300]);
    }
    number_of_call(&writing)
}

#[test]
fn m_100_worked_groups() {
    for (content, number, label, data) in GROUPS {
        let content = content.as_bytes();
        // 1.5.2: "on ne conserve que les six bits de poids faible", "on ajoute
        // l'octet de valeur 0x20".
        let (body, ending) = content.split_at(content.len() - 2);
        let sum: u32 = body.iter().map(|one| u32::from(*one)).sum();
        assert_eq!(ending, [0x20, (sum & 0x3F) as u8 + 0x20], "{content:?}");
        let shown = (number, label.into(), vec![], data.into());
        assert_eq!(judged_with_texts(BUSINESS, content), shown, "{content:?}");
        // The writer writes the same, or refuses it by the same number.
        let (label, data) = text(body).split_once(' ').expect("a separator");
        let mut buffer = [0x55; 60];
        let writing = write(
            BUSINESS,
            label.as_bytes(),
            b"",
            data.as_bytes(),
            &mut buffer,
        );
        if number == 1 {
            let wire = group_on_wire(content);
            assert_eq!(writing, Ok(wire.len()));
            assert_eq!(buffer[..wire.len()], wire);
        } else {
            assert_eq!(number_of_call(&writing), number, "{content:?}");
        }
    }
}

/// The frame of (W) that holds these groups, on the wire.
fn test_frame(groups: &[&str]) -> Vec<u8> {
    let groups = groups
        .iter()
        .map(|group| closed(BUSINESS, group.as_bytes()));
    let wire = groups.flat_map(|content| group_on_wire(&content));
    [0x82].into_iter().chain(wire).chain([0x03]).collect()
}

/// (W): the frames of "un calendrier n°1" with HPE, HCE, HPH, HCH and P, and "un
/// calendrier n°2" with HP, HC and P, each with XXX up to eight.
#[test]
fn m_100_frames_of_the_test_mode() {
    let first = ["HPE", "HCE", "HPH", "HCH", "P", "XXX", "XXX", "XXX"];
    let second = ["HP", "HC", "P", "XXX", "XXX", "XXX", "XXX", "XXX"];
    let mut capture = b"P".to_vec();
    let mut listed = String::new();
    for (label, names) in [("PTCOUR1", first), ("PTCOUR2", second)] {
        for (index, name) in names.into_iter().enumerate() {
            let period = format!("{label} {name}");
            let common = ["TRAME TEST", "ADS 000000000000", &period];
            let mut lines = format!("1 TRAME - TEST\n1 ADS - 000000000000\n1 {label} - {name}\n");
            capture.extend(test_frame(&common));
            listed.push_str(&format!("{lines}2\n"));
            if (label, index) == ("PTCOUR1", 0) {
                let [trame, ads, period] = common;
                capture.extend(test_frame(&[trame, ads, period, "PREAVIS DEP"]));
                lines.push_str("1 PREAVIS - DEP\n");
                listed.push_str(&format!("{lines}2\n"));
            }
        }
    }
    assert_eq!(listing(&capture), listed);
    // The first of them, byte by byte.
    let groups = b"\nTRAME TEST 9\r\nADS 000000000000 X\r\nPTCOUR1 HPE +\r";
    let frame = all_to_wire(&[b"\x02", &groups[..], b"\x03"].concat());
    assert_eq!(capture[1..=frame.len()], frame);
}

/// Document 003, 2.9.1: the separator is "espace", the sum that of "mode de
/// calcul n°1", which leaves the final separator out.
#[test]
fn m_100_separator_and_sum() {
    assert_eq!(judged(BUSINESS, b"TRAME TEST 9"), 1);
    // With the final SP the sum is 32 more.
    assert_eq!(judged(BUSINESS, b"TRAME TEST Y"), 10);
    for check in (0..=255).filter(|check| *check != b'9') {
        let content = [b"TRAME TEST ", &[check][..]].concat();
        assert_eq!(judged(BUSINESS, &content), 10, "{check}");
    }
    // HT is no separator here.
    assert_eq!(judged(BUSINESS, b"TRAME\tTEST\t\x22"), 9);
    assert_eq!(judged(BUSINESS, b"TRAME\tTEST 9"), 9);
    assert_eq!(judged(BUSINESS, b"TRAME TEST\t9"), 9);
    assert_eq!(judged(STANDARD, b"TRAME TEST 9"), 9);
    // A check character that is SP: 0x20 is a remainder of 0.
    let spaced = (0x20..0x7F).map(|one| [b"PTCOUR1 ", &[one][..]].concat());
    let spaced = spaced.filter(|body| check_character(body) == b' ');
    let spaced: Vec<Vec<u8>> = spaced.map(|body| [&body[..], b"  "].concat()).collect();
    assert!(!spaced.is_empty());
    for content in spaced {
        assert_eq!(judged(BUSINESS, &content), 1, "{content:?}");
    }
    // The mode's own groups in the other modes, and theirs in it.
    assert_eq!(judged(HISTORIC, b"TRAME TEST 9"), 11);
    assert_eq!(judged(BUSINESS, b"PAPP 00750 -"), 11);
    assert_eq!(judged(BUSINESS, b"URMS1\t230\t?"), 9);
}

/// 1.5.3.2: the label ends before the first separator, and the data before the
/// last, so that spaces between are data.
#[test]
fn m_100_spaces_are_data() {
    let date = closed(BUSINESS, b"DATE 25/12/08 22:35:18");
    assert_eq!(
        judged_with_texts(BUSINESS, &date),
        accepted("DATE", "", "25/12/08 22:35:18")
    );
    // "No row of mode 2 is stamped": DATE is so in mode 1 only.
    assert_eq!(judged_fields("DATE", b"25/12/08"), 13);
    assert_eq!(judged_fields("DATE", b"H081225223518 "), 13);
    assert_eq!(judged_fields("DATE", b""), 13);
    assert_eq!(judged_fields("DATE", b" 25/12/08 22:35:18"), 13);
    assert_eq!(judged_fields("DATE", b"25/12/08 22:35:18 "), 13);
    assert_eq!(judged_fields("DATE", b" 5/12/08 22:35:18"), 14);
    // At either end, and nothing else.
    for data in ["  HP", "HP  ", "    "] {
        assert_eq!(judged_fields("PTCOUR2", data.as_bytes()), 13);
        assert_eq!(judged_fields("PTCOUR2", &data.as_bytes()[1..]), 1);
    }
    let spaces = closed(BUSINESS, b"MESURES2           ");
    assert_eq!(
        judged_with_texts(BUSINESS, &spaces),
        accepted("MESURES2", "", "          ")
    );
    assert_eq!(judged_fields("PREAVIS", b"DEP "), 1);
    assert_eq!(judged_fields("PREAVIS", b" DEP"), 14);
    assert_eq!(judged_fields("PREAVIS", b"DEP  "), 13);
    assert_eq!(judged_fields("EA_s", b" 12Wh"), 14);
    assert_eq!(judged_fields("EA_s", b"12Wh "), 14);
}

/// Tableau 10: 75 labels once X is written out, of which 14 come only from
/// meters of "palier 2013".
#[test]
fn m_100_labels() {
    let rows = business::rows();
    assert_eq!(rows.len(), 75);
    let later: Vec<&str> = rows
        .iter()
        .filter(|row| row.meters == "2013")
        .map(|row| row.label.as_str())
        .collect();
    let expected = "TRAME ADS ETATDYN1 PREAVIS1 TDYN1CD TDYN1CF TDYN1FD TDYN1FF \
                    ETATDYN2 PREAVIS2 TDYN2CD TDYN2CF TDYN2FD TDYN2FF";
    assert_eq!(later.join(" "), expected);
    let of_all = rows.iter().filter(|row| row.meters == "Tous");
    assert_eq!(of_all.count(), 61);
    // "_i" is sent by producers only.
    let injected = rows.iter().filter(|row| row.label.ends_with("_i"));
    assert_eq!(injected.count(), 18);
    let listed: BTreeSet<&str> = all_rules(Mode::Business)
        .iter()
        .map(|rule| rule.label.as_str())
        .collect();
    let expected: BTreeSet<&str> = labels_and_lengths().map(|(label, ..)| label).collect();
    assert_eq!(listed, expected);
    assert_eq!(listed.len(), 75);
    for label in &listed {
        // 1.5.2: "inférieure ou égale à huit caractères", of 0x20 to 0x7E and
        // without the separator.
        assert!((1..=8).contains(&label.len()), "{label}");
        assert!(label.bytes().all(|one| (0x21..=0x7E).contains(&one)));
    }
    // (C) says in which order the dates and powers come.
    let labels: Vec<&str> = rows.iter().map(|row| row.label.as_str()).collect();
    let from = labels.iter().position(|label| *label == "DATEPA1");
    let from = from.expect("in the table");
    assert_eq!(labels[from - 1], "CONFIG");
    assert_eq!(
        labels[from..from + 4],
        ["DATEPA1", "PA1_s", "PA1_i", "DATEPA2"]
    );
    assert_eq!(labels[from + 17..from + 19], ["PA6_i", "DebP"]);
}

#[test]
fn m_100_labels_that_are_not_in_the_table() {
    let near = "EaP_s EaP_i EAP-1_s EAP-1_i EAP_s2 EAP-1_s2 EAP_i2 EaP-1_i2 eap_s \
                DATEPA0 DATEPA7 DATEPAX PA0_s PA7_s PAX_s PA1 PA1_S PA1-s PA1MN_s PA2MN PAXMN \
                Deb DebP- debP DEBP D{bP DebP_1 DebP-2 DebP-1_1 FinP FinP_2 FinP-1_ \
                ER_s ER+P ERP+_s ER+P_s2 ER*_s PS_s PMAX PMAX_ PM1_s TGPHI TGPHI_S \
                MESURES MESURES3 PTCOUR PTCOUR3 ETATDYN ETATDYN3 PREAVIS3 TARIFDYN1 \
                TDYN1 TDYN1CC TDYN3CD TDYN1cd TRAMES Trame ADSC ADCO MODES CONFIG1 URMS1 PAPP";
    for label in near.split_ascii_whitespace() {
        assert_eq!(judged_fields(label, b"25/12/08 22:35:18"), 11, "{label}");
        assert_eq!(written(label, b"x", b"25/12/08 22:35:18"), 11, "{label}");
    }
    // é has no code of seven bits; in a lent content it is of no label.
    for label in [&b"D\xE9bP"[..], &b"D\xC3\xA9bP"[..]] {
        let body = [label, b" 01/01/10 00:00:00"].concat();
        assert_eq!(judged(BUSINESS, &closed(BUSINESS, &body)), 11);
    }
}

/// "13 is a length outside these": from empty data up to a content of 128.
#[test]
fn m_100_lengths() {
    for (label, least, most) in labels_and_lengths() {
        let rule = rule_of(label);
        assert_eq!((rule.shortest, rule.longest), (least, most), "{label}");
        for length in 0..=125 - label.len() {
            for filling in *b"0 A\x7F\xFF" {
                let data = vec![filling; length];
                let outside = length < least || length > most;
                let number = judged_fields(label, &data);
                assert_eq!(number == 13, outside, "{label} {length}");
                assert!([1, 13, 14].contains(&number));
                assert_eq!(written(label, b"", &data), as_written(number));
            }
        }
    }
}

/// What the writer gives where the reader gives this: 0 for 1.
fn as_written(number: u8) -> u8 {
    match number {
        1 => 0,
        refused => refused,
    }
}

/// The sub-chapters of 2.9.3 once more, each taken apart by hand from its end.
/// It is here only to hold the formats against it.
pub(super) fn fits_by_hand(label: &str, data: &str) -> bool {
    let is_text = |text: &str| text.bytes().all(|one| (b' '..=b'~').contains(&one));
    let number = |text: &str, most: usize| {
        (1..=most).contains(&text.len()) && text.bytes().all(|one| one.is_ascii_digit())
    };
    let with_unit = |most: usize, units: &[&str]| {
        let values = units.iter().filter_map(|unit| data.strip_suffix(unit));
        values.into_iter().any(|value| number(value, most))
    };
    let is_date = |text: &str| {
        let signs: String = text.chars().filter(|one| !one.is_ascii_digit()).collect();
        let pairs = text.split(['/', ' ', ':']);
        signs == "// ::"
            && pairs
                .into_iter()
                .all(|pair| number(pair, 2) && pair.len() == 2)
    };
    let family: String = label.chars().filter(|one| !one.is_ascii_digit()).collect();
    match family.as_str() {
        "TRAME" => data == "TEST",
        "ADS" => is_text(data) && data.len() == 12,
        "MESURES" => is_text(data) && data.len() == 10,
        "DATE" | "DATEPA" | "DebP" | "DebP-" | "FinP-" | "DebP_" | "DebP-_" | "FinP-_" => {
            is_date(data)
        }
        "EA_s" | "EA_i" => with_unit(7, &["Wh"]),
        "ER+_s" | "ER-_s" | "ER+_i" | "ER-_i" => with_unit(7, &["varh"]),
        "EAPP_s" | "EAPP_i" => with_unit(7, &["VAh"]),
        "PTCOUR" => is_text(data) && (1..=3).contains(&data.len()),
        "TARIFDYN" => ["ACTIF", "INACTIF"].contains(&data),
        "ETATDYN" => is_text(data) && data.len() == 3,
        // PREAVIS has no number, PREAVIS1 and PREAVIS2 have theirs.
        "PREAVIS" if label == "PREAVIS" => ["DEP", "DEP "].contains(&data),
        "PREAVIS" => is_text(data) && data.len() == 6 && data.starts_with("TD-"),
        "TDYNCD" | "TDYNCF" | "TDYNFD" | "TDYNFF" => {
            let (begin, name) = data.split_at_checked(17).unwrap_or(("", ""));
            is_date(begin) && is_text(name) && name.len() == 4 && name.starts_with('-')
        }
        "MODE" => data == "CONTROLE",
        "CONFIG" => ["CONSO", "PROD"].contains(&data),
        "PA_s" | "PA_i" => with_unit(5, &["kW", "TkW"]),
        "EAP_s" | "EAP_i" | "EaP-_s" | "EaP-_i" | "EaP_s" => with_unit(7, &["kWh"]),
        "ER+P_s" | "ER-P_s" | "ER+P_i" | "ER-P_i" | "ER+P-_s" | "ER-P-_s" | "ER+P-_i"
        | "ER-P-_i" => with_unit(7, &["kvarh"]),
        "PS" | "PMAX_s" | "PMAX_i" => with_unit(5, &["kW", "kVA"]),
        "PAMN" => with_unit(5, &["kW"]),
        "TGPHI_s" | "TGPHI_i" => {
            let (whole, part) = data.split_once([',', '.']).unwrap_or(("", ""));
            let right = match whole.strip_prefix('-') {
                Some(below_zero) => number(below_zero, 4),
                None => number(whole, 5),
            };
            right && number(part, 2) && part.len() == 2
        }
        other => panic!("no label is of the family {other}"),
    }
}

/// The answer to data, by hand.
fn answer_by_hand(label: &str, least: usize, most: usize, data: &[u8]) -> u8 {
    let characters: String = data.iter().map(|one| char::from(*one)).collect();
    if !(least..=most).contains(&data.len()) {
        13
    } else if data.is_ascii() && fits_by_hand(label, &characters) {
        1
    } else {
        14
    }
}

/// Each label with right data of every alternative, in which each character
/// becomes any other, is left out, or is followed by any other.
#[test]
fn m_100_every_place_of_every_alternative() {
    let mut generator = Generator::new(Dice::new(100));
    for (label, least, most) in labels_and_lengths() {
        let agree = |data: &[u8]| {
            let expected = answer_by_hand(label, least, most, data);
            assert_eq!(judged_fields(label, data), expected, "{label} {data:?}");
            expected
        };
        for fields in &rule_of(label).alternatives {
            for _ in 0..3 {
                let data = generator.data_of_fields(fields);
                assert_eq!(agree(&data), 1, "{label} {data:?}");
                for place in 0..data.len() {
                    let (before, after) = (&data[..place], &data[place + 1..]);
                    agree(&[before, after].concat());
                    for other in 0..=255 {
                        agree(&[before, &[other], after].concat());
                        agree(&[before, &[data[place], other], after].concat());
                    }
                }
            }
        }
    }
}

/// What the generator makes of wrong fields is answered as by hand too, by
/// reader and writer; and the reader never answers 12, the writer does so for
/// any stamp.
#[test]
fn m_100_made_up_groups() {
    let mut generator = Generator::new(Dice::new(200));
    let lengths: Vec<(&str, usize, usize)> = labels_and_lengths().collect();
    let mut numbers = BTreeSet::new();
    for _ in 0..20_000 {
        let draft = generator.spoilt_draft(
            Mode::Business,
            &[Spoiling::Stamp, Spoiling::Width, Spoiling::Kind],
        );
        let number = judged(BUSINESS, &draft.content());
        assert!([1, 9, 13, 14].contains(&number) || draft.content().len() > 128);
        let label = draft.rule.label.as_str();
        let (_, least, most) = *lengths.iter().find(|row| row.0 == label).expect(label);
        let by_hand = as_written(answer_by_hand(label, least, most, &draft.data));
        let expected = if draft.stamp.is_empty() { by_hand } else { 12 };
        assert_eq!(
            written(label, &draft.stamp, &draft.data),
            expected,
            "{draft:?}"
        );
        numbers.insert(expected);
    }
    assert_eq!(numbers, BTreeSet::from([0, 12, 13, 14]));
}

/// "14 any other data that don't fit the fields": also of a length between the
/// smallest and the largest that no alternative has.
#[test]
fn m_100_lengths_between_the_alternatives() {
    for data in ["ACTIF ", " ACTIF", "NACTIF", "INACTI", "ACTIFS", "123456"] {
        assert_eq!(judged_fields("TARIFDYN", data.as_bytes()), 14, "{data}");
        assert_eq!(written("TARIFDYN", b"", data.as_bytes()), 14, "{data}");
    }
    assert_eq!(judged_fields("TARIFDYN", b"ACTI"), 13);
    assert_eq!(judged_fields("TARIFDYN", b"INACTIF "), 13);
    let with_gap: Vec<&str> = all_rules(Mode::Business)
        .iter()
        .filter(|rule| rule.has_gap())
        .map(|rule| rule.label.as_str())
        .collect();
    assert_eq!(with_gap, ["TARIFDYN"]);
    // Six digits: a length that PA1_s and PS have with another ending, and
    // PA1MN has not.
    for label in ["PA1_s", "PA6_i", "PS", "PMAX_s", "PMAX_i"] {
        assert_eq!(judged_fields(label, b"123456kW"), 14, "{label}");
        assert_eq!(judged_fields(label, b"1234567kW"), 13, "{label}");
    }
    assert_eq!(judged_fields("PA1MN", b"123456kW"), 13);
    assert_eq!(judged_fields("PA1MN", b"12345kW"), 1);
    assert_eq!(judged_fields("PA1_s", b"12345TkW"), 1);
    assert_eq!(judged_fields("PA1_s", b"12345kVA"), 14);
    assert_eq!(judged_fields("PS", b"12345TkW"), 14);
    // A field as long as it may be, and the other one too.
    assert_eq!(judged_fields("TGPHI_s", b"-12345,6"), 14);
    assert_eq!(judged_fields("TGPHI_s", b"12345,67"), 1);
    assert_eq!(judged_fields("TGPHI_s", b"123456,7"), 14);
    assert_eq!(judged_fields("TGPHI_s", b"1234567"), 14);
}

/// "Refusals: 19 now means a mode not 0 to 2, and 20 a capture not begun by H, S
/// or P."
#[test]
fn m_100_modes_and_first_letters() {
    for mode in 0..=255 {
        let known = mode <= 2;
        assert_eq!(judged(mode, b"") == 19, !known, "{mode}");
        let mut station = Station::new();
        let opening = station.open(0, mode);
        assert_eq!(opening == Err(Refusal::UnknownMode), !known, "{mode}");
        assert_eq!(station.inbox_length(0).is_some(), known, "{mode}");
        let writing = write(mode, b"", b"", b"", &mut []);
        let refusal = [Refusal::UnknownLabel, Refusal::UnknownMode][usize::from(!known)];
        assert_eq!(writing, Err(refusal), "{mode}");
    }
    for first in 0..=255 {
        let answers = if b"HSP".contains(&first) {
            "2\n"
        } else {
            "20\n"
        };
        assert_eq!(listing(&[first, 0x82, 0x03]), answers, "{first}");
    }
    // The letter makes the mode.
    let group = group_on_wire(b"TRAME TEST 9");
    let answers = [("P", "1 TRAME - TEST\n"), ("H", "11\n"), ("S", "9\n")];
    for (letter, listed) in answers {
        let capture = [letter.as_bytes(), &[0x82], &group].concat();
        assert_eq!(listing(&capture), listed);
    }
    assert_eq!(listing(b"P"), "");
}

/// "Writer: 19, 11, 12, 13, 14, 15", where 12 is any stamp.
#[test]
fn m_100_order_of_refusals_when_writing() {
    let number = |mode: u8, label: &str, stamp: &str, data: &str, size: usize| {
        let mut buffer = vec![0x55; size];
        let fields = [label, stamp, data].map(str::as_bytes);
        let writing = write(mode, fields[0], fields[1], fields[2], &mut buffer);
        assert!(writing.is_ok() || buffer.iter().all(|one| *one == 0x55));
        number_of_call(&writing)
    };
    let stamp = "H081225223518";
    assert_eq!(number(3, "NOLABEL", stamp, "", 0), 19);
    assert_eq!(number(2, "NOLABEL", stamp, "", 0), 11);
    assert_eq!(number(2, "PAPP", "", "00750", 100), 11);
    assert_eq!(number(2, "URMS1", "", "230", 100), 11);
    for stamp in [stamp, "h081225223518", " 081225223518", " ", "x"] {
        assert_eq!(number(2, "DATE", stamp, "", 0), 12, "{stamp}");
        assert_eq!(number(2, "PS", stamp, "36kVA", 100), 12, "{stamp}");
    }
    assert_eq!(number(2, "TARIFDYN", "", "ACTI", 0), 13);
    assert_eq!(number(2, "TARIFDYN", "", "NACTIF", 0), 14);
    assert_eq!(number(2, "TARIFDYN", "", "ACTIF", 0), 15);
    assert_eq!(number(2, "TARIFDYN", "", "ACTIF", 17), 15);
    assert_eq!(number(2, "TARIFDYN", "", "ACTIF", 18), 0);
}

#[test]
fn m_100_order_of_refusals_when_judging() {
    assert_eq!(judged(BUSINESS, &[b'A'; 129]), 8);
    assert_eq!(judged(BUSINESS, b"NOLABEL x\x01"), 9);
    assert_eq!(judged(BUSINESS, b"NOLABEL x \x01"), 10);
    assert_eq!(judged(BUSINESS, b"PS x \x01"), 10);
    assert_eq!(judged_fields("NOLABEL", b"x"), 11);
    assert_eq!(judged_fields("PS", b"x"), 13);
    assert_eq!(judged_fields("PS", b"xkW"), 14);
    assert_eq!(judged_fields("PS", b"6kW"), 1);
    // A byte of 128 or more is of no kind, and in no text.
    assert_eq!(judged_fields("PS", b"6k\xD7"), 14);
    assert_eq!(judged_fields("PTCOUR1", b"H\xD0E"), 14);
    assert_eq!(judged_fields("DATE", b"25/12/08\xA022:35:18"), 14);
}

/// A line of mode 2 in the station, and the same in the log of a box.
#[test]
fn m_100_a_line_of_the_station() {
    let frame = test_frame(&["PS 36kVA", "PA1_s 123456kW", "DATE 25/12/08 22:35:18"]);
    let mut station = open_station(5, BUSINESS);
    assert_eq!(station.deliver(5, &frame), Ok(()));
    let entries: [&[u8]; 4] = [
        b"\x01\x02\x00\x05\x01\x00PS36kVA",
        b"\x0E\x00\x00\x0B\x01\x00",
        b"\x01\x04\x00\x11\x01\x00DATE25/12/08 22:35:18",
        b"\x03\x00\x00\x00\x01\x00",
    ];
    for entry in entries {
        let mut sheet = [0xEE; 1096];
        assert!(station.round(&mut sheet).is_ok());
        assert_eq!(sheet[24..24 + entry.len()], *entry);
        assert_eq!(sheet[24 + entry.len()], 0xEE);
    }
    let calls = [
        Call::Open { line: 5, mode: 2 },
        Call::Open { line: 5, mode: 3 },
        Call::Judge {
            mode: 2,
            content: b"PS 36kVA N".to_vec(),
        },
        Call::Write {
            mode: 2,
            label: b"PS".to_vec(),
            stamp: vec![],
            data: b"6kW".to_vec(),
            size: 10,
            fill: 0xFF,
        },
    ];
    let log: Vec<u8> = calls.iter().flat_map(Call::to_record).collect();
    // P, S, k and the check character have an even count of ones as they are;
    // SP, W and CR have not. 0x50 + 0x53 + 0x20 + 0x36 + 0x6B + 0x57 leaves 59,
    // and with 0x20 that is the bracket 0x5B, with the parity bit 0xDB.
    assert_eq!(
        replay(&log),
        "O 0\nO 19\nJ 1 5053 - 33366b5641 0\nW 0 10 0a5053a036ebd7a0db8d\n"
    );
}

/// The formats themselves: all ways are gone over, and lengths and alternatives
/// are those of the data that fit.
#[test]
fn m_100_formats() {
    let digits = |least, most| run(Kind::Decimal, least, most);
    let two_runs = Format::Sequence(vec![digits(1, 3), digits(2, 2), exactly("1")]);
    for (data, fits) in [
        ("", false),
        ("111", false),
        ("1111", true),
        ("111111", true),
        ("1111111", false),
        ("111112", false),
    ] {
        assert_eq!(two_runs.fits(data.as_bytes()), fits, "{data}");
    }
    let choice = Format::Sequence(vec![
        one_text_of(&["a", "ab"]),
        one_text_of(&["", "b", "bc"]),
    ]);
    for data in ["a", "ab", "abb", "abc", "abbc"] {
        assert!(choice.fits(data.as_bytes()), "{data}");
    }
    for data in ["", "b", "ac", "abbb", "abcc"] {
        assert!(!choice.fits(data.as_bytes()), "{data}");
    }
    assert_eq!(choice.lengths(), BTreeSet::from([1, 2, 3, 4]));
    assert_eq!(choice.alternatives().len(), 6);
    let alternatives = |label: &str| rule_of(label).alternatives.len();
    let several = [
        ("TARIFDYN", 2),
        ("CONFIG", 2),
        ("PA3_i", 2),
        ("PS", 2),
        ("PMAX_s", 2),
        ("PREAVIS", 2),
        ("TGPHI_i", 4),
    ];
    for (label, count) in several {
        assert_eq!(alternatives(label), count, "{label}");
    }
    let all: usize = all_rules(Mode::Business)
        .iter()
        .map(|rule| rule.alternatives.len())
        .sum();
    // Two each: TARIFDYN, CONFIG, PREAVIS, PS, two PMAX and twelve PA; four for
    // each TGPHI.
    assert_eq!(all, 75 + 18 + 2 * 3);
}

/// Near misses that are made up.
#[test]
fn m_100_near_misses() {
    let mut generator = Generator::new(Dice::new(300));
    let mut drafts = |spoiling: Spoiling| -> Vec<Draft> {
        (0..60_000)
            .map(|_| {
                let rules: Vec<&'static Rule> = all_rules(Mode::Business).iter().collect();
                let mut draft = generator.right_draft_of(Mode::Business, &rules);
                generator.spoil(&mut draft, spoiling);
                draft
            })
            .collect()
    };
    let of_data = drafts(Spoiling::Kind);
    let made = |family: &str, wanted: fn(&str) -> bool| {
        let of_family = of_data
            .iter()
            .filter(|draft| draft.rule.label.starts_with(family));
        let texts = of_family.filter_map(|draft| std::str::from_utf8(&draft.data).ok());
        assert!(texts.into_iter().any(wanted), "{family}");
    };
    made("TARIFDYN", |data| data.len() == 6);
    made("PA", |data| {
        data.len() == 8 && data.ends_with("kW") && !data.contains('T')
    });
    made("PA", |data| data.ends_with("TTkW"));
    made("PA", |data| data.ends_with("kVA"));
    made("PS", |data| data.ends_with("TkW"));
    made("EAPP", |data| data.ends_with("Wh"));
    made("EAP_", |data| data.len() == 11 && data.ends_with("kWh"));
    made("PA1_", |data| data.ends_with(" kW"));
    made("DATE", |data| data.matches('/').count() == 4);
    made("DATE", |data| data.len() == 17 && !data.contains(' '));
    made("TGPHI", |data| {
        data.starts_with("-,") || data.starts_with(',')
    });
    made("TGPHI", |data| data.starts_with('+'));
    made("TGPHI", |data| data.contains(';'));
    made("TDYN", |data| {
        data.len() == 21 && data.as_bytes()[17] == b' '
    });
    made("PREAVIS1", |data| data.starts_with("td-"));
    made("PREAVIS", |data| {
        data == "DEP\t" || data == "DEP0" || data == " DEP"
    });
    made("CONFIG", |data| data == "conso" || data == "prod");
    let of_labels = drafts(Spoiling::Label);
    for (right, near) in [
        ("EAP_s", &b"EaP_s"[..]),
        ("EaP_s2", b"EAP_s2"),
        ("DATEPA6", b"DATEPA7"),
        ("PA1_s", b"PA0_s"),
        ("PA1_s", b"PAX_s"),
        ("PA1_s", b"PA1-s"),
        ("DebP", b"D{bP"),
        ("DebP", b"D\xE9bP"),
        ("TRAME", b"trame"),
        ("ER+_s", b"ER-_s"),
    ] {
        let drawn = of_labels
            .iter()
            .any(|draft| draft.rule.label == right && draft.label == near);
        assert!(drawn, "{right} {near:?}");
    }
}

/// What the gate compares, made without running a program: every label of the
/// business meter a few times at each place, every alternative, every length in
/// the listing, 13 just beyond both ends, and 14.
#[test]
fn m_100_the_business_meter_in_the_captures_and_histories_of_the_gate() {
    let tally = made_for_the_gate();
    let report = tally.report(2000, 200);
    for (place, name) in GROUP_PLACES {
        for rule in all_rules(Mode::Business) {
            let label = rule.label.as_str();
            let times = tally.times_accepted(place, Mode::Business, label);
            assert!(times >= 3, "{name} {label}: {times}");
            for index in 0..rule.alternatives.len() {
                let times = tally.times_of_alternative(place, label, index);
                assert!(times > 0, "{name} {label}, alternative {index}");
            }
        }
        assert!(
            report.contains(&format!("  {name}: 71, 34 and 75; ")),
            "{report}"
        );
        assert!(
            report.contains(&format!("  {name}: 99, the rarest ")),
            "{report}"
        );
        // A length that no alternative has; a sheet shows it as any other 14.
        let six = tally.times_of_business(place, "TARIFDYN", 14, |length| length == 6);
        assert!(six > 0 || place == Place::Sheet, "{name}");
        for number in [13, 14] {
            let refused = all_rules(Mode::Business)
                .iter()
                .map(|rule| tally.times_of_business(place, &rule.label, number, |_| true));
            assert!(refused.sum::<u64>() >= 40, "{name} {number}");
        }
    }
    for (label, least, most) in labels_and_lengths() {
        let met_at = |place: Place, number: u8, wanted: usize| {
            tally.times_of_business(place, label, number, |length| length == wanted)
        };
        for length in [least, most] {
            let listed = met_at(Place::Listing, 1, length);
            assert!(listed > 0, "{label} {length}");
        }
        let between = (least + 1..most).map(|length| met_at(Place::Listing, 1, length));
        assert!(most < least + 2 || label == "TARIFDYN" || between.sum::<u64>() > 0);
        let fields = (least..=most).map(|length| met_at(Place::Listing, 14, length));
        assert!(fields.sum::<u64>() > 0, "{label}");
        for length in [least - 1, most + 1] {
            let met = GROUP_PLACES.map(|(place, _)| met_at(place, 13, length));
            assert!(met.iter().sum::<u64>() > 0, "{label} {length}: {met:?}");
        }
    }
    // Every length that labels of one format can have.
    for (labels, ..) in LENGTHS {
        let labels: Vec<&'static str> = labels.split_ascii_whitespace().collect();
        for wanted in rule_of(labels[0]).format.lengths() {
            let listed = labels.iter().map(|label| {
                tally.times_of_business(Place::Listing, label, 1, |length| length == wanted)
            });
            assert!(listed.sum::<u64>() > 0, "{labels:?} {wanted}");
        }
    }
    // A stamp handed to the writer, and to no reader.
    let stamps = |place: Place| -> u64 {
        let rules = all_rules(Mode::Business).iter();
        rules
            .map(|rule| tally.times_of_business(place, &rule.label, 12, |_| true))
            .sum()
    };
    assert!(stamps(Place::Writing) >= 40);
    for place in [Place::Listing, Place::Sheet, Place::Judging] {
        assert_eq!(stamps(place), 0);
    }
}
