//! "One group": judging and writing one that is given alone.

use crate::wire::{content, frame, group, listing, ETX, STX};
use espandim::{
    judge, judge_raw, write, write_raw, Answer, Fault, Group, Mode, Notice, Refusal, Station,
    MOST_WRITTEN,
};

use Mode::{Business, Historic, Standard};

/// A group's fields.
fn fields<'a>(label: &'a [u8], stamp: &'a [u8], data: &'a [u8]) -> Group<'a> {
    Group { label, stamp, data }
}

/// What judging tells of a group that is refused with no place in its content.
fn nowhere<'a>(refusal: Refusal) -> Result<Group<'a>, Fault> {
    let place = None;
    Err(Fault { refusal, place })
}

/// What it tells of one whose stamp (12) or data (14) went wrong at this place.
pub fn wrong_at<'a>(place: usize, refusal: Refusal) -> Result<Group<'a>, Fault> {
    let place = Some(place);
    Err(Fault { refusal, place })
}

/// "Figures to hold it against".
#[test]
fn the_figures_p1_to_p9() {
    let stamp = b"H081225223518";
    let urms1 = fields(b"URMS1", b"", b"230");
    let papp = fields(b"PAPP", b"", b"00750");
    let smaxsn = fields(b"SMAXSN", stamp, b"01200");
    // P1 and P2
    assert_eq!(judge(Standard, b"URMS1\t230\t?"), Ok(urms1));
    assert_eq!(
        judge(Standard, b"URMS1\t230\t6"),
        nowhere(Refusal::CheckWrong)
    );
    // P3 and P4
    assert_eq!(judge(Historic, b"PAPP 00750 -"), Ok(papp));
    assert_eq!(
        judge(Historic, b"PAPP 00750 M"),
        nowhere(Refusal::CheckWrong)
    );
    // P5: the check character is SP.
    let iinst = fields(b"IINST", b"", b"009");
    assert_eq!(judge(Historic, b"IINST 009  "), Ok(iinst));
    // P6
    let iinst = fields(b"IINST", b"", b"002");
    assert_eq!(judge(Historic, b"IINST 002 Y"), Ok(iinst));
    // P7
    let content = b"SMAXSN\tH081225223518\t01200\t7";
    assert_eq!(judge(Standard, content), Ok(smaxsn));
    // P8: empty data.
    let content = b"DATE\tH081225223518\t\tH";
    assert_eq!(judge(Standard, content), Ok(fields(b"DATE", stamp, b"")));
    // P9
    assert_eq!(judge(Historic, b""), nowhere(Refusal::Misshapen));
    assert_eq!(judge(Standard, b""), nowhere(Refusal::Misshapen));
    assert_eq!(judge(Business, b""), nowhere(Refusal::Misshapen));
    assert_eq!(Refusal::CheckWrong.number(), 10);
    assert_eq!(Refusal::Misshapen.number(), 9);
}

#[test]
fn the_fields_are_parts_of_the_callers_own_bytes() {
    let content = *b"SMAXSN\tH081225223518\t01200\t7";
    let group = judge(Standard, &content).unwrap();
    assert_eq!(group.label.as_ptr_range(), content[..6].as_ptr_range());
    assert_eq!(group.stamp.as_ptr_range(), content[7..20].as_ptr_range());
    assert_eq!(group.data.as_ptr_range(), content[21..26].as_ptr_range());
}

#[test]
fn judging_refuses_with_19_before_8_before_the_rest() {
    let long = [b'A'; 129];
    for mode in [3, 4, 255, 256, 257, 258, u32::MAX] {
        for content in [&long[..], b"", b"URMS1\t230\t?", b"PREAVIS DEP 3"] {
            assert_eq!(judge_raw(mode, content), nowhere(Refusal::ModeUnknown));
        }
    }
    assert_eq!(Refusal::ModeUnknown.number(), 19);
    for mode in 0..3 {
        assert_eq!(judge_raw(mode, &long), nowhere(Refusal::TooLong));
        assert_eq!(judge_raw(mode, &long[..128]), nowhere(Refusal::Misshapen));
    }
    assert_eq!(
        judge_raw(1, b"URMS1\t230\t?"),
        Ok(fields(b"URMS1", b"", b"230"))
    );
    assert_eq!(
        judge_raw(0, b"IINST 002 Y"),
        Ok(fields(b"IINST", b"", b"002"))
    );
    assert_eq!(
        judge_raw(2, b"PREAVIS DEP 3"),
        Ok(fields(b"PREAVIS", b"", b"DEP"))
    );
}

#[test]
fn judging_refuses_stamps_widths_and_kinds() {
    let stamped = |stamp: &[u8]| content(Standard, b"UMOY1", stamp, b"230");
    // P10 and P11: February has 29 days when YY divides by 4.
    assert!(judge(Standard, &stamped(b"H080229000000")).is_ok());
    assert_eq!(
        judge(Standard, &stamped(b"H090229000000")),
        wrong_at(6, Refusal::StampWrong)
    );
    assert_eq!(
        judge(Standard, &stamped(b"")),
        wrong_at(6, Refusal::StampWrong)
    );
    let plain = |data: &[u8]| content(Standard, b"URMS1", b"", data);
    assert_eq!(judge(Standard, &plain(b"2X")), nowhere(Refusal::WidthWrong));
    assert_eq!(
        judge(Standard, &plain(b"2X0")),
        wrong_at(7, Refusal::KindWrong)
    );
    // "extra text is 13 or 14" where the label has no stamp.
    let extra = content(Standard, b"URMS1", b"H081225223518", b"230");
    assert_eq!(judge(Standard, &extra), nowhere(Refusal::WidthWrong));
    // A label of the other mode, and a byte of 128 or more in the place of the final separator.
    let other = content(Historic, b"URMS1", b"", b"230");
    assert_eq!(judge(Historic, &other), nowhere(Refusal::LabelUnknown));
    assert_eq!(
        judge(Historic, b"PAPP 00750\xA0-"),
        nowhere(Refusal::Misshapen)
    );
}

/// Document 01's two lists: kind and width, "marked * is stamped", and the labels.
pub const STANDARD: [&str; 21] = [
    "T12 ADSC",
    "T2 VTIC",
    "T0* DATE",
    "T16 NGTF LTARF",
    "N9 EAST EAIT EASF01 EASF02 EASF03 EASF04 EASF05 EASF06 EASF07 EASF08 EASF09 EASF10",
    "N9 EASD01 EASD02 EASD03 EASD04 ERQ1 ERQ2 ERQ3 ERQ4",
    "N3 IRMS1 IRMS2 IRMS3 URMS1 URMS2 URMS3",
    "N2 PREF PCOUP",
    "N5 SINSTS SINSTS1 SINSTS2 SINSTS3 SINSTI",
    "N5* SMAXSN SMAXSN1 SMAXSN2 SMAXSN3 SMAXSN-1 SMAXSN1-1 SMAXSN2-1 SMAXSN3-1",
    "N5* SMAXIN SMAXIN-1",
    "N5* CCASN CCASN-1 CCAIN CCAIN-1",
    "N3* UMOY1 UMOY2 UMOY3",
    "X8 STGE",
    "N2* DPM1 DPM2 DPM3 FPM1 FPM2 FPM3",
    "T32 MSG1",
    "T16 MSG2",
    "T14 PRM",
    "N3 RELAIS",
    "N2 NTARF NJOURF NJOURF+1",
    "T98 PJOURF+1 PPOINTE",
];
pub const HISTORIC: [&str; 9] = [
    "T12 ADCO",
    "T4 OPTARIF PTEC DEMAIN",
    "N2 ISOUSC PEJP",
    "N9 BASE HCHC HCHP EJPHN EJPHPM BBRHCJB BBRHPJB BBRHCJW BBRHPJW BBRHCJR BBRHPJR",
    "N3 IINST IINST1 IINST2 IINST3 ADPS ADIR1 ADIR2 ADIR3 IMAX IMAX1 IMAX2 IMAX3",
    "N5 PAPP PMAX",
    "T1 HHPHC",
    "T6 MOTDETAT",
    "T2 PPOT",
];

/// Document 003, 2.9: the labels of Tableau 10, and right data of each, the first as short and the last as long as any.
/// Where the table and 2.9.3 leave a choice (a text or another, `kW` or `kVA`, a comma or a point), there is one of each.
pub const BUSINESS: [(&str, &[&str]); 21] = [
    ("TRAME", &["TEST"]),
    ("ADS", &["021377004518", "ABCDEF ~!@|z"]),
    (
        "MESURES1 MESURES2",
        &["TJ MU     ", "BT 5 SUP36", "HTA 8     ", "          "],
    ),
    // No calendar: "dates in it are data".
    (
        "DATE DATEPA1 DATEPA2 DATEPA3 DATEPA4 DATEPA5 DATEPA6 DebP DebP-1 FinP-1 DebP_2 DebP-1_2 FinP-1_2",
        &["25/12/08 22:35:18", "00/00/00 00:00:00", "99/99/99 99:99:99"],
    ),
    ("EA_s EA_i", &["0Wh", "15282Wh", "9999999Wh"]),
    ("ER+_s ER-_s ER+_i ER-_i", &["0varh", "9999999varh"]),
    ("EAPP_s EAPP_i", &["5VAh", "9999999VAh"]),
    (
        "PTCOUR1 PTCOUR2",
        &["P", " ", "P ", "PM", "HPH", "XXX", "   ", " P ", "P  "],
    ),
    ("TARIFDYN", &["ACTIF", "INACTIF"]),
    ("ETATDYN1 ETATDYN2", &["000", "HPE", "P  "]),
    (
        "PREAVIS1 PREAVIS2",
        &["TD-HPH", "TD-PM ", "TD- ? ", "TD-?  ", "TD-   "],
    ),
    (
        "TDYN1CD TDYN1CF TDYN1FD TDYN1FF TDYN2CD TDYN2CF TDYN2FD TDYN2FF",
        &["25/12/08 06:00:00-HPH", "25/12/08 06:00:00-P  "],
    ),
    ("MODE", &["CONTROLE"]),
    ("CONFIG", &["PROD", "CONSO"]),
    (
        "PA1_s PA2_s PA3_s PA4_s PA5_s PA6_s PA1_i PA2_i PA3_i PA4_i PA5_i PA6_i",
        &["0kW", "0TkW", "012kW", "32767kW", "99999kW", "32767TkW"],
    ),
    (
        "EAP_s EAP_i EaP-1_s EaP-1_i EaP_s2 EaP-1_s2",
        &["0kWh", "48211kWh", "9999999kWh"],
    ),
    (
        "ER+P_s ER-P_s ER+P_i ER-P_i ER+P-1_s ER-P-1_s ER+P-1_i ER-P-1_i",
        &["0kvarh", "9999999kvarh"],
    ),
    (
        "PS PMAX_s PMAX_i",
        &["0kW", "0kVA", "36kVA", "250kW", "99999kW", "32767kVA"],
    ),
    ("PREAVIS", &["DEP", "DEP "]),
    ("PA1MN", &["0kW", "12kW", "32767kW"]),
    (
        "TGPHI_s TGPHI_i",
        &[
            "0,25", "0.25", "-0,25", "-0.25", "12,34", "-12.34", "123.45", "-123,45", "1234,56",
            "-9999,99", "99999.99", "99999,99",
        ],
    ),
];

/// Data of a length that their labels have, and which fit none of their forms: 14. A wrong unit or text, a sign or a space
/// where none stands, and, for TARIFDYN, a length between those of its two texts. With each goes the index of the data
/// character that is wrong, by M-104 "the first that no fitting data of that length have there after the same beginning". For
/// PS `36kVW` that is the `W`: data of five characters are three digits and `kW`, or two and `kVA`. No fitting data of TARIFDYN
/// have six characters, so there it is the first of all.
const UNFIT: [(&str, &[(&str, usize)]); 20] = [
    (
        "TRAME",
        &[("test", 0), ("TES ", 3), (" TES", 0), ("REEL", 0)],
    ),
    (
        "DATE",
        &[
            ("25/12/08 22/35/18", 11),
            ("25/12/08-22:35:18", 8),
            ("25.12.08 22:35:18", 2),
        ],
    ),
    (
        "DebP-1_2",
        &[
            ("25/12/08  2:35:18", 9),
            ("25/12/2008  22:35", 8),
            ("H0812252235180000", 0),
        ],
    ),
    (
        "EA_s",
        &[
            ("12kWh", 2),
            ("5VAh", 1),
            ("15 Wh", 2),
            ("-15Wh", 0),
            ("1,5Wh", 1),
            ("Wh1", 0),
            ("15WH", 3),
            ("   ", 0),
        ],
    ),
    (
        "ER-_i",
        &[
            ("12VAh", 1),
            ("1kvarh", 1),
            ("12 varh", 2),
            ("+12varh", 0),
            ("12VARH", 2),
        ],
    ),
    (
        "EAPP_s",
        &[("12Wh", 1), ("5varh", 1), ("5kVAh", 1), ("5 VAh", 1)],
    ),
    (
        "TARIFDYN",
        &[
            ("NACTIF", 0),
            ("ACTIFS", 0),
            ("ACTIF ", 0),
            ("INACTIV", 6),
            ("actif", 0),
            (" ACTIF", 0),
        ],
    ),
    (
        "PREAVIS1",
        &[("TD HPH", 2), ("td-HPH", 0), ("HPH-TD", 0), ("DEP   ", 0)],
    ),
    (
        "TDYN1CF",
        &[("25/12/08 22:00:00 HPH", 17), ("25/12/08 22/00/00-HPH", 11)],
    ),
    ("MODE", &[("controle", 0), ("CONTROL ", 7), (" CONTROL", 0)]),
    (
        "CONFIG",
        &[("CONS", 0), ("PRODU", 0), ("PROD ", 0), ("prod", 0)],
    ),
    (
        "PA1_s",
        &[
            ("123456kW", 5),
            ("12kVA", 2),
            ("0 kW", 1),
            ("12H.kW", 2),
            ("12tkW", 2),
            ("12TTkW", 2),
            ("-12kW", 0),
            ("TkW", 0),
        ],
    ),
    (
        "EAP_s",
        &[
            ("42Wh", 1),
            ("7kvarh", 1),
            ("42 kWh", 2),
            ("42kVAh", 2),
            ("kWh42", 0),
        ],
    ),
    ("ER+P-1_i", &[("123kWh", 1), ("12varh", 1), ("12 kvarh", 2)]),
    (
        "PS",
        &[
            ("123456kW", 5),
            ("36kVW", 4),
            ("36VA", 2),
            ("36TkW", 2),
            ("36 kVA", 2),
            ("kVA", 0),
        ],
    ),
    (
        "PMAX_i",
        &[("123456kW", 5), ("36kWA", 3), ("36kva", 3), ("-36kW", 0)],
    ),
    (
        "PREAVIS",
        &[("EJP", 0), ("DEPX", 3), (" DEP", 0), ("dep", 0)],
    ),
    (
        "PA1MN",
        &[("12TkW", 2), ("12kVA", 2), ("-12kW", 0), ("12 kW", 2)],
    ),
    (
        "TGPHI_s",
        &[
            ("12-,34", 2),
            ("+0,25", 0),
            ("-,25", 0),
            (" 0,25", 0),
            ("0,250", 1),
            ("0;25", 1),
            ("0,2 ", 3),
            ("123456,7", 5),
        ],
    ),
    (
        "TGPHI_i",
        &[
            ("--1,00", 1),
            ("-12345,6", 5),
            ("1,000,00", 1),
            ("99999999", 5),
        ],
    ),
];

/// "The season is H or E; for DPM1 to DPM3 and FPM1 to FPM3 it is SP and nothing else." Document 02, M-101: h and e "are right
/// wherever H and E are right, in reader and writer, and stay wrong for DPM and FPM".
fn seasons_of(label: &str) -> &'static [u8] {
    match label {
        "DPM1" | "DPM2" | "DPM3" | "FPM1" | "FPM2" | "FPM3" => b" ",
        _ => b"HEhe",
    }
}

pub fn stamp_of(label: &str) -> &'static [u8] {
    match label {
        _ if seasons_of(label) == b" " => b" 081225223518",
        "SMAXIN" | "UMOY2" | "CCAIN-1" => b"E080629223518",
        _ => b"H081225223518",
    }
}

/// Data of a kind and width, with the first and the last character of the kind in it.
pub fn data_of(kind: &str, width: usize) -> Vec<u8> {
    let characters: &[u8] = match kind {
        "N" => b"09",
        "X" => b"F0A9",
        _ => b" ~@|",
    };
    characters.iter().copied().cycle().take(width).collect()
}

/// Writes a right group and has it read back, given alone and on a line. Gives how many bytes it has on the wire.
fn reads_back(mode: Mode, expected: Group<'_>) -> usize {
    let Group { label, stamp, data } = expected;
    let content = content(mode, label, stamp, data);
    // The writer's bytes are those that the documents' sentences make.
    let written = write(mode, label, stamp, data).unwrap();
    assert_eq!(written.as_bytes(), group(&content));
    // Without the parity bits, LF and CR the reader is given what it was.
    let bytes = written.as_bytes();
    let characters: Vec<u8> = bytes.iter().map(|byte| byte & 0x7F).collect();
    let inside = &characters[1..characters.len() - 1];
    assert_eq!(judge(mode, inside), Ok(expected));
    // So is a line.
    let mut station = Station::new();
    station.open(6, mode).unwrap();
    station.deliver(6, &[STX]).unwrap();
    station.deliver(6, bytes).unwrap();
    station.deliver(6, &[ETX]).unwrap();
    let mut round = station.round();
    if bytes.len() > 63 {
        assert_eq!(round.answer(6), None);
        round = station.round();
    }
    let accepted = Answer::Accepted { label, stamp, data };
    assert_eq!(round.answer(6), Some(accepted));
    let sound = Answer::Told(Notice::FrameSound);
    assert_eq!(station.round().answer(6), Some(sound));
    bytes.len()
}

#[test]
fn what_is_written_for_every_label_reads_back() {
    let mut labels = [0, 0];
    let mut longest = (0, "");
    let historic = HISTORIC.iter().map(|row| (Historic, row));
    let standard = STANDARD.iter().map(|row| (Standard, row));
    for (mode, row) in historic.chain(standard) {
        let mut words = row.split(' ');
        let rule = words.next().unwrap();
        let (kind, width) = rule.trim_end_matches('*').split_at(1);
        let data = data_of(kind, width.parse().unwrap());
        for label in words {
            labels[mode.number() as usize] += 1;
            let stamp = if rule.ends_with('*') {
                stamp_of(label)
            } else {
                b""
            };
            let length = reads_back(mode, fields(label.as_bytes(), stamp, &data));
            longest = longest.max((length, label));

            // A stamp where there must be none, or none where there must be one, and data one too long.
            let wrong: &[u8] = if stamp.is_empty() {
                b"H081225223518"
            } else {
                b""
            };
            let long = [&data[..], b"0"].concat();
            assert_eq!(
                write(mode, label.as_bytes(), wrong, &data).unwrap_err(),
                Refusal::StampWrong
            );
            assert_eq!(
                write(mode, label.as_bytes(), stamp, &long).unwrap_err(),
                Refusal::WidthWrong
            );
        }
    }
    assert_eq!(labels, [34, 71]);
    assert_eq!(longest, (111, "PJOURF+1"));
    const { assert!(111 <= MOST_WRITTEN) };
}

#[test]
fn every_season_is_right_or_wrong_by_its_label() {
    let mut stamped = 0;
    for row in STANDARD {
        let mut words = row.split(' ');
        let Some(rule) = words.next().unwrap().strip_suffix('*') else {
            continue;
        };
        let (kind, width) = rule.split_at(1);
        let data = data_of(kind, width.parse().unwrap());
        for label in words {
            stamped += 1;
            for season in 0..=255 {
                let stamp = [&[season][..], b"080629223518"].concat();
                let group = fields(label.as_bytes(), &stamp, &data);
                let content = content(Standard, group.label, group.stamp, group.data);
                let written = write(Standard, group.label, group.stamp, group.data);
                if seasons_of(label).contains(&season) {
                    // The letter is shown as it came.
                    assert_eq!(judge(Standard, &content), Ok(group));
                    assert_eq!(written.unwrap().as_bytes(), crate::wire::group(&content));
                } else {
                    let wrong = wrong_at(label.len() + 1, Refusal::StampWrong);
                    assert_eq!(judge(Standard, &content), wrong);
                    assert_eq!(written.unwrap_err(), Refusal::StampWrong);
                }
            }
        }
    }
    assert_eq!(stamped, 24);
}

/// Document 02, M-101: a meter whose clock lost its time, and then has it again.
#[test]
fn a_line_shows_the_season_letter_as_it_came() {
    let mut bytes = Vec::new();
    let stamps = [
        b"H250114175948",
        b"h000101000217",
        b"e000701000217",
        b"H250115093004",
    ];
    for stamp in stamps {
        let date = content(Standard, b"DATE", stamp, b"");
        let peak = content(Standard, b"DPM1", b" 250118060000", b"00");
        bytes.extend(frame(&[&date, &peak]));
    }
    let degraded = content(Standard, b"DPM1", b"h250118060000", b"00");
    bytes.extend(frame(&[&degraded]));
    let mut expected = Vec::new();
    for stamp in stamps {
        let stamp = std::str::from_utf8(stamp).unwrap();
        expected.push(format!("1 DATE {stamp} "));
        expected.push("1 DPM1  250118060000 00".to_string());
        expected.push("2".to_string());
    }
    expected.extend(["12 5", "3"].map(String::from));
    assert_eq!(listing(Standard, &bytes), expected);
}

/// Reader and writer alike refuse these data of a business meter's label, and the reader tells no place.
fn refused(label: &str, data: &[u8], refusal: Refusal) {
    let label = label.as_bytes();
    let content = content(Business, label, b"", data);
    assert_eq!(judge(Business, &content), nowhere(refusal));
    assert_eq!(write(Business, label, b"", data).unwrap_err(), refusal);
}

/// Reader and writer alike refuse these data as 14, and the reader tells that the data character of this index is wrong.
fn unfit(label: &str, data: &[u8], index: usize) {
    let place = label.len() + 1 + index;
    let label = label.as_bytes();
    let content = content(Business, label, b"", data);
    let wrong = wrong_at(place, Refusal::KindWrong);
    assert_eq!(judge(Business, &content), wrong, "{data:?}");
    let written = write(Business, label, b"", data);
    assert_eq!(written.unwrap_err(), Refusal::KindWrong);
}

#[test]
fn what_is_written_for_every_label_of_a_business_meter_reads_back() {
    let mut labels = std::collections::BTreeSet::new();
    let mut longest = (0, "");
    for (names, right) in BUSINESS {
        let (least, most) = (right[0], right[right.len() - 1]);
        for label in names.split(' ') {
            assert!(labels.insert(label), "{label} stands there twice");
            for data in right {
                assert!((least.len()..=most.len()).contains(&data.len()));
                let length = reads_back(Business, fields(label.as_bytes(), b"", data.as_bytes()));
                longest = longest.max((length, label));
            }
            // "13 is a length outside these", whatever the characters are.
            refused(label, &least.as_bytes()[1..], Refusal::WidthWrong);
            refused(label, &vec![b' '; least.len() - 1], Refusal::WidthWrong);
            refused(
                label,
                &[most.as_bytes(), b"0"].concat(),
                Refusal::WidthWrong,
            );
            refused(label, &vec![b' '; most.len() + 1], Refusal::WidthWrong);
        }
    }
    assert_eq!(labels.len(), 75);
    assert_eq!(longest, (33, "TDYN2FF"));
}

#[test]
fn data_that_fit_no_form_of_a_business_meters_label_are_14() {
    for (label, wrong) in UNFIT {
        for (data, index) in wrong {
            unfit(label, data.as_bytes(), *index);
        }
    }
    // Eight characters are right with the `T` of a point that was cut short; PA1MN has no such form, and at most seven.
    unfit("PA1_s", b"123456kW", 5);
    refused("PA1MN", b"123456kW", Refusal::WidthWrong);
    // No field takes a character outside 0x20 to 0x7E.
    for (names, right) in BUSINESS {
        let most = right[right.len() - 1].as_bytes();
        for label in names.split(' ') {
            for place in 0..most.len() {
                for character in [0x00, 0x09, 0x1F, 0x7F, 0x80, 0xA0, 0xFF] {
                    let mut data = most.to_vec();
                    data[place] = character;
                    unfit(label, &data, place);
                }
            }
        }
    }
}

/// M-100: "No row of mode 2 is stamped; dates in it are data."
#[test]
fn a_business_meters_group_takes_no_stamp() {
    let stamps: [&[u8]; 5] = [
        b"H081225223518",
        b" 081225223518",
        b"25/12/08 22:35:18",
        b" ",
        b"-",
    ];
    for (names, right) in BUSINESS {
        for label in names.split(' ') {
            for stamp in stamps {
                // Whether the data are right or not.
                for data in [right[0], ""] {
                    let written = write(Business, label.as_bytes(), stamp, data.as_bytes());
                    assert_eq!(written.unwrap_err(), Refusal::StampWrong);
                }
            }
        }
    }
    // Read, what could be one is part of the data, and so is the separator behind it.
    let stamped = content(Business, b"DATE", b"H081225223518", b"25/12/08 22:35:18");
    assert_eq!(judge(Business, &stamped), nowhere(Refusal::WidthWrong));
}

/// Document 003, 2.9.1 and 1.5.2: the sum runs through the last of the data, as that of the historic meters does.
#[test]
fn spaces_of_a_business_meters_data_are_counted_and_the_final_separator_is_not() {
    let preavis = |data| Ok(fields(b"PREAVIS", b"", data));
    assert_eq!(judge(Business, b"PREAVIS DEP 3"), preavis(b"DEP"));
    assert_eq!(
        judge(Business, b"PREAVIS DEP S"),
        nowhere(Refusal::CheckWrong)
    );
    // The space that some meters send behind DEP is data.
    assert_eq!(judge(Business, b"PREAVIS DEP  S"), preavis(b"DEP "));
    assert_eq!(
        judge(Business, b"PREAVIS DEP  3"),
        nowhere(Refusal::CheckWrong)
    );
    // Two spaces more leave the sum as it is.
    let period = |data| Ok(fields(b"PTCOUR1", b"", data));
    assert_eq!(judge(Business, b"PTCOUR1 P ^"), period(b"P"));
    assert_eq!(judge(Business, b"PTCOUR1 P   ^"), period(b"P  "));
    assert_eq!(judge(Business, b"PTCOUR1  P  ^"), period(b" P "));
    assert_eq!(judge(Business, b"PTCOUR1     ."), period(b"   "));
    let tariff = fields(b"MESURES1", b"", b"HTA 5     ");
    assert_eq!(judge(Business, b"MESURES1 HTA 5      '"), Ok(tariff));
    // A date, with the space before its hour.
    let date = fields(b"DATE", b"", b"25/12/08 22:35:18");
    assert_eq!(judge(Business, b"DATE 25/12/08 22:35:18 7"), Ok(date));
    // A check character that is itself a space, as in P5.
    let energy = fields(b"EAPP_s", b"", b"18VAh");
    assert_eq!(judge(Business, b"EAPP_s 18VAh  "), Ok(energy));
    // No data at all: the separator behind the label is not the final one.
    assert_eq!(judge(Business, b"PTCOUR1  N"), nowhere(Refusal::WidthWrong));
    assert_eq!(judge(Business, b"PTCOUR1 N"), nowhere(Refusal::Misshapen));
}

/// The labels of a mode.
fn labels_of(mode: Mode) -> Vec<&'static [u8]> {
    let by_rule =
        |rows: &'static [&str]| rows.iter().flat_map(|row| row.split(' ').skip(1)).collect();
    let labels: Vec<&str> = match mode {
        Historic => by_rule(&HISTORIC),
        Standard => by_rule(&STANDARD),
        Business => BUSINESS
            .iter()
            .flat_map(|(names, _)| names.split(' '))
            .collect(),
    };
    labels.into_iter().map(str::as_bytes).collect()
}

/// A label with one byte missing, with one byte more, and with one byte that is another: every byte, at every place.
fn near_misses(label: &[u8]) -> Vec<Vec<u8>> {
    let mut near = Vec::new();
    for place in 0..=label.len() {
        let (before, behind) = label.split_at(place);
        let shorter = behind.get(1..);
        near.extend(shorter.map(|rest| [before, rest].concat()));
        for byte in 0..=255 {
            near.push([before, &[byte], behind].concat());
            near.extend(shorter.map(|rest| [before, &[byte], rest].concat()));
        }
    }
    near
}

/// M-107, "the old one's row for every sequence of bytes": 11 exactly where a label is not in the list, in the writer and in
/// the reader, of a content that is long and of one that is as short as it can be.
#[test]
fn only_the_very_bytes_of_a_label_find_it() {
    let unknown = Some(Refusal::LabelUnknown);
    for mode in [Historic, Standard, Business] {
        let separator = if mode == Standard { b'\t' } else { b' ' };
        let labels = labels_of(mode);
        let mut texts: Vec<Vec<u8>> = labels.iter().flat_map(|label| near_misses(label)).collect();
        texts.extend(
            labels
                .iter()
                .flat_map(|a| labels.iter().map(|b| [*a, *b].concat())),
        );
        texts.extend((0..=128).map(|length| vec![b'S'; length]));
        for text in texts {
            let missing = !labels.contains(&&text[..]);
            let written = write(mode, &text, b"", b"").err();
            assert_eq!(written == unknown, missing, "{mode:?} {text:?}");
            if text.is_empty() || text.contains(&separator) || 100 < text.len() {
                continue;
            }
            for data in [&b""[..], b"123456789"] {
                let content = content(mode, &text, b"", data);
                let judged = judge(mode, &content).err().map(Refusal::from);
                assert_eq!(judged == unknown, missing, "{mode:?} {text:?} {data:?}");
            }
        }
    }
}

/// The labels of Tableau 10 byte for byte, but for an accent that seven bits do not have; and to each mode its own list.
#[test]
fn a_label_that_is_not_in_the_business_meters_list_is_11() {
    let date = b"25/12/08 22:35:18";
    let unknown = [
        ("D{bP", &date[..]),
        ("DEBP", date),
        ("debP", date),
        ("DATEPA0", date),
        ("DATEPA7", date),
        ("PA7_s", b"0kW"),
        ("PA1", b"0kW"),
        ("PA1_S", b"0kW"),
        ("EaP_s", b"0kWh"),
        ("EAP-1_s", b"0kWh"),
        ("EAP_s2", b"0kWh"),
        ("EaP_i2", b"0kWh"),
        ("ER_s", b"0varh"),
        ("PTCOUR", b"HPH"),
        ("PTCOUR3", b"HPH"),
        ("TDYN1", b"25/12/08 06:00:00-HPH"),
        ("TRAM", b"TEST"),
        ("TRAMES", b"TEST"),
    ];
    for (label, data) in unknown {
        refused(label, data, Refusal::LabelUnknown);
    }
    for row in HISTORIC {
        for label in row.split(' ').skip(1) {
            refused(label, b"000000000", Refusal::LabelUnknown);
        }
    }
    for (names, right) in BUSINESS {
        for label in names.split(' ') {
            let content = content(Historic, label.as_bytes(), b"", right[0].as_bytes());
            assert_eq!(judge(Historic, &content), nowhere(Refusal::LabelUnknown));
        }
    }
}

#[test]
fn the_group_of_the_listing_is_written_byte_for_byte() {
    let written = write(Standard, b"URMS1", b"", b"230").unwrap();
    let expected = b"\x0A\x55\xD2\x4D\x53\xB1\x09\xB2\x33\x30\x09\x3F\x8D";
    assert_eq!(written.as_bytes(), expected);
}

#[test]
fn writing_is_refused_in_the_order_19_11_12_13_14_15_and_changes_no_byte() {
    let stamp = b"H081225223518";
    // Mode, fields, room in the buffer, and the number. All is wrong at first; then fault after fault is mended.
    let cases = [
        (3, fields(b"NONE", stamp, b"2X"), 0, 19),
        (1, fields(b"NONE", stamp, b"2X"), 0, 11),
        (1, fields(b"URMS1", stamp, b"2X"), 0, 12),
        (1, fields(b"URMS1", b"", b"2X"), 0, 13),
        (1, fields(b"URMS1", b"", b"2X0"), 0, 14),
        (1, fields(b"URMS1", b"", b"230"), 0, 15),
        (1, fields(b"URMS1", b"", b"230"), 12, 15),
        (256, fields(b"URMS1", b"", b"230"), 130, 19),
        (0, fields(b"URMS1", b"", b"230"), 130, 11),
        (1, fields(b"UMOY1", b"", b"230"), 130, 12),
        // The same of a business meter, whose labels have no stamp.
        (2, fields(b"NONE", stamp, b"1234567kW"), 0, 11),
        (2, fields(b"PS", stamp, b"1234567kW"), 0, 12),
        (2, fields(b"PS", b"", b"1234567kW"), 0, 13),
        (2, fields(b"PS", b"", b"123456kW"), 0, 14),
        (2, fields(b"PS", b"", b"12345kW"), 0, 15),
        (2, fields(b"PS", b"", b"12345kW"), 13, 15),
        (258, fields(b"PS", b"", b"12345kW"), 130, 19),
        (0, fields(b"PS", b"", b"12345kW"), 130, 11),
    ];
    for (mode, Group { label, stamp, data }, room, number) in cases {
        let mut buffer = [0xEE; 130];
        let refusal = write_raw(mode, label, stamp, data, &mut buffer[..room]).unwrap_err();
        assert_eq!(refusal.number(), number);
        assert_eq!(buffer, [0xEE; 130]);
    }
    // Exact room; and more, of which "the rest" stays "unchanged".
    for room in [13, 14, 130] {
        let mut buffer = [0xEE; 130];
        let length = write_raw(1, b"URMS1", b"", b"230", &mut buffer[..room]).unwrap();
        assert_eq!(length, 13);
        assert_eq!(buffer[..13], group(b"URMS1\t230\t?"));
        assert_eq!(buffer[13..], [0xEE; 130 - 13]);
    }
}

#[test]
fn label_stamp_and_data_may_overlap_each_other() {
    let text = b"MSG2MSG2MSG2MSG2";
    let written = write(Standard, &text[..4], b"", text).unwrap();
    let expected = content(Standard, b"MSG2", b"", text);
    assert_eq!(written.as_bytes(), group(&expected));
}

#[test]
fn a_refusal_has_one_of_the_numbers_8_to_19_and_says_it() {
    for number in 0..300 {
        let refusal = Refusal::from_number(number);
        let expected = (8..=19).contains(&number).then_some(number);
        assert_eq!(refusal.map(Refusal::number), expected);
        if let Some(refusal) = refusal {
            let said: Box<dyn std::error::Error> = refusal.into();
            assert!(said.to_string().ends_with(&format!("({number})")));
        }
    }
    let modes = [Historic, Standard, Business].map(Mode::number);
    assert_eq!(modes, [0, 1, 2]);
}
