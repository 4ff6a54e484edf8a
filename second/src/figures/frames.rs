//! Tests of document 02, M-108, "Number the frames": which number an answer
//! carries, where it stands on a sheet, and the smallest sheet.

use super::*;
use crate::compare::go_through_long_history;
use crate::followed::{stand_after, Stand, STANDS};
use crate::frame_tally::FrameTally;
use crate::long_history::long_history;
use crate::programs::RunningProgram;
use crate::replay::{perform, Reply};
use crate::station::SMALLEST_SHEET;
use std::collections::VecDeque;

const STX: u8 = 0x82;
const DAMAGED_STX: u8 = 0x02;
const ETX: u8 = 0x03;
const EOT: u8 = 0x84;
const LF: u8 = 0x0A;
const CR: u8 = 0x8D;
const A: u8 = 0x41;

/// Answers, each with its frame number.
type Numbered<'row> = &'row [(u8, u16)];

/// Each answer to these wire bytes, with its frame number.
fn numbered(mode: Mode, wire: &[u8]) -> Vec<(u8, u16)> {
    read_whole(mode, wire)
        .iter()
        .map(|placed| (placed.answer.number(), placed.frame))
        .collect()
}

/// Rounds until one of them has an entry for the line, and gives the entry and
/// what of the sheet stands behind it. No other line may have one.
fn next_entry(station: &mut Station, line: usize) -> (Vec<u8>, Vec<u8>) {
    for _ in 0..10 {
        let mut sheet = [0xEE; 1096];
        assert!(station.round(&mut sheet).is_ok());
        if sheet[8 + 2 * line] == 24 {
            let text = match sheet[24] {
                1 => sheet[25..28].iter().map(|one| usize::from(*one)).sum(),
                _ => 0,
            };
            let (entry, rest) = sheet[24..].split_at(6 + text);
            return (entry.to_vec(), rest.to_vec());
        }
    }
    panic!("no answer")
}

/// The answer and the frame number of the next entry.
fn next_number(station: &mut Station, line: usize) -> (u8, u16) {
    let (entry, rest) = next_entry(station, line);
    assert!(rest.iter().all(|one| *one == 0xEE));
    (entry[0], u16::from(entry[4]) + 256 * u16::from(entry[5]))
}

/// "Each line keeps a frame number, 0 when opened, one more at every STX": the
/// first frame has the number 1, and an STX counts outside, in a frame and in a
/// group. "An answer 5 carries the new number"; 2, 3 and 4 that of the frame that
/// they end.
#[test]
fn m_108_one_more_at_every_start() {
    let cases: [(&[u8], Numbered); 10] = [
        (&[STX, ETX], &[(2, 1)]),
        (
            &[STX, ETX, STX, ETX, A, STX, ETX],
            &[(2, 1), (2, 2), (2, 3)],
        ),
        (&[STX, A, ETX, STX, LF, ETX], &[(3, 1), (3, 2)]),
        (&[STX, EOT, STX, LF, EOT], &[(4, 1), (4, 2)]),
        (&[STX, STX, STX, ETX], &[(5, 2), (5, 3), (2, 3)]),
        (&[STX, LF, STX, LF, A, STX, ETX], &[(5, 2), (5, 3), (2, 3)]),
        (&[STX, LF, LF, STX, LF, LF], &[(6, 1), (5, 2), (6, 2)]),
        // ETX and EOT neither count nor begin again, wherever they stand.
        (
            &[ETX, EOT, LF, CR, STX, ETX, ETX, STX, EOT],
            &[(2, 1), (4, 2)],
        ),
        // STX in a group that is damaged, or too long.
        (&[STX, LF, 0x01, STX, EOT], &[(5, 2), (4, 2)]),
        (
            &[&[STX, LF], &[A; 200][..], &[STX, EOT]].concat(),
            &[(5, 2), (4, 2)],
        ),
    ];
    for mode in MODES {
        for (wire, expected) in cases {
            assert_eq!(numbered(mode, wire), expected, "{wire:?}");
        }
    }
}

/// A damaged STX is none, wherever it stands: it leaves the number as it was.
#[test]
fn m_108_a_damaged_start_is_not_counted() {
    let d = DAMAGED_STX;
    let cases: [(&[u8], Numbered); 6] = [
        (&[d, ETX, d, EOT], &[]),
        (&[d, STX, ETX, d, d, STX, ETX], &[(2, 1), (2, 2)]),
        (&[STX, d, ETX, STX, d, EOT], &[(3, 1), (4, 2)]),
        (&[STX, LF, d, CR, STX, LF, d, CR], &[(7, 1), (5, 2), (7, 2)]),
        (&[STX, LF, d, ETX, STX, LF, d, STX], &[(3, 1), (5, 3)]),
        (&[STX, LF, d, LF, d, EOT], &[(6, 1), (4, 1)]),
    ];
    for mode in MODES {
        for (wire, expected) in cases {
            assert_eq!(numbered(mode, wire), expected, "{wire:?}");
        }
    }
    // Two bits turned over make a sound byte of an STX, but another one; and
    // nothing else is an STX.
    for other in 0..=255 {
        let numbers = numbered(Mode::Standard, &[other, STX, EOT]);
        let last = if other == STX { 2 } else { 1 };
        assert_eq!(numbers.last(), Some(&(4, last)), "{other}");
    }
}

/// Groups with every answer that one can have, 6 among them.
fn groups_of_every_answer() -> (Vec<u8>, [u8; 11]) {
    let groups = [
        group_on_wire(b"URMS1\t230\t?"),
        group_on_wire(b"SMAXSN\tH081225223518\t01200\t7"),
        vec![LF, 0x01, CR],
        [&[LF], &[A; 129][..], &[CR]].concat(),
        vec![LF, CR],
        group_on_wire(b"URMS1\t230\t6"),
        group_on_wire(b"SNSTI\t00000\t3"),
        group_on_wire(b"DATE\tH090229000000\t\t7"),
        group_on_wire(b"IRMS1\t3\tQ"),
        group_on_wire(b"STGE\t003a0001\tZ"),
        vec![LF, LF],
    ];
    (groups.concat(), [1, 1, 7, 8, 9, 10, 11, 12, 13, 14, 6])
}

/// "Which groups came together": all answers of a frame carry its number.
#[test]
fn m_108_all_answers_of_a_frame() {
    let (groups, answers) = groups_of_every_answer();
    let mut wire = Vec::new();
    let mut expected = Vec::new();
    for frame in 1..=300 {
        wire.push(STX);
        // In turn: ended by ETX, by EOT, and by the next STX, each in a group.
        if frame % 3 == 1 && frame > 1 {
            expected.push((5, frame));
        }
        wire.extend(&groups);
        expected.extend(answers.map(|answer| (answer, frame)));
        match frame % 3 {
            1 => {
                wire.push(ETX);
                expected.push((3, frame));
            }
            2 => {
                wire.push(EOT);
                expected.push((4, frame));
            }
            _ => {}
        }
    }
    assert_eq!(numbered(Mode::Standard, &wire), expected);
    // The same on sheets, in pieces that are no frames.
    let mut station = open_station(2, STANDARD);
    let mut pieces = wire.chunks(47);
    for (answer, frame) in expected {
        while station.inbox_length(2).expect("open") < 160 {
            let Some(piece) = pieces.next() else { break };
            assert_eq!(station.deliver(2, piece), Ok(()));
        }
        assert_eq!(next_number(&mut station, 2), (answer, frame));
    }
}

/// The bytes of entries, laid out by hand: answer number, three bytes, the frame
/// number, "two bytes, low byte first, before the text".
#[test]
fn m_108_entries_by_hand() {
    let mut station = open_station(3, STANDARD);
    let mut entries: Vec<(Vec<u8>, &[u8])> = vec![
        (vec![STX, STX], b"\x05\0\0\0\x02\0"),
        (
            group_on_wire(b"URMS1\t230\t?"),
            b"\x01\x05\0\x03\x02\0URMS1230",
        ),
        (
            group_on_wire(b"SMAXSN\tH081225223518\t01200\t7"),
            b"\x01\x06\x0D\x05\x02\0SMAXSNH08122522351801200",
        ),
        (
            group_on_wire(b"DATE\tH081225223518\t\tH"),
            b"\x01\x04\x0D\0\x02\0DATEH081225223518",
        ),
        (
            group_on_wire(b"DATE\tH090229000000\t\t7"),
            b"\x0C\0\0\x05\x02\0",
        ),
        (group_on_wire(b"STGE\t003a0001\tZ"), b"\x0E\0\0\x08\x02\0"),
        (vec![LF, LF], b"\x06\0\0\0\x02\0"),
        (vec![CR], b"\x09\0\0\0\x02\0"),
        (vec![ETX], b"\x03\0\0\0\x02\0"),
        (vec![STX, EOT], b"\x04\0\0\0\x03\0"),
        (vec![STX, ETX], b"\x02\0\0\0\x04\0"),
    ];
    // The 256th frame and those around it: the low byte stands first.
    for frame in 5..=254_u8 {
        entries.push((vec![STX, EOT], &[]));
        if frame == 254 {
            entries.push((vec![STX, ETX], b"\x02\0\0\0\xFF\0"));
            entries.push((vec![STX, ETX], b"\x02\0\0\0\0\x01"));
            entries.push((vec![STX, ETX], b"\x02\0\0\0\x01\x01"));
            let wire = [&[STX], &group_on_wire(b"URMS1\t230\t?")[..]].concat();
            entries.push((wire, b"\x01\x05\0\x03\x02\x01URMS1230"));
            entries.push((vec![STX], b"\x05\0\0\0\x03\x01"));
        }
    }
    for (wire, expected) in entries {
        assert_eq!(station.deliver(3, &wire), Ok(()));
        let (entry, rest) = next_entry(&mut station, 3);
        if !expected.is_empty() {
            assert_eq!(entry, expected);
        }
        assert!(rest.iter().all(|one| *one == 0xEE));
    }
}

/// "65,535 followed by 0": the 65,535th, 65,536th and 65,537th frame, whatever
/// ends them, in one reading and fed in pieces.
#[test]
fn m_108_the_number_comes_round() {
    let right = group_on_wire(b"URMS1\t230\t?");
    let frames: [(&[u8], &[u8]); 4] = [
        (&[STX, ETX], &[2]),
        (&[STX, EOT], &[4]),
        (&[STX, LF], &[5]),
        (&[&[STX], &right[..], &[ETX]].concat(), &[1, 2]),
    ];
    for (frame, answers) in frames {
        let wire = frame.repeat(65_540);
        let whole = read_whole(Mode::Standard, &wire);
        let mut expected: Vec<(u8, u16)> = Vec::new();
        for number in (1..=65_535).chain(0..=4) {
            expected.extend(answers.iter().map(|answer| (*answer, number)));
        }
        if answers == [5] {
            // The first one is begun from outside.
            expected.remove(0);
        }
        let found: Vec<(u8, u16)> = whole
            .iter()
            .map(|placed| (placed.answer.number(), placed.frame))
            .collect();
        assert!(found == expected, "{frame:?}");
        let mut line = Line::new(Mode::Standard);
        let fed: Vec<PlacedAnswer> = wire.chunks(251).flat_map(|one| line.feed(one)).collect();
        assert!(fed == whole, "{frame:?}");
    }
}

/// The number of an answer is how many sound STX came since the opening, up to
/// its own byte and no further: what waits in the inbox is not counted yet.
#[test]
fn m_108_counted_up_to_the_byte_of_the_answer() {
    for index in 0..200 {
        let mut generator = Generator::new(Dice::for_item(108, 1, index));
        let mode = generator.mode();
        let wire = generator.traffic(mode, 400);
        for placed in read_whole(mode, &wire) {
            let came = &wire[..=placed.place];
            let begun = came.iter().filter(|one| **one == STX).count();
            assert_eq!(usize::from(placed.frame), begun);
        }
    }
    let mut station = open_station(0, STANDARD);
    let wire = [STX, ETX, STX, EOT, STX, STX, LF, STX, STX];
    assert_eq!(station.deliver(0, &wire), Ok(()));
    for expected in [(2, 1), (4, 2), (5, 4), (5, 5), (5, 6)] {
        assert_eq!(next_number(&mut station, 0), expected);
    }
}

/// "0 when opened", whether it was open or not, wherever it stood; "a refused
/// opening changes nothing".
#[test]
fn m_108_openings() {
    let ways: [(&[u8], Numbered); 4] = [
        (&[STX, EOT, STX, EOT], &[(4, 1), (4, 2)]),
        (&[STX, STX, STX], &[(5, 2), (5, 3)]),
        (&[STX, STX, LF, A], &[(5, 2)]),
        (&[STX, STX, LF, STX, LF, LF], &[(5, 2), (5, 3), (6, 3)]),
    ];
    for (wire, answers) in ways {
        for mode in 0..=3 {
            let mut station = open_station(6, STANDARD);
            assert_eq!(station.deliver(6, wire), Ok(()));
            for expected in answers {
                assert_eq!(next_number(&mut station, 6), *expected);
            }
            let mut sheet = [0; 1096];
            assert!(station.round(&mut sheet).is_ok());
            // Waiting in the inbox: counted only if the opening is refused.
            assert_eq!(station.deliver(6, &[STX, STX]), Ok(()));
            let begun = wire.iter().filter(|one| **one == STX).count() as u16;
            let opening = station.open(6, mode);
            assert_eq!(station.open(8, 1), Err(Refusal::NoSuchLine));
            assert_eq!(station.deliver(6, &[STX, EOT]), Ok(()));
            if mode < 3 {
                assert_eq!(opening, Ok(()));
                assert_eq!(next_number(&mut station, 6), (4, 1));
            } else {
                assert_eq!(opening, Err(Refusal::UnknownMode));
                if stand_after(wire) != Stand::Outside {
                    assert_eq!(next_number(&mut station, 6), (5, begun + 1));
                }
                assert_eq!(next_number(&mut station, 6), (5, begun + 2));
                assert_eq!(next_number(&mut station, 6), (5, begun + 3));
                assert_eq!(next_number(&mut station, 6), (4, begun + 3));
            }
        }
    }
}

/// What is refused is not counted: a delivery, and a round with a sheet of 1,095.
#[test]
fn m_108_refused_calls() {
    let mut station = open_station(1, HISTORIC);
    assert_eq!(station.deliver(0, &[STX; 3]), Err(Refusal::LineClosed));
    assert_eq!(station.deliver(1, &[STX; 257]), Err(Refusal::NoRoom));
    assert_eq!(station.deliver(1, &[STX, STX]), Ok(()));
    assert_eq!(station.deliver(1, &[STX; 255]), Err(Refusal::NoRoom));
    let mut short = [0xEE; 1095];
    for _ in 0..3 {
        assert_eq!(station.round(&mut short), Err(Refusal::SheetTooShort));
    }
    assert_eq!(short, [0xEE; 1095]);
    assert_eq!(next_number(&mut station, 1), (5, 2));
    assert_eq!(station.deliver(1, &[ETX]), Ok(()));
    assert_eq!(next_number(&mut station, 1), (2, 2));
}

/// "The smallest sheet, and so 18, is now at 1,096 bytes": room for eight entries
/// with a text as long as a content.
#[test]
fn m_108_the_smallest_sheet() {
    assert_eq!(SMALLEST_SHEET, 1096);
    assert_eq!(SMALLEST_SHEET, 24 + 8 * (6 + 128));
    for (size, number) in [
        (0, 18),
        (24, 18),
        (1079, 18),
        (1080, 18),
        (1095, 18),
        (1096, 0),
        (1097, 0),
        (4096, 0),
    ] {
        let calls = [
            Call::Open { line: 4, mode: 1 },
            Call::Deliver {
                line: 4,
                bytes: vec![STX, STX],
            },
            Call::Round { size, fill: 0xEE },
        ];
        let log: Vec<u8> = calls.iter().flat_map(Call::to_record).collect();
        let replayed = match number {
            18 => format!("R 18 0 0 0 0 0 0 0 0 {}", hexadecimal(&vec![0xEE; size])),
            _ => format!(
                "R 0 0 0 0 0 2 0 0 0 {}{}{}{}",
                "0000000002000000",
                "0000000000000000".to_string() + "1800000000000000",
                "050000000200",
                "ee".repeat(size - 30)
            ),
        };
        assert_eq!(replay(&log), format!("O 0\nD 0\n{replayed}\n"), "{size}");
    }
}

/// "Each line keeps a frame number": eight lines in one round, each with its own.
#[test]
fn m_108_every_line_has_its_own_number() {
    let mut station = Station::new();
    for line in 0..8 {
        assert_eq!(station.open(line, line % 3), Ok(()));
    }
    // Line n is at its frame 30 n, by rounds of its own.
    for line in 0..8 {
        for _ in 0..30 * usize::from(line) {
            assert_eq!(station.deliver(line, &[STX, EOT]), Ok(()));
            assert_eq!(next_number(&mut station, usize::from(line)).0, 4);
        }
        assert_eq!(station.deliver(line, &[STX, ETX]), Ok(()));
        if line == 7 {
            break;
        }
        assert_eq!(next_number(&mut station, usize::from(line)).0, 2);
        assert_eq!(station.deliver(line, &[STX]), Ok(()));
        let mut sheet = [0; 1096];
        assert!(station.round(&mut sheet).is_ok());
        assert_eq!(sheet[8..24], [0; 16]);
    }
    // All end their frames in one round; line 3 is opened again before.
    assert_eq!(station.open(3, 1), Ok(()));
    assert_eq!(station.deliver(3, &[STX]), Ok(()));
    for line in 0..7 {
        assert_eq!(station.deliver(line, &[EOT]), Ok(()));
    }
    let mut sheet = [0xEE; 1096];
    assert_eq!(station.round(&mut sheet), Ok([1, 1, 1, 2, 1, 1, 1, 2]));
    let mut expected = vec![1, 1, 1, 2, 1, 1, 1, 2];
    expected.extend([24, 0, 30, 0, 36, 0, 42, 0, 48, 0, 54, 0, 60, 0, 66, 0]);
    for frame in [2, 32, 62, 1, 122, 152, 182] {
        expected.extend([4, 0, 0, 0, frame, 0]);
    }
    expected.extend([2, 0, 0, 0, 211, 0]);
    assert_eq!(sheet[..expected.len()], expected);
    assert!(sheet[expected.len()..].iter().all(|one| *one == 0xEE));
}

/// "The listing does not show it."
#[test]
fn m_108_the_listing_has_no_number() {
    let (groups, _) = groups_of_every_answer();
    let listed =
        "1 URMS1 - 230\n1 SMAXSN H081225223518 01200\n7\n8\n9\n10\n11\n12 5\n13\n14 8\n6\n";
    let mut capture = b"S".to_vec();
    let mut expected = String::new();
    for _ in 0..3 {
        capture.extend([&[STX], &groups[..], &[ETX, STX, EOT, STX, STX, ETX]].concat());
        expected.push_str(&format!("{listed}3\n4\n5\n2\n"));
    }
    assert_eq!(listing(&capture), expected);
    let many = [&b"P"[..], &[STX, ETX].repeat(65_540)].concat();
    assert_eq!(listing(&many), "2\n".repeat(65_540));
}

#[test]
fn m_108_where_a_line_stands() {
    let cases: [(&[u8], Stand); 12] = [
        (&[], Stand::Outside),
        (&[LF, A], Stand::Outside),
        (&[DAMAGED_STX, LF], Stand::Outside),
        (&[STX], Stand::InFrame),
        (&[STX, A, CR], Stand::InFrame),
        (&[STX, 0x8A], Stand::InFrame),
        (&[STX, LF, A, CR], Stand::InFrame),
        (&[STX, LF, STX], Stand::InFrame),
        (&[STX, LF, 0x0D], Stand::InGroup),
        (&[STX, LF, CR, LF, DAMAGED_STX], Stand::InGroup),
        (&[STX, LF, ETX, LF], Stand::Outside),
        (&[STX, EOT, CR], Stand::Outside),
    ];
    for (wire, stand) in cases {
        assert_eq!(stand_after(wire), stand, "{wire:?}");
    }
}

/// A line's inbox and its count of STX, kept by hand: what the entries of the
/// long history are held against.
#[derive(Clone, Default)]
struct Counted {
    inbox: VecDeque<u8>,
    begun: usize,
}

/// Every entry of the long history has the number that counting by hand gives;
/// every answer comes at the numbers where something may turn; and lines are
/// opened again, or not, wherever they stand.
#[test]
fn m_108_the_long_history() {
    let calls = long_history();
    let mut station = Station::new();
    let mut lines = vec![Counted::default(); 8];
    let mut met: BTreeSet<(u8, usize)> = BTreeSet::new();
    let mut largest = [0; 8];
    for call in &calls {
        let reply = perform(&mut station, call);
        match (call, &reply) {
            (Call::Open { line, .. }, Reply::Opened { number: 0 }) => {
                lines[usize::from(*line)] = Counted::default();
            }
            (Call::Deliver { line, bytes }, Reply::Delivered { number: 0 }) => {
                lines[usize::from(*line)].inbox.extend(bytes);
            }
            (_, Reply::Rounded { counts, sheet, .. }) => {
                for (line, counted) in lines.iter_mut().enumerate() {
                    let taken = counted.inbox.drain(..usize::from(counts[line]));
                    counted.begun += taken.filter(|one| *one == STX).count();
                    largest[line] = largest[line].max(counted.begun);
                    let [low, high] = [sheet[8 + 2 * line], sheet[9 + 2 * line]].map(usize::from);
                    if sheet.len() < 1096 || (low, high) == (0, 0) {
                        continue;
                    }
                    let entry = &sheet[low + 256 * high..];
                    let number = usize::from(entry[4]) + 256 * usize::from(entry[5]);
                    assert_eq!(number, counted.begun % 65_536, "line {line}");
                    met.insert((entry[0], counted.begun));
                }
            }
            _ => {}
        }
    }
    for begun in [2, 255, 256, 257, 32_767, 32_768, 65_535, 65_536, 65_537] {
        for answer in 1..=14 {
            assert!(met.contains(&(answer, begun)), "{answer} {begun}");
        }
    }
    // Five lines and the one with refused openings come round; one is opened
    // again at the last number; one again and again.
    assert_eq!(largest[..5], [65_540; 5]);
    assert_eq!(largest[5..7], [65_535, 65_540]);
    assert!((256..65_535).contains(&largest[7]));
}

/// What the report says of the long history.
#[test]
fn m_108_what_comes_up_in_the_long_history() {
    let (tally, parting) = go_through_long_history(None);
    assert_eq!(parting, None);
    for answer in 1..=14 {
        for number in [0, 1, 255, 256, 32_768, 65_535] {
            let times = tally.frames.times_numbered(answer, |one| one == number);
            assert!(times > 0 || (answer, number) == (5, 1), "{answer} {number}");
        }
    }
    for (stand, name) in STANDS {
        for yes in [true, false] {
            assert!(tally.frames.times_begun(stand, yes) > 20_000, "{name}");
            assert!(tally.frames.times_opened(stand, yes) > 0, "{name}");
        }
    }
    assert!(tally.frames.times_opened_over_waiting() >= 20);
    for size in [1095, 1096, 1097] {
        assert!(tally.frames.times_lent(size) > 100, "{size}");
    }
    let report = tally.report();
    assert!(report.contains(" 66584 of them accepted rounds, not compared;"));
    assert!(report.contains("frame numbers on sheets: the largest 65535;"));
}

/// A program that is held against the long history is found out at the first
/// record that it answers otherwise, and stopped.
#[test]
fn m_108_a_program_that_parts_from_the_long_history() {
    for (program, words) in [
        ("true", "record 1\n"),
        ("cat", "record 1\n"),
        ("yes 'O 0'", "record 2\n"),
        ("exit 3", "record 1\n"),
    ] {
        let (tally, parting) = go_through_long_history(Some(program));
        assert!(!tally.compared);
        let parting = parting.expect("they part");
        assert!(parting.contains(words), "{program}: {parting}");
    }
}

#[test]
fn m_108_a_program_that_is_read_while_it_writes() {
    let mut program = RunningProgram::start("cat; printf 'end'", b"ab\n\nabcdef\n".to_vec());
    let lines: [(usize, &[u8]); 7] = [
        (9, b"ab\n"),
        (9, b"\n"),
        (4, b"abcd"),
        (3, b"ef\n"),
        (2, b"en"),
        (9, b"d"),
        (9, b""),
    ];
    for (longest, line) in lines {
        assert_eq!(program.next_line(longest), line);
    }
    assert!(program.ends_well());
    // Many pieces, and lines that lie in two of them.
    let long = b"0123456789\n".repeat(100_000);
    let mut program = RunningProgram::start("cat; exit 1", long);
    for _ in 0..100_000 {
        assert_eq!(program.next_line(12), b"0123456789\n");
    }
    assert_eq!(program.next_line(12), b"");
    assert!(!program.ends_well());
}

/// What the gate compares, made without running a program: every answer with a
/// number above 1, STX and damaged STX wherever a line can stand, openings again
/// wherever it stands, accepted and refused, and the sheets of 1,095 to 1,097.
#[test]
fn m_108_frames_in_the_histories_of_the_gate() {
    let tally = made_for_the_gate();
    let frames: &FrameTally = &tally.frames;
    for answer in 1..=14 {
        let times = frames.times_numbered(answer, |frame| frame > 1);
        assert!(times >= 10, "{answer}: {times}");
        assert!(frames.largest_number(answer) >= 4, "{answer}");
        // No line has 65,536 frames in a hundred calls.
        assert_eq!(frames.times_numbered(answer, |frame| frame == 0), 0);
    }
    // The first STX of a line is no 5.
    assert_eq!(frames.times_numbered(5, |frame| frame == 1), 0);
    for (stand, name) in STANDS {
        for yes in [true, false] {
            let begun = frames.times_begun(stand, yes);
            assert!(begun >= 20, "{name} {yes}: {begun}");
            let opened = frames.times_opened(stand, yes);
            assert!(opened >= 5, "{name} {yes}: {opened}");
        }
    }
    let fives = [Stand::InFrame, Stand::InGroup].map(|stand| frames.times_begun(stand, true));
    assert_eq!(
        fives.iter().sum::<u64>(),
        frames.times_numbered(5, |_| true)
    );
    assert!(frames.times_opened_over_waiting() >= 20);
    for size in [1080, 1095, 1096, 1097] {
        let times = frames.times_lent(size);
        assert!(times >= 20, "{size}: {times}");
    }
    let report = tally.report(2000, 200);
    for words in [
        "frame numbers on sheets: the largest ",
        "STX that rounds took, sound and damaged: outside ",
        "openings of a line that had taken an STX, accepted and refused: outside ",
        "sheets lent of 1095 bytes ",
    ] {
        assert!(report.contains(words), "{report}");
    }
}
