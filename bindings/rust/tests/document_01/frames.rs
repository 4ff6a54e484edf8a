//! Document 02, M-108, "Number the frames": "Each line keeps a frame number, 0 when opened, one more at every STX, 65,535
//! followed by 0. Every sheet entry carries it .. an answer 5 carries the new number."

use crate::wire::{content, frame, group, wire, CR, EOT, ETX, IDLE, LF, STX};
use espandim::{Answer, Entry, Mode, Notice, Refusal, Station, INBOX};

use Mode::{Business, Historic, Standard};

/// P1 of document 01.
const P1: &[u8] = b"URMS1\t230\t?";

/// STX without its parity bit: "An unsound byte is never a control character."
const DAMAGED_STX: u8 = STX & 0x7F;

/// The numbers of the frames and the answers, as the listing prints them, that a line gives to these bytes, in pieces of this
/// size.
fn answers(station: &mut Station, line: u32, bytes: &[u8], size: usize) -> Vec<(u16, String)> {
    let mut answers = Vec::new();
    for piece in bytes.chunks(size) {
        station.deliver(line, piece).unwrap();
        loop {
            let round = station.round();
            let entry = round.entry(line);
            answers.extend(entry.map(|entry| (entry.frame, entry.to_string())));
            if round.is_idle() {
                break;
            }
        }
    }
    answers
}

/// The same of a line that was just opened.
fn numbered(mode: Mode, bytes: &[u8]) -> Vec<(u16, String)> {
    let mut station = Station::new();
    station.open(3, mode).unwrap();
    answers(&mut station, 3, bytes, 64)
}

/// What must come out.
fn said(expected: &[(u16, &str)]) -> Vec<(u16, String)> {
    let owned = |&(frame, text): &(u16, &str)| (frame, text.to_string());
    expected.iter().map(owned).collect()
}

#[test]
fn the_first_frame_after_an_opening_has_1() {
    assert_eq!(numbered(Standard, &[STX, ETX]), said(&[(1, "2")]));
    // Whatever came before it outside of every frame.
    let bytes = [&[IDLE, ETX, EOT, LF, CR, 0xFF][..], &frame(&[P1])].concat();
    let expected = [(1, "1 URMS1 - 230"), (1, "2")];
    assert_eq!(numbered(Standard, &bytes), said(&expected));
}

/// What the agent asked for: "which groups came together".
#[test]
fn groups_that_came_together_have_the_same_number() {
    let historic: [&[u8]; 2] = [b"PAPP 00750 -", b"IINST 002 Y"];
    let mut bytes = Vec::new();
    for contents in [&historic[..], &historic[..1], &[], &historic[1..]] {
        bytes.extend(frame(contents));
    }
    let expected = [
        (1, "1 PAPP - 00750"),
        (1, "1 IINST - 002"),
        (1, "2"),
        (2, "1 PAPP - 00750"),
        (2, "2"),
        (3, "2"),
        (4, "1 IINST - 002"),
        (4, "2"),
    ];
    // However the bytes are cut.
    for size in 1..=bytes.len() {
        let mut station = Station::new();
        station.open(6, Historic).unwrap();
        assert_eq!(answers(&mut station, 6, &bytes, size), said(&expected));
    }
}

/// "An answer 5 carries the new number", in a frame and in a group.
#[test]
fn an_answer_5_has_the_new_number() {
    let bytes = [STX, STX, LF, STX, LF, wire(b'U'), STX, STX, ETX];
    let expected = [(2, "5"), (3, "5"), (4, "5"), (5, "5"), (5, "2")];
    assert_eq!(numbered(Standard, &bytes), said(&expected));
}

/// 2, 3 and 4, from a frame and from a group: the frame that is still the line's.
#[test]
fn an_answer_that_ends_a_frame_has_the_number_of_this_frame() {
    let frames: [(&[u8], &str); 5] = [
        (&[STX, ETX], "2"),
        (&[STX, CR, ETX], "3"),
        (&[STX, LF, ETX], "3"),
        (&[STX, EOT], "4"),
        (&[STX, LF, EOT], "4"),
    ];
    let bytes = frames.map(|(bytes, _)| bytes).concat();
    let expected: Vec<_> = (1..).zip(frames.map(|(_, text)| text)).collect();
    assert_eq!(numbered(Standard, &bytes), said(&expected));
}

/// 1 and 6 to 14, each in a frame of its own with another answer behind it.
#[test]
fn an_answer_of_a_group_has_the_number_of_its_frame() {
    let mut damaged = group(P1);
    damaged[3] ^= 0x80;
    let refused = [
        (vec![LF, LF, EOT], "6", "4"),
        ([&damaged[..], &[ETX]].concat(), "7", "3"),
        (group(&[b'A'; 129]), "8", "5"),
        (group(b"URMS1 230\t?"), "9", "5"),
        (group(b"URMS1\t230\t6"), "10", "5"), // P2
        (group(&content(Standard, b"PAPP", b"", b"00750")), "11", "5"),
        (group(b"SMAXSN\t01200\t?"), "12 7", "5"),
        (group(&content(Standard, b"URMS1", b"", b"2X")), "13", "5"),
        (group(b"STGE\t003a0001\tZ"), "14 8", "5"),
        (group(P1), "1 URMS1 - 230", "5"),
    ];
    let mut bytes = Vec::new();
    let mut expected = Vec::new();
    for (frame, (wire, first, then)) in (1..).zip(&refused) {
        bytes.push(STX);
        bytes.extend(wire);
        expected.push((frame, *first));
        // 5 comes with the STX of the next frame, and with its number.
        expected.push((frame + u16::from(*then == "5"), *then));
    }
    bytes.push(STX);
    assert_eq!(numbered(Standard, &bytes), said(&expected));
}

#[test]
fn a_damaged_stx_is_not_counted() {
    assert_eq!(DAMAGED_STX, 0x02);
    // Outside it is nothing, in a frame a flaw, and in a group it spoils the content.
    let bytes = [
        DAMAGED_STX,
        STX,
        DAMAGED_STX,
        ETX,
        STX,
        LF,
        DAMAGED_STX,
        CR,
        ETX,
        STX,
        ETX,
    ];
    let expected = [(1, "3"), (2, "7"), (2, "3"), (3, "2")];
    assert_eq!(numbered(Standard, &bytes), said(&expected));
}

/// Every byte, outside, in a frame and in a group: the number of the frame that begins behind it.
#[test]
fn no_other_byte_than_stx_is_counted() {
    for byte in 0..=u8::MAX {
        for before in [&[][..], &[STX], &[STX, LF]] {
            let bytes = [before, &[byte, EOT, STX, ETX]].concat();
            let started = bytes.iter().filter(|&&byte| byte == STX).count();
            let answers = numbered(Business, &bytes);
            assert_eq!(answers.last(), Some(&(started as u16, "2".to_string())));
        }
    }
}

/// "0 when opened", also where the line was open: outside, in a frame, in a group, and with an STX that waits.
#[test]
fn an_opening_sets_the_number_to_0() {
    let first = said(&[(1, "2")]);
    let mut station = Station::new();
    for before in [&[][..], &[STX, STX, ETX], &[STX, STX], &[STX, STX, LF]] {
        for waiting in [&[][..], &[STX, STX]] {
            for mode in [Historic, Standard, Business] {
                station.open(3, mode).unwrap();
                answers(&mut station, 3, before, 64);
                station.deliver(3, waiting).unwrap();
                station.open(3, mode).unwrap();
                assert_eq!(answers(&mut station, 3, &[STX, ETX], 64), first);
            }
        }
    }
}

#[test]
fn a_refused_call_keeps_the_number() {
    let mut station = Station::new();
    station.open(3, Standard).unwrap();
    answers(&mut station, 3, &[STX, ETX, STX, ETX, STX], 64);
    assert_eq!(station.open_raw(3, 3), Err(Refusal::ModeUnknown));
    assert_eq!(station.open(8, Standard), Err(Refusal::LineUnknown));
    assert_eq!(station.open(256 + 3, Standard), Err(Refusal::LineUnknown));
    // Each of these bytes would count, but none is taken.
    let many = [STX; INBOX + 1];
    assert_eq!(station.deliver(3, &many), Err(Refusal::NoRoom));
    assert_eq!(station.deliver(2, &[STX]), Err(Refusal::LineClosed));
    let expected = [(3, "2"), (4, "2")];
    assert_eq!(
        answers(&mut station, 3, &[ETX, STX, ETX], 64),
        said(&expected)
    );
}

/// Line 0 is in its first frame, line 7 in its eighth, and one that is opened again begins anew alone.
#[test]
fn each_line_counts_its_own_frames() {
    let mut station = Station::new();
    for line in 0..8 {
        station.open(line, Standard).unwrap();
        station
            .deliver(line, &vec![STX; 1 + line as usize])
            .unwrap();
    }
    while !station.round().is_idle() {}
    for line in 0..8 {
        station.deliver(line, &[ETX, STX, ETX]).unwrap();
    }
    let numbers = |station: &mut Station| {
        let round = station.round();
        let numbers = round.entries().map(|(line, entry)| (line, entry.frame));
        numbers.collect::<Vec<_>>()
    };
    let one_more_than_its_line: Vec<_> = (0..8).zip(1..9).collect();
    assert_eq!(numbers(&mut station), one_more_than_its_line);

    station.open(4, Historic).unwrap();
    station.deliver(4, &[STX, ETX]).unwrap();
    let mut expected: Vec<_> = (0..8).zip(2..10).collect();
    expected[4] = (4, 1);
    assert_eq!(numbers(&mut station), expected);
}

/// "65,535 followed by 0": every frame up to the 65,540th, with 2 at its end, and again with 5 at its beginning.
#[test]
fn the_frame_with_65535_is_followed_by_one_with_0() {
    let mut station = Station::new();
    station.open(1, Historic).unwrap();
    station.open(5, Standard).unwrap();
    station.deliver(5, &[STX]).unwrap();
    assert!(!station.round().is_idle());
    // Line 1: a frame in each round. Line 5: its first STX gives no answer, and each of the next begins one frame more.
    let (two, five) = (Notice::FrameSound, Notice::FrameRestarted);
    let told = |frame, notice| {
        let answer = Answer::Told(notice);
        Some(Entry { frame, answer })
    };
    for number in 1..=65_540u32 {
        station.deliver(1, &[STX, ETX]).unwrap();
        station.deliver(5, &[STX]).unwrap();
        let round = station.round();
        let frame = |number: u32| u16::try_from(number % 65_536).unwrap();
        assert_eq!(round.entry(1), told(frame(number), two));
        assert_eq!(round.entry(5), told(frame(number + 1), five));
        match number {
            65_535 => assert_eq!(round.entry(1), told(65_535, two)),
            65_536 => assert_eq!(round.entry(1), told(0, two)),
            65_537 => assert_eq!(round.entry(1), told(1, two)),
            _ => {}
        }
    }
}

/// Answers are told with the number of their frame and without it, and are the same. "The listing does not show it."
#[test]
fn entries_are_answers_with_their_frame() {
    let mut station = Station::new();
    for line in [1, 2, 5] {
        station.open(line, Standard).unwrap();
    }
    answers(&mut station, 2, &[STX, STX, STX], 64);
    station.deliver(1, &frame(&[P1])).unwrap();
    station.deliver(2, &group(b"STGE\t003a0001\tZ")).unwrap();
    station.deliver(5, &[IDLE]).unwrap();

    let round = station.round();
    let entries: Vec<_> = round.entries().collect();
    let accepted = Answer::Accepted {
        label: b"URMS1",
        stamp: b"",
        data: b"230",
    };
    let (line, entry) = entries[0];
    assert_eq!((line, entry.frame, entry.answer), (1, 1, accepted));
    assert_eq!(entry.to_string(), "1 URMS1 - 230");
    let (line, entry) = entries[1];
    assert_eq!((line, entry.frame), (2, 3));
    assert_eq!((entry.answer.number(), entry.answer.place()), (14, Some(8)));
    assert_eq!(entry.to_string(), "14 8");
    assert_eq!(entries.len(), 2);

    let alone: Vec<_> = entries.iter().map(|&(at, it)| (at, it.answer)).collect();
    assert_eq!(round.answers().collect::<Vec<_>>(), alone);
    assert_eq!((&round).into_iter().collect::<Vec<_>>(), alone);
    for line in (0..10).chain([255, 256, 257, u32::MAX]) {
        let told = entries.iter().find(|(answered, _)| *answered == line);
        assert_eq!(round.entry(line), told.map(|&(_, entry)| entry));
        assert_eq!(round.answer(line), told.map(|(_, entry)| entry.answer));
    }
    // Two answers that differ by their frame alone are equal, and their entries are not.
    let later = Entry { frame: 2, ..entry };
    assert_eq!(later.answer, entry.answer);
    assert_ne!(later, entry);
    // Whoever looks at a round while looking for a fault sees the numbers.
    assert!(format!("{round:?}").contains("frame: 3"));
}
