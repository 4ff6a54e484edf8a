//! "The station": openings, deliveries and rounds.

use crate::wire::{frame, ETX, IDLE, LF, STX};
use espandim::{Answer, Mode, Notice, Refusal, Station};

/// P1 of document 01.
const P1: &[u8] = b"URMS1\t230\t?";

/// Makes a call that must be refused with this number, and must leave every byte of the station as it was.
fn refused(
    station: &mut Station,
    number: u32,
    call: impl FnOnce(&mut Station) -> Result<(), Refusal>,
) {
    let before = *station.bytes();
    let refusal = call(station).expect_err("the call is refused");
    assert_eq!(refusal.number(), number);
    assert_eq!(Refusal::from_number(number), Some(refusal));
    assert!(*station.bytes() == before, "{number} changes nothing");
}

/// A station with line 3 in use: open, inside a group, and with bytes that wait.
fn in_use() -> Station {
    let mut station = Station::new();
    station.open(3, Mode::Standard).unwrap();
    station.deliver(3, &[STX, LF, 0x55]).unwrap();
    assert_eq!(station.round().counts(), [0, 0, 0, 3, 0, 0, 0, 0]);
    station.deliver(3, &[0xD2, 0x4D]).unwrap();
    station
}

#[test]
fn a_new_station_is_zeros_and_all_lines_are_closed() {
    let mut station = Station::new();
    assert_eq!(*station.bytes(), [0; 3184]);
    assert_eq!(*Station::default().bytes(), [0; 3184]);
    for line in 0..8 {
        refused(&mut station, 17, |station| station.deliver(line, &[STX]));
    }
    let round = station.round();
    assert_eq!(round.counts(), [0; 8]);
    assert_eq!(round.answers().count(), 0);
    assert_eq!(*station.bytes(), [0; 3184]);
}

#[test]
fn an_opening_is_refused_with_16_before_19() {
    let mut station = in_use();
    for line in [8, 9, 255, 256, 259, 65_536, u32::MAX] {
        refused(&mut station, 16, |station| {
            station.open(line, Mode::Historic)
        });
        refused(&mut station, 16, |station| station.open_raw(line, 1));
        for mode in [3, 256, u32::MAX] {
            refused(&mut station, 16, |station| station.open_raw(line, mode));
        }
    }
    // 256, 257 and 258 have the low bytes of modes 0 to 2; line 3 is open and line 7 is closed.
    for mode in [3, 4, 255, 256, 257, 258, 65_536, u32::MAX] {
        for line in [3, 7] {
            refused(&mut station, 19, |station| station.open_raw(line, mode));
        }
    }
    for mode in 0..3 {
        station.open_raw(7, mode).unwrap();
    }
}

#[test]
fn an_opening_empties_the_inbox_and_puts_the_line_outside() {
    let mut station = in_use();
    station.open(3, Mode::Historic).unwrap();
    assert_eq!(station.round().counts(), [0; 8]);
    // Outside, neither LF nor ETX gives an answer; from a group ETX would.
    station.deliver(3, &[LF, ETX]).unwrap();
    let round = station.round();
    assert_eq!(round.counts(), [0, 0, 0, 2, 0, 0, 0, 0]);
    assert_eq!(round.answers().count(), 0);
    // It speaks the new mode: P3.
    station.deliver(3, &frame(&[b"PAPP 00750 -"])).unwrap();
    let round = station.round();
    let answer = round.answer(3).unwrap();
    assert_eq!(answer.to_string(), "1 PAPP - 00750");
}

/// Document 02, M-100: a third mode. Each line speaks its own, and takes no group of another's.
#[test]
fn lines_of_three_modes_stand_beside_each_other() {
    let contents: [&[u8]; 3] = [b"PAPP 00750 -", P1, b"DATE 25/12/08 22:35:18 7"];
    let lists = [
        ["1 PAPP - 00750", "9", "11"],
        ["9", "1 URMS1 - 230", "9"],
        ["11", "9", "1 DATE - 25/12/08 22:35:18"],
    ];
    let mut station = Station::new();
    for (mode, list) in (0..3).zip(lists) {
        // Line 5 had another mode before.
        for line in [mode, 5] {
            station.open_raw(line, mode).unwrap();
            station.deliver(line, &frame(&contents)).unwrap();
        }
        for said in list.into_iter().chain(["3"]) {
            let round = station.round();
            for line in [mode, 5] {
                assert_eq!(round.answer(line).unwrap().to_string(), said);
            }
        }
        assert!(station.round().is_idle());
    }
}

#[test]
fn a_refused_opening_keeps_the_mode_of_an_open_line() {
    let mut station = Station::new();
    station.open(3, Mode::Historic).unwrap();
    refused(&mut station, 19, |station| station.open_raw(3, 7));
    station.deliver(3, &frame(&[b"IINST 002 Y"])).unwrap();
    let round = station.round();
    assert_eq!(round.answer(3).unwrap().to_string(), "1 IINST - 002");
}

#[test]
fn a_delivery_is_refused_with_16_then_17_then_15() {
    let mut station = in_use();
    let too_many = [IDLE; 257];
    for line in [8, 11, 256, 259, u32::MAX] {
        for length in [0, 1, 256, 257] {
            refused(&mut station, 16, |station| {
                station.deliver(line, &too_many[..length])
            });
        }
    }
    for length in [0, 1, 256, 257] {
        refused(&mut station, 17, |station| {
            station.deliver(0, &too_many[..length])
        });
    }
    // Two bytes wait on line 3.
    for length in [255, 256, 257] {
        refused(&mut station, 15, |station| {
            station.deliver(3, &too_many[..length])
        });
    }
    station.deliver(3, &too_many[..254]).unwrap();
}

#[test]
fn an_inbox_holds_256_bytes() {
    let mut station = Station::new();
    station.open(7, Mode::Standard).unwrap();
    refused(&mut station, 15, |station| station.deliver(7, &[IDLE; 257]));
    station.deliver(7, &[IDLE; 256]).unwrap();
    refused(&mut station, 15, |station| station.deliver(7, &[IDLE]));
}

#[test]
fn an_empty_delivery_to_a_full_inbox_is_accepted() {
    let mut station = Station::new();
    station.open(7, Mode::Standard).unwrap();
    station.deliver(7, &[]).unwrap();
    station.deliver(7, &[IDLE; 256]).unwrap();
    station.deliver(7, &[]).unwrap();
    refused(&mut station, 15, |station| station.deliver(7, &[IDLE]));
    assert_eq!(station.round().counts(), [0, 0, 0, 0, 0, 0, 0, 64]);
}

#[test]
fn room_freed_by_a_round_is_used_again() {
    let mut station = Station::new();
    station.open(0, Mode::Standard).unwrap();
    station.deliver(0, &[IDLE; 256]).unwrap();
    for _ in 0..9 {
        assert_eq!(station.round().counts(), [64, 0, 0, 0, 0, 0, 0, 0]);
        refused(&mut station, 15, |station| station.deliver(0, &[IDLE; 65]));
        station.deliver(0, &[IDLE; 64]).unwrap();
    }
    let mut taken = 0;
    while station.round().counts()[0] > 0 {
        taken += 64;
    }
    assert_eq!(taken, 256);
}

/// "ends early after a byte that gives an answer": a line that answers each byte gives one a round, and all that can wait
/// within 256 rounds; "the inbox holds 256", so 257 are refused however often.
#[test]
fn a_line_that_answers_each_byte_is_taken_within_256_rounds() {
    let mut station = Station::new();
    station.open(6, Mode::Historic).unwrap();
    station.deliver(6, &[STX]).unwrap();
    assert!(!station.round().is_idle());
    for _ in 0..3 {
        refused(&mut station, 15, |station| station.deliver(6, &[STX; 257]));
        assert!(station.round().is_idle());
    }
    station.deliver(6, &[STX; 256]).unwrap();
    for _ in 0..256 {
        let round = station.round();
        assert!(!round.is_idle());
        assert_eq!(round.counts(), [0, 0, 0, 0, 0, 0, 1, 0]);
        let restarted = Answer::Told(Notice::FrameRestarted);
        assert_eq!(round.answer(6), Some(restarted));
    }
    let round = station.round();
    assert!(round.is_idle());
    assert_eq!(round.counts(), [0; 8]);
}

#[test]
fn a_round_is_idle_when_no_line_took_anything() {
    for line in 0..8 {
        let mut station = Station::new();
        station.open(line, Mode::Standard).unwrap();
        assert!(station.round().is_idle());
        station.deliver(line, &[IDLE]).unwrap();
        assert!(!station.round().is_idle());
        assert!(station.round().is_idle());
    }
}

#[test]
fn the_whole_case_of_the_listing() {
    let mut station = Station::new();
    station.open(0, Mode::Standard).unwrap();
    let capture = b"\x82\x0A\x55\xD2\x4D\x53\xB1\x09\xB2\x33\x30\x09\x3F\x8D\x03";
    station.deliver(0, capture).unwrap();

    let round = station.round();
    assert_eq!(round.counts(), [14, 0, 0, 0, 0, 0, 0, 0]);
    let accepted = Answer::Accepted {
        label: b"URMS1",
        stamp: b"",
        data: b"230",
    };
    assert_eq!(round.answers().collect::<Vec<_>>(), [(0, accepted)]);
    assert_eq!(accepted.number(), 1);
    assert_eq!(accepted.to_string(), "1 URMS1 - 230");

    let round = station.round();
    assert_eq!(round.counts(), [1, 0, 0, 0, 0, 0, 0, 0]);
    let sound = Answer::Told(Notice::FrameSound);
    assert_eq!(round.answers().collect::<Vec<_>>(), [(0, sound)]);
    assert_eq!(sound.number(), 2);
    assert_eq!(sound.to_string(), "2");

    let round = station.round();
    assert_eq!(round.counts(), [0; 8]);
    assert_eq!(round.answers().count(), 0);
}

#[test]
fn a_round_tells_counts_and_answers_in_the_order_of_the_lines() {
    let mut station = Station::new();
    // 0 is closed; 1 has a group; 2 nothing that waits; 3 no answer; 4 a whole frame; 5 to 7 one answer each.
    for line in 1..8 {
        station.open(line, Mode::Standard).unwrap();
    }
    station.deliver(1, &frame(&[P1])).unwrap();
    station.deliver(3, &[IDLE; 100]).unwrap();
    station.deliver(4, &[STX, ETX]).unwrap();
    station
        .deliver(5, &frame(&[b"SMAXSN\tH081225223518\t01200\t7"]))
        .unwrap();
    station.deliver(6, &[STX, STX, STX]).unwrap();
    station.deliver(7, &frame(&[P1])).unwrap();

    let round = station.round();
    assert_eq!(round.counts(), [0, 14, 0, 64, 2, 31, 2, 14]);
    let p1 = Answer::Accepted {
        label: b"URMS1",
        stamp: b"",
        data: b"230",
    };
    let p7 = Answer::Accepted {
        label: b"SMAXSN",
        stamp: b"H081225223518",
        data: b"01200",
    };
    let expected = [
        (1, p1),
        (4, Answer::Told(Notice::FrameSound)),
        (5, p7),
        (6, Answer::Told(Notice::FrameRestarted)),
        (7, p1),
    ];
    assert_eq!(round.answers().collect::<Vec<_>>(), expected);
    for line in 0..9 {
        let answer = expected
            .iter()
            .find(|(answered, _)| *answered == line)
            .map(|&(_, answer)| answer);
        assert_eq!(round.answer(line), answer);
    }
    assert_eq!(round.answer(u32::MAX), None);

    let round = station.round();
    assert_eq!(round.counts(), [0, 1, 0, 36, 0, 1, 1, 1]);
    let numbers = (&round).into_iter().map(|(line, it)| (line, it.number()));
    assert_eq!(
        numbers.collect::<Vec<_>>(),
        [(1, 2), (5, 2), (6, 5), (7, 2)]
    );
    assert_eq!(station.round().counts(), [0; 8]);
}

#[test]
fn an_answer_on_the_64th_byte_ends_the_turn_in_this_round() {
    for idle in [62, 63] {
        let mut station = Station::new();
        station.open(2, Mode::Historic).unwrap();
        let mut bytes = vec![IDLE; idle];
        bytes.extend([STX, ETX, STX, ETX]);
        station.deliver(2, &bytes).unwrap();
        let round = station.round();
        assert_eq!(round.counts()[2], 64);
        let sound = Some(Answer::Told(Notice::FrameSound));
        if idle == 62 {
            assert_eq!(round.answer(2), sound);
        } else {
            // ETX is the 65th, which the next turn takes.
            assert_eq!(round.answer(2), None);
            let round = station.round();
            assert_eq!((round.counts()[2], round.answer(2)), (1, sound));
        }
        let round = station.round();
        assert_eq!((round.counts()[2], round.answer(2)), (2, sound));
    }
    // A group whose CR is the 64th byte, and whose LF came in the turn before.
    let mut station = Station::new();
    station.open(2, Mode::Standard).unwrap();
    let mut bytes = vec![IDLE; 64 + 64 - 14];
    bytes.extend(frame(&[P1]));
    station.deliver(2, &bytes).unwrap();
    let round = station.round();
    assert_eq!((round.counts()[2], round.answer(2)), (64, None));
    let round = station.round();
    assert_eq!(round.counts()[2], 64);
    assert_eq!(round.answer(2).unwrap().to_string(), "1 URMS1 - 230");
}

#[test]
fn eight_long_entries_stand_on_one_sheet() {
    // 6 bytes, and 8 and 98 characters: an entry of 112 bytes, so that most offsets need their high byte.
    let mut station = Station::new();
    let data: Vec<Vec<u8>> = (0..8).map(|line| vec![b'a' + line; 98]).collect();
    for line in 0..8 {
        station.open(line, Mode::Standard).unwrap();
        let group =
            espandim::write(Mode::Standard, b"PJOURF+1", b"", &data[line as usize]).unwrap();
        station.deliver(line, &[STX]).unwrap();
        station.deliver(line, group.as_bytes()).unwrap();
    }
    assert_eq!(station.round().counts(), [64; 8]);
    let round = station.round();
    assert_eq!(round.counts(), [48; 8]);
    let mut lines = 0;
    for (line, answer) in &round {
        assert_eq!(line, lines);
        let expected = Answer::Accepted {
            label: b"PJOURF+1",
            stamp: b"",
            data: &data[line as usize],
        };
        assert_eq!(answer, expected);
        lines += 1;
    }
    assert_eq!(lines, 8);
}

#[test]
fn a_lines_answers_do_not_depend_on_other_lines() {
    // Line 4 alone, and line 4 among seven that are full of noise: the same in each round.
    let mut alone = Station::new();
    let mut among = Station::new();
    let noise: Vec<u8> = (0..=255).map(|byte: u8| byte.wrapping_mul(37)).collect();
    for line in 0..8 {
        among.open(line, Mode::Standard).unwrap();
        if line != 4 {
            among.deliver(line, &noise).unwrap();
        }
    }
    alone.open(4, Mode::Standard).unwrap();
    let mut answers = Vec::new();
    for piece in frame(&[P1, b"URMS1\t230\t6", P1]).chunks(20) {
        assert_eq!(alone.deliver(4, piece), among.deliver(4, piece));
        for _ in 0..3 {
            let (one, other) = (alone.round(), among.round());
            assert_eq!(one.answer(4), other.answer(4));
            assert_eq!(one.counts()[4], other.counts()[4]);
            answers.extend(one.answer(4).map(|answer| answer.number()));
        }
    }
    assert_eq!(answers, [1, 10, 1, 3]);
}

#[test]
fn two_stations_are_used_at_the_same_time() {
    let threads: Vec<_> = (0..2)
        .map(|line| {
            std::thread::spawn(move || {
                let mut station = Station::new();
                station.open(line, Mode::Standard).unwrap();
                station.deliver(line, &frame(&[P1])).unwrap();
                let text = station.round().answer(line).unwrap().to_string();
                (station, text)
            })
        })
        .collect();
    for (line, thread) in (0..).zip(threads) {
        let (mut station, text) = thread.join().unwrap();
        assert_eq!(text, "1 URMS1 - 230");
        let answer = Some(Answer::Told(Notice::FrameSound));
        assert_eq!(station.round().answer(line), answer);
    }
}
