//! Tests of document 02, M-113, "Back on its feet after noise": what a line
//! answers behind an STX, whatever came before it.

use super::*;
use crate::compare::Difference;
use crate::pasts::{pasts_of, places_of_sound_starts, Past, PASTS};
use crate::recovery::{
    find_parting, lines_agree, listings_agree, plain_history, taken_by_both, CutCapture,
    LineAnswer, Pair, Period, Replayed, Stream,
};
use crate::recovery_tally::BEHIND;

const STX: u8 = 0x82;
const DAMAGED_STX: u8 = 0x02;
const ETX: u8 = 0x03;
const EOT: u8 = 0x84;
const LF: u8 = 0x0A;
const CR: u8 = 0x8D;
const A: u8 = 0x41;
const DAMAGED: u8 = 0x01;

/// A right group of each mode: P3 and P1 of document 01, and one of document 003.
fn right_group(mode: Mode) -> Vec<u8> {
    match mode {
        Mode::Historic => group_on_wire(b"PAPP 00750 -"),
        Mode::Standard => group_on_wire(b"URMS1\t230\t?"),
        Mode::Business => group_on_wire(b"PS 36kVA N"),
    }
}

/// What came before an STX, whether a frame was open then, and what `pasts_of` is
/// to say of it.
fn fronts(mode: Mode) -> Vec<(Vec<u8>, bool, Vec<Past>)> {
    let right = right_group(mode);
    let overlong = [&[STX, LF], &[A; 129][..]].concat();
    let both = [&overlong[..], &[DAMAGED]].concat();
    let in_second = [&[STX], &right[..], &right[..right.len() - 1]].concat();
    let group_lost = [&[STX], &right[..], &[ETX], &right[..5]].concat();
    vec![
        (vec![], false, vec![Past::NoFrameYet]),
        (vec![A, LF, A, CR, DAMAGED], false, vec![Past::NoFrameYet]),
        (vec![DAMAGED_STX, LF, A], false, vec![Past::NoFrameYet]),
        (vec![STX, ETX], false, vec![Past::AfterEnd]),
        (vec![STX, LF, A, ETX, LF, A], false, vec![Past::AfterEnd]),
        (group_lost, false, vec![Past::AfterEnd]),
        (vec![STX, A, EOT], false, vec![Past::AfterInterruption]),
        (vec![STX], true, vec![Past::Frame]),
        ([&[STX], &right[..]].concat(), true, vec![Past::Frame]),
        (vec![STX, A], true, vec![Past::FlawedFrame]),
        (vec![STX, DAMAGED], true, vec![Past::FlawedFrame]),
        (vec![STX, LF, CR], true, vec![Past::FlawedFrame]),
        (vec![STX, DAMAGED_STX], true, vec![Past::FlawedFrame]),
        (vec![STX, LF], true, vec![Past::EmptyGroup]),
        (vec![STX, LF, A, A], true, vec![Past::GroupWithContent]),
        (in_second, true, vec![Past::GroupWithContent]),
        (
            [&[STX, LF], &[A; 128][..]].concat(),
            true,
            vec![Past::GroupWithContent],
        ),
        (vec![STX, LF, A, DAMAGED], true, vec![Past::DamagedGroup]),
        (vec![STX, LF, DAMAGED_STX], true, vec![Past::DamagedGroup]),
        (overlong, true, vec![Past::OverlongGroup]),
        (both, true, vec![Past::DamagedGroup, Past::OverlongGroup]),
        (
            vec![STX, A, LF],
            true,
            vec![Past::EmptyGroup, Past::GroupOfFlawedFrame],
        ),
        (
            vec![STX, LF, A, LF, A],
            true,
            vec![Past::GroupWithContent, Past::GroupOfFlawedFrame],
        ),
        // A false STX, in a group and in what is no frame.
        (
            vec![STX, LF, A, STX, A, CR],
            true,
            vec![Past::FlawedFrame, Past::FrameBegunAgain],
        ),
        (
            vec![0x55, STX, 0x17, LF, DAMAGED, 0x55, STX, LF, 0x17, DAMAGED],
            true,
            vec![Past::DamagedGroup, Past::FrameBegunAgain],
        ),
        (
            vec![0x17, STX, 0x55, DAMAGED],
            true,
            vec![Past::FlawedFrame],
        ),
    ]
}

/// What may come from the STX on, without it, and the answers to it.
fn tails(mode: Mode) -> Vec<(Vec<u8>, Vec<u8>)> {
    let right = right_group(mode);
    let without_line_feed = [&right[1..], &[ETX]].concat();
    vec![
        // "STX then ETX alone is a sound frame."
        (vec![ETX], vec![2]),
        (vec![EOT, ETX], vec![4]),
        (vec![A, ETX], vec![3]),
        ([&right[..], &[ETX]].concat(), vec![1, 2]),
        ([&right[..], &right, &[LF, ETX]].concat(), vec![1, 1, 3]),
        // Bytes that only a group that is still open would take.
        (vec![CR, ETX], vec![3]),
        (without_line_feed, vec![3]),
        // A new group is empty, and neither damaged nor too long.
        (vec![LF, CR, ETX], vec![9, 3]),
        (vec![LF, A, LF, CR, STX, ETX], vec![6, 9, 5, 2]),
        ([&[LF], &[A; 128][..], &[CR, EOT]].concat(), vec![9, 4]),
        ([&[LF], &[A; 129][..], &[CR, EOT]].concat(), vec![8, 4]),
        (vec![LF, DAMAGED, CR, EOT], vec![7, 4]),
    ]
}

/// "From the byte after that STX, every answer is the one a freshly opened line of
/// the same mode gives when fed from the same STX, whatever went before. The
/// answer at the STX itself may differ, being 5 or none."
#[test]
fn m_113_behind_a_start_as_if_freshly_opened() {
    for mode in MODES {
        for (front, open, pasts) in fronts(mode) {
            assert_eq!(pasts_of(mode, &front), pasts, "{front:?}");
            for (tail, expected) in tails(mode) {
                let wire = [&front[..], &[STX], &tail].concat();
                let whole = read_whole(mode, &wire);
                let mut line = Line::new(mode);
                let fed: Vec<PlacedAnswer> =
                    wire.chunks(1).flat_map(|one| line.feed(one)).collect();
                assert_eq!(fed, whole);
                let at = whole.iter().find(|one| one.place == front.len());
                let at = at.map(|one| one.answer.number());
                assert_eq!(at, open.then_some(5), "{front:?}");
                let behind: Vec<u8> = whole
                    .iter()
                    .filter(|one| one.place > front.len())
                    .map(|one| one.answer.number())
                    .collect();
                assert_eq!(behind, expected, "{front:?} {tail:?}");
                let fresh = read_whole(mode, &[&[STX], &tail[..]].concat());
                let fresh: Vec<(usize, &Answer)> =
                    fresh.iter().map(|one| (one.place, &one.answer)).collect();
                let behind: Vec<(usize, &Answer)> = whole
                    .iter()
                    .filter(|one| one.place > front.len())
                    .map(|one| (one.place - front.len(), &one.answer))
                    .collect();
                assert_eq!(behind, fresh, "{front:?} {tail:?}");
            }
        }
    }
}

/// "And so may frame numbers."
#[test]
fn m_113_frame_numbers_differ() {
    let numbered = |wire: &[u8]| -> Vec<(u8, u16)> {
        read_whole(Mode::Standard, wire)
            .iter()
            .map(|placed| (placed.answer.number(), placed.frame))
            .collect()
    };
    let tail = [STX, LF, CR, ETX, STX, EOT];
    assert_eq!(numbered(&tail), [(9, 1), (3, 1), (4, 2)]);
    let after_noise = [&[STX, ETX, STX, LF, A], &tail[..]].concat();
    assert_eq!(
        numbered(&after_noise),
        [(2, 1), (5, 3), (9, 3), (3, 3), (4, 4)]
    );
}

/// "The bytes may themselves hold STX": it holds after every sound one of them.
#[test]
fn m_113_at_every_start_of_noise() {
    for index in 0..300 {
        let mut generator = Generator::new(Dice::for_item(113, 1, index));
        let mode = generator.mode();
        let wire = generator.noisy_traffic(mode);
        let whole = read_whole(mode, &wire);
        for start in places_of_sound_starts(&wire) {
            let behind = whole.iter().filter(|one| one.place > start);
            let behind: Vec<(usize, &Answer)> =
                behind.map(|one| (one.place - start, &one.answer)).collect();
            let fresh = read_whole(mode, &wire[start..]);
            let fresh: Vec<(usize, &Answer)> =
                fresh.iter().map(|one| (one.place, &one.answer)).collect();
            assert_eq!(behind, fresh);
        }
    }
}

/// What a replay shows of the first line of a history.
fn first_period(items: &[Item]) -> Period {
    let periods = Replayed::by_this_reader(items).periods();
    periods.expect("it can be read").remove(0)
}

fn numbers_in(period: &Period) -> Vec<(usize, u8)> {
    let answers = period.answers.iter();
    answers.map(|one| (one.at, one.number)).collect()
}

/// The calls that open line 5 and deliver and take bytes in pieces of this length,
/// with so many rounds behind each.
fn history_by_pieces(mode: Mode, wire: &[u8], length: usize, rounds: usize) -> Vec<Item> {
    let line = 5;
    let mut calls = vec![Call::Open {
        line,
        mode: mode.number(),
    }];
    for piece in wire.chunks(length) {
        calls.push(Call::Deliver {
            line,
            bytes: piece.to_vec(),
        });
        calls.extend(vec![
            Call::Round {
                size: 1096,
                fill: 9
            };
            rounds
        ]);
    }
    calls.into_iter().map(Item::Call).collect()
}

/// "And for the station, comparing answers in order, not round by round": however
/// deliveries and rounds fall, and with fewer bytes taken a beginning.
#[test]
fn m_113_on_a_station() {
    for mode in MODES {
        for (front, open, _) in fronts(mode) {
            for (tail, expected) in tails(mode) {
                let start = front.len();
                let wire = [&front[..], &[STX], &tail].concat();
                let whole = first_period(&history_by_pieces(mode, &wire, 200, 9));
                assert_eq!(whole.taken, wire.len());
                let behind = whole.answers_behind(start, tail.len());
                let behind: Vec<u8> = behind.iter().map(|one| one.number).collect();
                assert_eq!(behind, expected);
                let at_start = numbers_in(&whole).contains(&(start, 5));
                assert_eq!(at_start, open);
                for (length, rounds) in [(1, 1), (7, 2), (256, 0), (256, 1), (256, 2)] {
                    let fresh = history_by_pieces(mode, &wire[start..], length, rounds);
                    let fresh = first_period(&fresh);
                    assert!(lines_agree(&whole, start, &fresh), "{front:?} {tail:?}");
                }
            }
        }
    }
}

/// A line that answers otherwise behind the STX is found out, and one that only has
/// other frame numbers, turns or an answer 5 is not.
#[test]
fn m_113_lines_that_do_not_agree() {
    let mode = Mode::Standard;
    let tail = [&[STX], &right_group(mode)[..], &[LF, CR, ETX]].concat();
    let front = [STX, ETX, STX, LF, A];
    let wire = [&front[..], &tail].concat();
    let whole = first_period(&history_by_pieces(mode, &wire, 200, 9));
    let fresh = first_period(&history_by_pieces(mode, &tail, 3, 2));
    // The ETX; the STX; the group, its CR the 14th byte behind; LF and CR; the ETX.
    let after = [(5, 5), (18, 1), (20, 9), (21, 3)];
    assert_eq!(numbers_in(&whole), [&[(1, 2)], &after[..]].concat());
    assert_eq!(numbers_in(&fresh), [(13, 1), (15, 9), (16, 3)]);
    assert!(lines_agree(&whole, 5, &fresh));
    // Lines that were fed other bytes are not compared, nor from another STX on.
    assert_eq!(taken_by_both(&whole, 5, &fresh), 16);
    assert_eq!(taken_by_both(&whole, 4, &fresh), 0);
    assert_eq!(taken_by_both(&whole, 2, &fresh), 1);
    type Change = fn(&mut Period);
    let changes: [Change; 5] = [
        |one| one.answers[2].number = 2,
        |one| one.answers[2].at -= 1,
        |one| one.answers[0].texts[2] = b"231".to_vec(),
        |one| one.answers[1].place = 1,
        |one| drop(one.answers.remove(0)),
    ];
    for change in changes {
        let mut other = fresh.clone();
        change(&mut other);
        assert!(!lines_agree(&whole, 5, &other));
        // Of bytes that were not taken nothing is asked.
        other.taken = 1;
        assert!(lines_agree(&whole, 5, &other));
    }
    let mut other = fresh.clone();
    other.answers.insert(
        0,
        LineAnswer {
            at: 0,
            number: 5,
            ..fresh.answers[1].clone()
        },
    );
    assert!(lines_agree(&whole, 5, &other));
}

/// The same for what a program prints, a frame number of 513 among it.
#[test]
fn m_113_histories_that_do_not_agree() {
    let stream = |wire: &[u8]| Stream {
        line: 0,
        mode: Mode::Historic,
        wire: wire.to_vec(),
    };
    let [first, second] = [&[STX, A, STX, ETX][..], &[STX, ETX]]
        .map(|wire| Replayed::by_this_reader(&plain_history(&stream(wire))));
    let pair = Pair {
        opened_by: 0,
        start: 2,
        fresh_by: 0,
    };
    let parts = |printed: &str| {
        let second = second.with_output(printed.into());
        find_parting(&[pair], &first, &second).is_some()
    };
    let printed = String::from_utf8(second.output.clone()).expect("text");
    assert!(!parts(&printed));
    let sound = "020000000100";
    assert!(printed.contains(sound));
    assert!(!parts(&printed.replace(sound, "020000000102")));
    assert!(parts(&printed.replace(sound, "030000000100")));
    // Lines that are missing, an offset behind the sheet, and no sheet at all.
    assert!(parts("O 0\n"));
    assert!(parts(""));
    assert!(parts(&printed.replace("1800", "ff7f")));
    assert!(parts("O 0\nD 0\nR 0 2 0 0 0 0 0 0 0 -\n"));
}

#[test]
fn m_113_listings_that_do_not_agree() {
    let capture = [&b"S"[..], &[STX, A, STX, ETX, STX, EOT]].concat();
    let cut = CutCapture::at(&capture, 2);
    assert_eq!(cut.front, [b'S', STX, A, STX]);
    assert_eq!(cut.fresh, [b'S', STX, ETX, STX, EOT]);
    let [whole, front, fresh] = [&capture, &cut.front, &cut.fresh].map(|one| listing(one));
    assert_eq!([&whole[..], &front, &fresh], ["5\n2\n4\n", "5\n", "2\n4\n"]);
    let agree = |whole: &str, front: &str, fresh: &str, at_start: &str| {
        let [whole, front, fresh, at_start] =
            [whole, front, fresh, at_start].map(|text| text.as_bytes());
        listings_agree(whole, front, fresh, at_start)
    };
    assert!(agree(&whole, &front, &fresh, ""));
    // "The answer at the STX itself may differ."
    assert!(agree("2\n4\n", "", &fresh, ""));
    assert!(agree(&whole, &front, "5\n2\n4\n", "5\n"));
    assert!(!agree("5\n3\n4\n", &front, &fresh, ""));
    assert!(!agree("5\n2\n", &front, &fresh, ""));
    assert!(!agree(&whole, "4\n", &fresh, ""));
    assert!(!agree(&whole, &front, "2\n", ""));
}

/// A program is held against itself, so one that prints its input agrees with
/// itself, and one that counts it does not, whatever this reader says.
#[test]
fn m_113_programs_held_against_themselves() {
    let settings = |listing: Option<&str>, replay: Option<&str>| Settings {
        seed: 1,
        count: 60,
        listing_program: listing.map(str::to_string),
        replay_program: replay.map(str::to_string),
        only_recovery: true,
    };
    let found_by = |settings: &Settings| go_through(settings).1.map(|(_, difference)| difference);
    assert!(found_by(&settings(Some("cat"), None)).is_none());
    let found = found_by(&settings(Some("wc -c"), None));
    assert!(matches!(found, Some(Difference::BehindStart(_, _))));
    let found = found_by(&settings(None, Some("cat")));
    assert!(matches!(found, Some(Difference::OnPair(_, _, _))));
}

/// What the gate compares, made without running a program: every kind of past, in
/// each mode, before an STX behind which a line answers, in captures and in
/// histories.
#[test]
fn m_113_pasts_in_what_the_gate_compares() {
    let tally = made_for_the_gate();
    for (behind, behind_name) in BEHIND {
        for mode in MODES {
            for (past, name) in PASTS {
                let times = tally.recovery.times_behind(behind, mode, past);
                assert!(times >= 5, "{behind_name} {mode:?} {name}: {times}");
            }
        }
    }
    let report = tally.report(2000, 200);
    assert!(report.contains("STX held against a freshly opened line: listing "));
}
