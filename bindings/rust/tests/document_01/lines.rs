//! "One line": each of the numbers 1 to 14, as a line tells them, with the places of document 02, M-104.

use crate::wire::{content, frame, group, listing, CR, EOT, ETX, LF, STX};
use espandim::{Mode, Notice};

const P1: &[u8] = b"URMS1\t230\t?";

#[test]
fn frames_end_unflawed_or_flawed() {
    assert_eq!(listing(Mode::Standard, &[STX, ETX]), ["2"]);
    // "Any other byte in a frame, CR included, sets the flaw", and the next STX clears it.
    assert_eq!(
        listing(Mode::Standard, &[STX, CR, ETX, STX, ETX]),
        ["3", "2"]
    );
    // "ETX .. From a group: 3"
    assert_eq!(listing(Mode::Standard, &[STX, LF, ETX]), ["3"]);
    // "From outside: nothing."
    assert!(listing(Mode::Standard, &[ETX, EOT, LF, CR]).is_empty());
}

#[test]
fn frames_are_interrupted_and_restarted() {
    assert_eq!(
        listing(Mode::Standard, &[STX, EOT, STX, LF, EOT]),
        ["4", "4"]
    );
    assert_eq!(
        listing(Mode::Standard, &[STX, STX, LF, STX, ETX]),
        ["5", "5", "2"]
    );
}

#[test]
fn groups_are_restarted_and_damaged() {
    let whole = group(P1);
    let restarted = [&[STX, LF][..], &whole, &[ETX]].concat();
    assert_eq!(
        listing(Mode::Standard, &restarted),
        ["6", "1 URMS1 - 230", "3"]
    );
    // A byte with the wrong parity in a group; a damaged LF in a frame is no LF, and flaws the frame.
    let mut damaged = whole.clone();
    damaged[3] ^= 0x80;
    let bytes = [&[STX][..], &damaged, &[ETX, STX, LF ^ 0x80, ETX]].concat();
    assert_eq!(listing(Mode::Standard, &bytes), ["7", "3", "3"]);
}

#[test]
fn a_refused_group_flaws_its_frame() {
    // Each content, made right but for the one thing, and what its line says of it.
    let standard = |label: &[u8], data: &[u8]| content(Mode::Standard, label, b"", data);
    let cases: [(Vec<u8>, &str); 8] = [
        (vec![b'A'; 129], "8"),
        (vec![b'A'; 128], "9"),
        (Vec::new(), "9"),
        (b"URMS1\t230\t6".to_vec(), "10"), // P2
        (standard(b"PAPP", b"00750"), "11"),
        (
            content(Mode::Standard, b"UMOY1", b"H090229000000", b"230"),
            "12 6",
        ), // P11
        (standard(b"URMS1", b"2X"), "13"),
        (standard(b"URMS1", b"2X0"), "14 7"),
    ];
    for (refused, said) in cases {
        let bytes = frame(&[&refused, P1]);
        assert_eq!(
            listing(Mode::Standard, &bytes),
            [said, "1 URMS1 - 230", "3"]
        );
    }
}

/// Document 02, M-100, with document 003's own example of a frame in the test mode (2.9.3 (W)).
#[test]
fn a_business_meters_frames() {
    let test = [
        &b"TRAME TEST 9"[..],
        b"ADS 000000000000 X",
        b"PTCOUR1 HPE +",
        b"PREAVIS DEP 3",
    ];
    // Spaces that belong to the data: between date and hour, behind a short name, around a question mark.
    let spaces = [
        &b"MESURES1 HTA 5      '"[..],
        b"DATE 25/12/08 22:35:18 7",
        b"PTCOUR1 P   ^",
        b"PREAVIS2 TD- ?  P",
    ];
    let expected = [
        "1 TRAME - TEST",
        "1 ADS - 000000000000",
        "1 PTCOUR1 - HPE",
        "1 PREAVIS - DEP",
        "2",
        "1 MESURES1 - HTA 5     ",
        "1 DATE - 25/12/08 22:35:18",
        "1 PTCOUR1 - P  ",
        "1 PREAVIS2 - TD- ? ",
        "2",
    ];
    let bytes = [frame(&test), frame(&spaces)].concat();
    assert_eq!(listing(Mode::Business, &bytes), expected);
}

#[test]
fn a_refused_group_flaws_a_business_meters_frame() {
    let business = |label: &[u8], data: &[u8]| content(Mode::Business, label, b"", data);
    let cases: [(Vec<u8>, &str); 8] = [
        (vec![b'A'; 129], "8"),
        (b"PREAVISDEP 3".to_vec(), "9"),
        (b"PREAVIS DEP S".to_vec(), "10"), // the final separator counted
        (business(b"PAPP", b"00750"), "11"),
        (business(b"PA1MN", b"123456kW"), "13"),
        (business(b"PA1_s", b"123456kW"), "14 11"),
        (business(b"TARIFDYN", b"NACTIF"), "14 9"),
        // What would be a stamp elsewhere is part of the data here.
        (business(b"PS", b"H081225223518 36kVA"), "13"),
    ];
    for (refused, said) in cases {
        let bytes = frame(&[&refused, b"PREAVIS DEP 3"]);
        assert_eq!(
            listing(Mode::Business, &bytes),
            [said, "1 PREAVIS - DEP", "3"]
        );
    }
}

#[test]
fn a_notice_has_one_of_the_numbers_2_to_7() {
    for number in 0..300 {
        let notice = Notice::from_number(number);
        let expected = (2..=7).contains(&number).then_some(number);
        assert_eq!(notice.map(Notice::number), expected);
    }
}
