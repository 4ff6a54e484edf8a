//! "Numbers": what they mean, in words that the header, the README and this crate share.

use espandim::{words, Fault, Mode, Notice, Refusal};

const HEADER: &str = include_str!("../../../../include/espandim.h");
const README: &str = include_str!("../../../../README.md");

/// The strings of `espandim_words`, in the order of their numbers; the last is for all other numbers.
fn words_of_the_header() -> Vec<&'static str> {
    let (_, from) = HEADER.split_once("*espandim_words(").unwrap();
    let (table, _) = from.split_once("};").unwrap();
    let strings = table.lines().filter_map(|line| {
        let line = line.trim().strip_prefix('"')?;
        Some(line.strip_suffix("\",").unwrap())
    });
    strings.collect()
}

#[test]
fn each_number_of_the_table_has_the_words_that_the_header_has() {
    let header = words_of_the_header();
    assert_eq!(header.len(), 22);
    for (number, expected) in (0..=20).zip(header) {
        assert_eq!(words(number), Some(expected));
    }
    for number in [21, 22, 255, 256, 1 << 20, u32::MAX] {
        assert_eq!(words(number), None);
    }
}

/// In the rows of its tables, which may say 2 and 3 together.
#[test]
fn each_number_of_the_table_has_the_words_that_the_readme_has() {
    let readme = README.replace(
        "frame ended, unflawed or flawed",
        "frame ended, unflawed; frame ended, flawed",
    );
    for number in 0..=20 {
        let words = words(number).unwrap();
        let mut rows = readme.lines().filter(|line| line.starts_with('|'));
        assert!(rows.any(|row| row.contains(words)), "{number}: {words}");
    }
}

/// The words that document 01's own sentences have, where these tell a number from those beside it.
#[test]
fn words_are_those_of_their_numbers() {
    let telling = [
        (0, "not refused"),
        (1, "accepted"),
        (2, "unflawed"),
        (3, ", flawed"),
        (4, "EOT"),
        (5, "STX"),
        (6, "LF"),
        (7, "damaged"),
        (8, "128"),
        (9, "separators"),
        (10, "check character"),
        (11, "label"),
        (12, "stamp"),
        (13, "width"),
        (14, "kind"),
        (15, "too short"),
        (16, "8 or more"),
        (17, "closed"),
        (18, "1,096"),
        (19, "mode not 0 to 2"),
        (20, "H, S or P"),
    ];
    for (number, part) in telling {
        assert!(words(number).unwrap().contains(part), "{number}: {part}");
    }
}

#[test]
fn notices_and_refusals_say_their_words_and_their_number() {
    for number in 0..300 {
        let expected = || format!("{} ({number})", words(number).unwrap());
        if let Some(notice) = Notice::from_number(number) {
            assert_eq!(notice.to_string(), expected());
        }
        if let Some(refusal) = Refusal::from_number(number) {
            assert_eq!(refusal.to_string(), expected());
        }
    }
    let (notice, refusal) = (Notice::FrameFlawed, Refusal::LineUnknown);
    assert_eq!(notice.to_string(), "frame ended, flawed (3)");
    assert_eq!(refusal.to_string(), "line number 8 or more (16)");
}

#[test]
fn a_fault_says_its_refusal_and_its_place() {
    for number in 8..=19 {
        let refusal = Refusal::from_number(number).unwrap();
        let fault = |place| Fault { refusal, place };
        assert_eq!(fault(None).number(), number);
        assert_eq!(fault(None).to_string(), refusal.to_string());
        assert_eq!(
            fault(Some(125)).to_string(),
            format!("{refusal}, place 125")
        );
        // Whoever asks only why leaves the place behind by `?`.
        let why = || -> Result<(), Refusal> { Ok(Err(fault(Some(5)))?) };
        assert_eq!(why(), Err(refusal));
    }
    let said: Box<dyn std::error::Error> = Box::new(Fault {
        refusal: Refusal::StampWrong,
        place: Some(5),
    });
    assert_eq!(said.to_string(), "stamp not right (12), place 5");
}

#[test]
fn a_mode_has_one_of_the_numbers_0_to_2() {
    assert_eq!(Mode::from_number(0), Some(Mode::Historic));
    assert_eq!(Mode::from_number(1), Some(Mode::Standard));
    assert_eq!(Mode::from_number(2), Some(Mode::Business));
    for number in [0, 1, 2, 3, 4, 255, 256, 257, 258, u32::MAX] {
        let mode = Mode::from_number(number);
        let expected = (number < 3).then_some(number);
        assert_eq!(mode.map(Mode::number), expected);
        assert_eq!(Mode::try_from(number), mode.ok_or(Refusal::ModeUnknown));
    }
}
