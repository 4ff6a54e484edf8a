//! The modes and their lists of labels (document 01, "One group"; document 02,
//! M-100), and the seasons of a stamp (also document 02, M-101).
//!
//! The lists of modes 0 and 1 are held as the very sentences of document 01 and
//! expanded when they are first asked for; `business.rs` has that of mode 2.

use crate::business;
use crate::formats::{run, Field, Format, Kind};
use crate::wire::{HORIZONTAL_TAB, SPACE};
use std::sync::OnceLock;

/// "Mode 0 is historic, separator SP. Mode 1 is standard, separator HT." By
/// document 02, M-100, the older business meter is mode 2.
#[derive(Clone, Copy, Debug, PartialEq, Eq, PartialOrd, Ord)]
pub enum Mode {
    Historic,
    Standard,
    Business,
}

/// All modes.
pub const MODES: [Mode; 3] = [Mode::Historic, Mode::Standard, Mode::Business];

impl Mode {
    /// The mode of a number; none for 19, which "now means a mode not 0 to 2".
    pub fn from_number(number: u8) -> Option<Mode> {
        MODES.into_iter().find(|mode| mode.number() == number)
    }

    /// The number of the mode.
    pub fn number(self) -> u8 {
        match self {
            Mode::Historic => 0,
            Mode::Standard => 1,
            Mode::Business => 2,
        }
    }

    /// The mode of a capture that begins with this byte; none for 20, "a
    /// capture not begun by H, S or P".
    pub fn from_letter(letter: u8) -> Option<Mode> {
        MODES.into_iter().find(|mode| mode.letter() == letter)
    }

    /// The byte that begins a capture of the mode.
    pub fn letter(self) -> u8 {
        match self {
            Mode::Historic => b'H',
            Mode::Standard => b'S',
            Mode::Business => b'P',
        }
    }

    /// The separator of the mode. Document 003, 2.9.1, for the business meter:
    /// "tous les caractères-séparateurs ... ont une valeur identique égale au
    /// caractère ASCII « espace »".
    pub fn separator(self) -> u8 {
        match self {
            Mode::Historic | Mode::Business => SPACE,
            Mode::Standard => HORIZONTAL_TAB,
        }
    }

    /// The separator that is not the mode's.
    pub fn wrong_separator(self) -> u8 {
        match self.separator() {
            SPACE => HORIZONTAL_TAB,
            _ => SPACE,
        }
    }

    /// "Historic: the sum runs from the first character through the last of the
    /// data, so the final separator is not counted. Standard: it is counted
    /// too." Document 003, 2.9.1: the business meter sums by "mode de calcul
    /// n°1", which is (1.5.2) "en excluant tout caractère placé après la fin du
    /// champ « donnée » (caractère-séparateur, ...)".
    pub fn sums_final_separator(self) -> bool {
        match self {
            Mode::Historic | Mode::Business => false,
            Mode::Standard => true,
        }
    }
}

/// Document 01: "The season is H or E; for DPM1 to DPM3 and FPM1 to FPM3 it is
/// SP and nothing else." Document 02, M-101, adds h and e to the letters.
#[derive(Clone, Copy, Debug, PartialEq, Eq)]
pub enum Season {
    WinterOrSummer,
    SpaceOnly,
}

/// "h and e mean winter and summer time from a clock in degraded mode."
pub const SMALL_SEASONS: [u8; 2] = *b"he";

impl Season {
    /// The characters that are right. The small ones "are right wherever H and
    /// E are right, in reader and writer, and stay wrong for DPM and FPM".
    pub fn characters(self) -> &'static [u8] {
        match self {
            Season::WinterOrSummer => b"HEhe",
            Season::SpaceOnly => &[SPACE],
        }
    }
}

/// "The rule for each label is read from" the table: this is one rule.
#[derive(Clone, Debug, PartialEq, Eq)]
pub struct Rule {
    pub label: String,
    pub format: Format,
    /// "The label's row gives the smallest and largest length" (M-100), over
    /// all alternatives of the format. With a single width both are that.
    pub shortest: usize,
    pub longest: usize,
    /// The alternatives of the format, each without a choice left in it.
    pub alternatives: Vec<Vec<Field>>,
    /// The season rule of a stamped label; none for an unstamped one.
    pub stamp: Option<Season>,
}

impl Rule {
    pub fn new(label: String, format: Format, stamp: Option<Season>) -> Rule {
        let lengths = format.lengths();
        Rule {
            label,
            shortest: *lengths.first().expect("some data fit"),
            longest: *lengths.last().expect("some data fit"),
            alternatives: format.alternatives(),
            format,
            stamp,
        }
    }

    /// Whether the format has a length between its shortest and its longest
    /// that no fitting data have.
    pub fn has_gap(&self) -> bool {
        self.format.lengths().len() < self.longest - self.shortest + 1
    }
}

/// The list of standard mode, as document 01 writes it.
const STANDARD_SENTENCE: &str = "Standard mode, 71 labels: \
ADSC T12; VTIC T2; DATE* T0; NGTF, LTARF T16; \
EAST, EAIT, EASF01 to EASF10, EASD01 to EASD04, ERQ1 to ERQ4 N9; \
IRMS1 to IRMS3, URMS1 to URMS3 N3; PREF, PCOUP N2; \
SINSTS, SINSTS1 to SINSTS3, SINSTI N5; \
SMAXSN*, SMAXSN1* to SMAXSN3*, SMAXSN-1*, SMAXSN1-1* to SMAXSN3-1*, SMAXIN*, SMAXIN-1* N5; \
CCASN*, CCASN-1*, CCAIN*, CCAIN-1* N5; UMOY1* to UMOY3* N3; STGE X8; \
DPM1* to DPM3*, FPM1* to FPM3* N2; MSG1 T32; MSG2 T16; PRM T14; RELAIS N3; \
NTARF, NJOURF, NJOURF+1 N2; PJOURF+1, PPOINTE T98";

/// The list of historic mode, as document 01 writes it.
const HISTORIC_SENTENCE: &str = "Historic mode, 34 labels: \
ADCO T12; OPTARIF, PTEC, DEMAIN T4; ISOUSC, PEJP N2; \
BASE, HCHC, HCHP, EJPHN, EJPHPM, BBRHCJB, BBRHPJB, BBRHCJW, BBRHPJW, BBRHCJR, BBRHPJR N9; \
IINST, IINST1 to IINST3, ADPS, ADIR1 to ADIR3, IMAX, IMAX1 to IMAX3 N3; PAPP, PMAX N5; \
HHPHC T1; MOTDETAT T6; PPOT T2";

/// The sentence of document 01 for a mode: how many labels it says that there
/// are, and its list of them. It has none for the business meter.
fn sentence_of(mode: Mode) -> Option<(usize, &'static str)> {
    let sentence = match mode {
        Mode::Standard => STANDARD_SENTENCE,
        Mode::Historic => HISTORIC_SENTENCE,
        Mode::Business => return None,
    };
    let (heading, list) = sentence.split_once(": ").expect("a heading and a list");
    let count = heading.split(' ').find_map(|word| word.parse().ok());
    Some((count.expect("the heading has a number"), list))
}

/// How many labels document 01 says that a mode has, if it speaks of the mode.
pub fn labels_said(mode: Mode) -> Option<usize> {
    sentence_of(mode).map(|(count, _)| count)
}

/// All rules of a mode, in the order in which its document has them.
pub fn all_rules(mode: Mode) -> &'static [Rule] {
    static STANDARD: OnceLock<Vec<Rule>> = OnceLock::new();
    static HISTORIC: OnceLock<Vec<Rule>> = OnceLock::new();
    static BUSINESS: OnceLock<Vec<Rule>> = OnceLock::new();
    let place = match mode {
        Mode::Standard => &STANDARD,
        Mode::Historic => &HISTORIC,
        Mode::Business => &BUSINESS,
    };
    place.get_or_init(|| match sentence_of(mode) {
        Some((_, list)) => expand_list(list),
        None => business::rules(),
    })
}

/// The rule of a label in a mode, if the label is in the mode's list.
pub fn find_rule(mode: Mode, label: &[u8]) -> Option<&'static Rule> {
    all_rules(mode)
        .iter()
        .find(|rule| rule.label.as_bytes() == label)
}

/// The rules of the stamped labels; all of them are of standard mode.
pub fn stamped_rules() -> Vec<&'static Rule> {
    all_rules(Mode::Standard)
        .iter()
        .filter(|rule| rule.stamp.is_some())
        .collect()
}

/// Expands a list: stretches parted by semicolons, each a row of labels and
/// at its end the kind and width that all of them have.
fn expand_list(list: &str) -> Vec<Rule> {
    let mut rules = Vec::new();
    for stretch in list.split(';') {
        let (labels, form) = stretch
            .trim()
            .rsplit_once(' ')
            .expect("each stretch ends in a kind and a width");
        let kind = match &form[..1] {
            "N" => Kind::Decimal,
            "X" => Kind::Hexadecimal,
            "T" => Kind::Text,
            other => panic!("no kind has the letter {other}"),
        };
        let width: usize = form[1..].parse().expect("a width is a number");
        for item in labels.split(',') {
            // "Marked * is stamped."
            let stamped = item.contains('*');
            for label in expand_item(&item.replace('*', "")) {
                let stamp = if !stamped {
                    None
                } else if label.starts_with("DPM") || label.starts_with("FPM") {
                    Some(Season::SpaceOnly)
                } else {
                    Some(Season::WinterOrSummer)
                };
                rules.push(Rule::new(label, run(kind, width, width), stamp));
            }
        }
    }
    rules
}

/// "EASF01 to EASF10" stands for ten labels, "PREF" for itself.
fn expand_item(item: &str) -> Vec<String> {
    let Some((first, last)) = item.trim().split_once(" to ") else {
        return vec![item.trim().to_string()];
    };
    assert_eq!(first.len(), last.len(), "{item}");
    let differing: Vec<usize> = (0..first.len())
        .filter(|place| first.as_bytes()[*place] != last.as_bytes()[*place])
        .collect();
    let begin = differing[0];
    let end = differing[differing.len() - 1] + 1;
    let from: usize = first[begin..end].parse().expect("a number in the label");
    let through: usize = last[begin..end].parse().expect("a number in the label");
    (from..=through)
        .map(|number| {
            let digits = format!("{number:0>width$}", width = end - begin);
            format!("{}{}{}", &first[..begin], digits, &first[end..])
        })
        .collect()
}
