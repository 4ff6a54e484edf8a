//! Data that go wrong somewhere. Document 02, M-104: the place of 14 is "the
//! first wrong data character (mode 2: the first that no fitting data of that
//! length have there after the same beginning)".

use crate::drafts::{Draft, Generator, Spoiling};
use crate::formats::Format;
use crate::table::{all_rules, Mode, Rule};

/// How data go wrong: each of these is a chance to tell another place.
#[derive(Clone, Copy, Debug, PartialEq, Eq, PartialOrd, Ord)]
pub enum Way {
    /// The first character is wrong.
    AtFirst,
    /// All but the last are right.
    AtLast,
    /// It is neither the first nor the last.
    Between,
    /// Behind it stands one more that is wrong wherever the data begin.
    Again,
    /// Some data of that length have each character at its place, but none have
    /// them all, as 36kVW.
    TogetherOnly,
    /// The first alternative of that length goes wrong sooner than another.
    FirstIsSooner,
    /// The last alternative of that length goes wrong sooner than another.
    LastIsSooner,
    /// Data of another length have this very character after the same beginning,
    /// as CONSO for CONS.
    OtherLength,
    /// No fitting data have the length.
    NoLength,
    /// The data stand behind a stamp.
    BehindStamp,
    /// The place is 100 or more.
    HundredOrMore,
}

/// All ways, and what the closing report calls them.
pub const WAYS: [(Way, &str); 11] = [
    (Way::AtFirst, "at the first character"),
    (Way::AtLast, "at the last character"),
    (Way::Between, "between them"),
    (Way::Again, "and once more behind it"),
    (Way::TogetherOnly, "each character right by itself"),
    (Way::FirstIsSooner, "the first alternative sooner"),
    (Way::LastIsSooner, "the last alternative sooner"),
    (Way::OtherLength, "right so far with another length"),
    (Way::NoLength, "of a length that none have"),
    (Way::BehindStamp, "behind a stamp"),
    (Way::HundredOrMore, "at a place of 100 or more"),
];

/// The ways in which data went wrong that were refused as 14, with this place in
/// the content.
pub fn ways_of(rule: &Rule, data: &[u8], place: usize) -> Vec<Way> {
    let has_length = has_length(&rule.format, data);
    let wrong = rule.format.first_wrong(data).expect("refused as 14");
    let last = data.len() - 1;
    let in_alternatives = places_in_alternatives(rule, data);
    let sooner = |place: Option<&usize>| place.is_some_and(|place| *place < wrong);
    let right_by_itself = |place: usize| rule.format.fits_where(data, |one| one == place);
    let holds = |way: Way| match way {
        Way::NoLength => !has_length,
        Way::BehindStamp => rule.stamp.is_some(),
        Way::HundredOrMore => place >= 100,
        // The others are about data that fitting ones have the length of.
        _ if !has_length => false,
        Way::AtFirst => wrong == 0,
        Way::AtLast => wrong == last,
        Way::Between => (1..last).contains(&wrong),
        Way::Again => !(wrong + 1..data.len()).all(right_by_itself),
        Way::TogetherOnly => (0..data.len()).all(right_by_itself),
        Way::FirstIsSooner => sooner(in_alternatives.first()),
        Way::LastIsSooner => sooner(in_alternatives.last()),
        Way::OtherLength => begins_fitting_data(&rule.format, &data[..=wrong]),
    };
    let all = WAYS.iter().map(|(way, _)| *way);
    all.filter(|way| holds(*way)).collect()
}

fn has_length(format: &Format, data: &[u8]) -> bool {
    format.lengths().contains(&data.len())
}

/// Where the data go wrong in each alternative that has their length.
fn places_in_alternatives(rule: &Rule, data: &[u8]) -> Vec<usize> {
    let formats = rule.alternatives.iter().map(|one| Format::of_fields(one));
    formats
        .filter(|format| has_length(format, data))
        .filter_map(|format| format.first_wrong(data))
        .collect()
}

/// Whether some fitting data of any length begin so.
fn begins_fitting_data(format: &Format, beginning: &[u8]) -> bool {
    let lengths = format.lengths();
    let longer = lengths.range(beginning.len()..);
    longer.into_iter().any(|length| {
        let mut data = beginning.to_vec();
        data.resize(*length, 0);
        format.fits_where(&data, |place| place < beginning.len())
    })
}

impl Generator {
    /// A group that goes wrong in its data or its stamp, often of a label that is
    /// stamped, or has data of nearly a hundred characters, or alternatives, and
    /// of these often PS and PMAX: the end of another unit can be put to theirs.
    pub fn wrong_somewhere_draft(&mut self, mode: Mode) -> Draft {
        self.note("group that goes wrong somewhere");
        let suits: fn(&&Rule) -> bool = match self.dice.below(5) {
            0 => |rule| rule.stamp.is_some() || rule.has_gap(),
            1 => |rule| rule.longest > 90 || rule.alternatives.len() > 1,
            2 => |rule| rule.longest > 90 || ["PS", "PMAX_s", "PMAX_i"].contains(&&rule.label[..]),
            _ => |_| true,
        };
        let suited: Vec<&'static Rule> = all_rules(mode).iter().filter(suits).collect();
        let mut draft = match suited.is_empty() {
            true => self.right_draft(mode),
            false => self.right_draft_of(mode, &suited),
        };
        match self.dice.below(4) {
            0 | 1 if draft.rule.stamp.is_some() => self.spoil(&mut draft, Spoiling::Stamp),
            0..=2 if draft.rule.alternatives.len() > 1 => self.splice_alternatives(&mut draft),
            _ => self.spoil(&mut draft, Spoiling::Kind),
        }
        draft
    }

    /// The beginning of the data and the end of others of the same length, so
    /// that the whole does not fit, as 36kVW of 36kVA and 360kW.
    pub fn splice_alternatives(&mut self, draft: &mut Draft) {
        self.note("spoilt: alternatives spliced");
        let rule = draft.rule;
        // Others of the same length are not found at once, and most fit.
        for _ in 0..20 {
            let fields = self.dice.pick(&rule.alternatives);
            let other = self.data_of_fields(fields);
            let cut = self.dice.below(draft.data.len());
            if other.len() == draft.data.len() {
                let spliced = [&draft.data[..cut], &other[cut..]].concat();
                if !rule.format.fits(&spliced) {
                    draft.data = spliced;
                    return;
                }
            }
        }
        self.exchange_character(draft);
    }
}
