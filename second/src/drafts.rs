//! Made-up groups: right ones, and ones with a field spoilt.

use crate::dice::Dice;
use crate::formats::{Field, Format, Kind};
use crate::group::{check_character, days_in_month, summed_part};
use crate::near_labels::Miss;
use crate::table::{all_rules, stamped_rules, Mode, Rule, Season, MODES, SMALL_SEASONS};
use crate::wire::{HORIZONTAL_TAB, SPACE};
use std::collections::BTreeMap;

/// Sizes at which something may turn: the shape's least length, a turn, the
/// longest content, the inbox.
pub const EDGE_SIZES: [usize; 21] = [
    0, 1, 2, 3, 4, 5, 62, 63, 64, 65, 66, 126, 127, 128, 129, 130, 192, 254, 255, 256, 257,
];

/// Makes things up, and notes what it did.
pub struct Generator {
    pub dice: Dice,
    pub deeds: BTreeMap<&'static str, u64>,
    /// Which label and alternative a mode begins with where they take turns.
    pub first_turn: usize,
}

/// How the check character of a draft is chosen.
#[derive(Clone, Copy, Debug, PartialEq, Eq)]
pub enum CheckChoice {
    Right,
    /// By the sum rule that is not the mode's ("One sum rule for both modes").
    OtherSum,
    /// The right one moved by this much.
    Moved(u8),
    Fixed(u8),
    LeftOut,
}

/// A group in parts, so that each can be spoilt alone.
#[derive(Clone, Debug)]
pub struct Draft {
    pub mode: Mode,
    pub rule: &'static Rule,
    pub label: Vec<u8>,
    pub first_separator: Vec<u8>,
    pub stamp: Vec<u8>,
    pub stamp_separator: Vec<u8>,
    pub data: Vec<u8>,
    pub final_separator: Vec<u8>,
    pub check: CheckChoice,
}

impl Draft {
    /// The content of the group, its check character reckoned over the parts
    /// as they stand now.
    pub fn content(&self) -> Vec<u8> {
        let body = [
            &self.label[..],
            &self.first_separator[..],
            &self.stamp[..],
            &self.stamp_separator[..],
            &self.data[..],
        ]
        .concat();
        let through_separator = [&body[..], &self.final_separator[..]].concat();
        let final_counts = self.mode.sums_final_separator();
        let check_by = |final_counts: bool| {
            check_character(if final_counts {
                &through_separator
            } else {
                &body
            })
        };
        let mut content = through_separator.clone();
        match self.check {
            CheckChoice::Right => content.push(check_by(final_counts)),
            CheckChoice::OtherSum => content.push(check_by(!final_counts)),
            CheckChoice::Moved(distance) => {
                content.push(check_by(final_counts).wrapping_add(distance));
            }
            CheckChoice::Fixed(character) => content.push(character),
            CheckChoice::LeftOut => {}
        }
        content
    }
}

/// The field that is spoilt.
#[derive(Clone, Copy, Debug, PartialEq, Eq)]
pub enum Spoiling {
    Label,
    Separator,
    Stamp,
    Season,
    Width,
    Kind,
    Check,
    HighBit,
}

impl Generator {
    pub fn new(dice: Dice) -> Generator {
        Generator {
            dice,
            deeds: BTreeMap::new(),
            first_turn: 0,
        }
    }

    /// Notes that something was done, for the closing report.
    pub fn note(&mut self, deed: &'static str) {
        *self.deeds.entry(deed).or_insert(0) += 1;
    }

    /// One of the modes; standard mode and the business meter more often, for
    /// each has twice as many labels, one all the stamps and the other all the
    /// alternatives.
    pub fn mode(&mut self) -> Mode {
        match self.dice.below(100) {
            0..=15 => Mode::Historic,
            16..=61 => Mode::Standard,
            _ => Mode::Business,
        }
    }

    /// One of the modes that this one is not.
    pub fn other_mode(&mut self, mode: Mode) -> Mode {
        let others: Vec<Mode> = MODES.into_iter().filter(|one| *one != mode).collect();
        *self.dice.pick(&others)
    }

    /// A right group of any label of the mode.
    pub fn right_draft(&mut self, mode: Mode) -> Draft {
        let rules: Vec<&'static Rule> = all_rules(mode).iter().collect();
        self.right_draft_of(mode, &rules)
    }

    /// A group with a small season, as from "a clock in degraded mode", of any
    /// stamped label: right, but for DPM and FPM.
    pub fn degraded_draft(&mut self) -> Draft {
        self.note("group with a small season");
        let mut draft = self.right_draft_of(Mode::Standard, &stamped_rules());
        draft.stamp[0] = *self.dice.pick(&SMALL_SEASONS);
        draft
    }

    /// A right group of a label on which the spoiling can show: stamped ones
    /// for the stamp (DATE often, for it has nothing after the stamp) and for
    /// the season (often DPM and FPM, for which all four letters are wrong),
    /// for the kind now and then the one hexadecimal label and the one whose
    /// lengths have a gap.
    fn right_draft_for(&mut self, mode: Mode, spoiling: Spoiling) -> Draft {
        let with_dates_only = self.dice.percent(25);
        let with_space_only = self.dice.percent(50);
        let with_rarities_only = self.dice.percent(15);
        let suited: Vec<&'static Rule> = all_rules(mode)
            .iter()
            .filter(|rule| match spoiling {
                Spoiling::Stamp if with_dates_only => rule.stamp.is_some() && rule.longest == 0,
                Spoiling::Season if with_space_only => rule.stamp == Some(Season::SpaceOnly),
                Spoiling::Stamp | Spoiling::Season => rule.stamp.is_some(),
                Spoiling::Kind if with_rarities_only => {
                    only_kind_of(rule) == Some(Kind::Hexadecimal) || rule.has_gap()
                }
                _ => true,
            })
            .collect();
        if suited.is_empty() || self.dice.percent(10) {
            self.right_draft(mode)
        } else {
            self.right_draft_of(mode, &suited)
        }
    }

    /// A right group of the label and alternative whose turn it is. They take
    /// turns for each deed, so that all come about equally often.
    pub fn right_draft_in_turn(&mut self, mode: Mode, deed: &'static str) -> Draft {
        self.note(deed);
        let rules: Vec<&'static Rule> = all_rules(mode).iter().collect();
        let choices = labels_and_alternatives(&rules);
        let turn = self.first_turn + self.deeds[deed] as usize;
        let (rule, fields) = choices[turn % choices.len()];
        self.right_draft_with(mode, rule, fields)
    }

    /// A right group of one of these labels, those with several alternatives
    /// as much more often.
    pub fn right_draft_of(&mut self, mode: Mode, rules: &[&'static Rule]) -> Draft {
        let (rule, fields) = *self.dice.pick(&labels_and_alternatives(rules));
        self.right_draft_with(mode, rule, fields)
    }

    fn right_draft_with(&mut self, mode: Mode, rule: &'static Rule, fields: &[Field]) -> Draft {
        let stamp = match rule.stamp {
            None => Vec::new(),
            Some(season) => self.right_stamp(season),
        };
        let stamp_separator = match rule.stamp {
            None => Vec::new(),
            Some(_) => vec![HORIZONTAL_TAB],
        };
        Draft {
            mode,
            rule,
            label: rule.label.clone().into_bytes(),
            first_separator: vec![mode.separator()],
            stamp,
            stamp_separator,
            data: self.data_of_fields(fields),
            final_separator: vec![mode.separator()],
            check: CheckChoice::Right,
        }
    }

    /// Data of a kind and a length, now and then all of one border character
    /// or with spaces at its ends.
    pub fn data_of(&mut self, kind: Kind, length: usize) -> Vec<u8> {
        let characters: &[u8] = match kind {
            Kind::Decimal => b"0123456789",
            Kind::Hexadecimal => b"0123456789ABCDEF",
            Kind::Text => b" !09:;@AFGZ[`afgz{ABCDEFGHIJKLMNOPQRSTUVWXYZabcxyz0123456789~",
        };
        let mut data: Vec<u8> = match self.dice.below(8) {
            0 => vec![characters[0]; length],
            1 => vec![*characters.last().expect("a kind has characters"); length],
            2 if kind == Kind::Text => (0..length)
                .map(|_| self.dice.between(0x20, 0x7E) as u8)
                .collect(),
            _ => (0..length).map(|_| *self.dice.pick(characters)).collect(),
        };
        if kind == Kind::Text && length > 0 && self.dice.percent(30) {
            let place = *self.dice.pick(&[0, length / 2, length - 1]);
            data[place] = SPACE;
        }
        data
    }

    /// A right stamp, often at the border of a field.
    pub fn right_stamp(&mut self, season: Season) -> Vec<u8> {
        let letter = *self.dice.pick(season.characters());
        let year = match self.dice.below(3) {
            0 => *self.dice.pick(&[0, 1, 3, 4, 8, 9, 50, 96, 98, 99]),
            _ => self.dice.below(100),
        };
        let month = match self.dice.below(3) {
            0 => *self.dice.pick(&[1, 2, 12]),
            _ => self.dice.between(1, 12),
        };
        let last_day = days_in_month(year as u32, month as u32) as usize;
        let day = match self.dice.below(3) {
            0 => *self.dice.pick(&[1, last_day]),
            _ => self.dice.between(1, last_day),
        };
        let (year, month, day) = if self.dice.percent(8) {
            // "February having 29 days when YY divides by 4", 00 as well.
            (*self.dice.pick(&[0, 4, 8, 20, 24, 96]), 2, 29)
        } else {
            (year, month, day)
        };
        let time = match self.dice.below(4) {
            0 => [0, 0, 0],
            1 => [23, 59, 59],
            _ => [
                self.dice.below(24),
                self.dice.below(60),
                self.dice.below(60),
            ],
        };
        stamp_text(letter, [year, month, day, time[0], time[1], time[2]])
    }

    /// Spoils one field of a draft.
    pub fn spoil(&mut self, draft: &mut Draft, spoiling: Spoiling) {
        match spoiling {
            Spoiling::Label => self.spoil_label(draft),
            Spoiling::Separator => self.spoil_separator(draft),
            Spoiling::Stamp => self.spoil_stamp(draft),
            Spoiling::Season => self.spoil_season(draft),
            Spoiling::Width => self.spoil_width(draft),
            Spoiling::Kind => self.spoil_kind(draft),
            Spoiling::Check => self.spoil_check(draft),
            Spoiling::HighBit => self.spoil_high_bit(draft),
        }
    }

    /// A right draft with one field spoilt, now and then a second one too, so
    /// that the order of the refusals is tried.
    pub fn spoilt_draft(&mut self, mode: Mode, choices: &[Spoiling]) -> Draft {
        // The business meter has no stamps, and the most ways of wrong data.
        let first = match self.dice.below(100) {
            0..=14 if mode == Mode::Business => Spoiling::Width,
            15..=59 if mode == Mode::Business => Spoiling::Kind,
            _ => *self.dice.pick(choices),
        };
        let mut draft = self.right_draft_for(mode, first);
        self.spoil(&mut draft, first);
        if self.dice.percent(25) {
            let second = *self.dice.pick(choices);
            self.spoil(&mut draft, second);
        }
        draft
    }

    fn spoil_label(&mut self, draft: &mut Draft) {
        self.note("spoilt: label");
        let place = self.dice.below(draft.label.len().max(1));
        match self.dice.below(12) {
            0 => draft.label.clear(),
            1 => {
                draft.label.pop();
            }
            2 => {
                let added = *self.dice.pick(b"01234X+-");
                draft.label.push(added);
            }
            3 => draft.label = draft.label.to_ascii_lowercase(),
            4 => {
                let rules = all_rules(self.other_mode(draft.mode));
                draft.label = self.dice.pick(rules).label.clone().into_bytes();
            }
            5 => {
                // A label of the same mode that has another rule, perhaps.
                let rules = all_rules(draft.mode);
                draft.label = self.dice.pick(rules).label.clone().into_bytes();
            }
            6 if !draft.label.is_empty() => {
                draft.label[place] = draft.label[place].wrapping_add(1) & 0x7F;
            }
            7 => {
                let inserted = *self.dice.pick(&[SPACE, HORIZONTAL_TAB, 0x00, 0x7F]);
                draft.label.insert(place, inserted);
            }
            8..=10 => self.spoil_spelling(draft),
            _ if !draft.label.is_empty() => {
                draft.label[place] = self.dice.between(0x21, 0x7E) as u8;
            }
            _ => draft.label.push(b'?'),
        }
    }

    fn spoil_separator(&mut self, draft: &mut Draft) {
        self.note("spoilt: separator");
        let other = draft.mode.wrong_separator();
        let own = draft.mode.separator();
        let changed = match self.dice.below(5) {
            0 => Vec::new(),
            1 => vec![other],
            2 => vec![own, own],
            3 => vec![*self.dice.pick(&[0x00, 0x08, 0x1F, 0x21, b'-', 0x7F])],
            _ => vec![own, other],
        };
        match self.dice.below(3) {
            0 => draft.first_separator = changed,
            1 => draft.final_separator = changed,
            _ if draft.rule.stamp.is_some() => draft.stamp_separator = changed,
            // All of them, so that not one of the mode's is left.
            _ => {
                draft.first_separator = changed.clone();
                draft.final_separator = changed;
            }
        }
    }

    fn spoil_stamp(&mut self, draft: &mut Draft) {
        self.note("spoilt: stamp");
        if draft.rule.stamp.is_none() {
            // A stamp where none belongs.
            draft.stamp = match self.dice.below(3) {
                0 => vec![*self.dice.pick(b"Hh0 ")],
                _ => self.right_stamp(Season::WinterOrSummer),
            };
            if self.dice.percent(70) {
                draft.stamp_separator = vec![draft.mode.separator()];
            }
            return;
        }
        let letter = *draft.stamp.first().unwrap_or(&b'H');
        let leap_year = self.dice.below(25) * 4;
        let common_year = leap_year + self.dice.between(1, 3);
        let long_month = *self.dice.pick(&[1, 3, 5, 7, 8, 10, 12]);
        let short_month = *self.dice.pick(&[4, 6, 9, 11]);
        let year = self.dice.below(100);
        let any_month = self.dice.between(1, 12);
        let small = *self.dice.pick(&[60, 61, 99]);
        match self.dice.below(16) {
            1 => {
                let month = *self.dice.pick(&[0, 13, 20, 99]);
                draft.stamp = stamp_text(letter, [year, month, 1, 0, 0, 0]);
            }
            2 => {
                let day = *self.dice.pick(&[0, 32, 40, 99]);
                draft.stamp = stamp_text(letter, [year, any_month, day, 0, 0, 0]);
            }
            3 => draft.stamp = stamp_text(letter, [year, short_month, 31, 0, 0, 0]),
            4 => draft.stamp = stamp_text(letter, [common_year, 2, 29, 0, 0, 0]),
            5 => draft.stamp = stamp_text(letter, [leap_year, 2, 30, 0, 0, 0]),
            6 => draft.stamp = stamp_text(letter, [year, long_month, 32, 23, 59, 59]),
            7 => {
                let hour = *self.dice.pick(&[24, 25, 30, 99]);
                draft.stamp = stamp_text(letter, [year, any_month, 1, hour, 0, 0]);
            }
            8 => draft.stamp = stamp_text(letter, [year, any_month, 1, 0, small, 0]),
            9 => draft.stamp = stamp_text(letter, [year, any_month, 1, 0, 0, small]),
            0 | 10 if !draft.stamp.is_empty() => {
                let place = self.dice.below(draft.stamp.len());
                draft.stamp[place] = *self.dice.pick(b"/: A\t-\x00\x7F");
            }
            11 => {
                draft.stamp.pop();
            }
            12 => draft.stamp.push(b'0'),
            13 => draft.stamp.clear(),
            14 => {
                draft.stamp.clear();
                draft.stamp_separator.clear();
            }
            _ => {
                // Nothing after the stamp but the final separator.
                draft.stamp_separator.clear();
                draft.data.clear();
            }
        }
    }

    /// A season that is wrong for the label: one that is right for the other
    /// labels, or a near miss.
    fn spoil_season(&mut self, draft: &mut Draft) {
        let Some(season) = draft.rule.stamp else {
            self.spoil_stamp(draft);
            return;
        };
        self.note("spoilt: season");
        let wrong: &[u8] = match season {
            // The codes next to the four letters, and the letters with another
            // bit turned over than the one that makes them small.
            Season::WinterOrSummer => b"   DFGIdfgi%(UXux\x05\x08\x00\t0",
            Season::SpaceOnly => b"hhheeeHHEE\x00\t\x1F!0`",
        };
        if let Some(first) = draft.stamp.first_mut() {
            *first = *self.dice.pick(wrong);
        }
    }

    fn spoil_width(&mut self, draft: &mut Draft) {
        self.note("spoilt: width");
        match self.dice.below(12) {
            0 => {
                draft.data.pop();
            }
            1 => draft.data.clear(),
            2 | 3 => {
                let added = self.filling(draft.rule, 1);
                draft.data.extend(added);
            }
            4 => {
                // So long that the whole content is near 128.
                let others = draft.content().len() - draft.data.len();
                let whole = self.dice.between(126, 131);
                let length = whole.saturating_sub(others);
                draft.data = self.filling(draft.rule, length);
            }
            5 => {
                let length = *self.dice.pick(&EDGE_SIZES);
                draft.data = self.filling(draft.rule, length);
            }
            _ => draft.data = self.data_just_beyond(draft.rule),
        }
    }

    /// Data of any length for a label: of its kind if it has but one, else of
    /// digits or text.
    fn filling(&mut self, rule: &Rule, length: usize) -> Vec<u8> {
        let kind = match only_kind_of(rule) {
            Some(kind) => kind,
            None => *self.dice.pick(&[Kind::Decimal, Kind::Text]),
        };
        self.data_of(kind, length)
    }

    fn spoil_kind(&mut self, draft: &mut Draft) {
        if draft.data.is_empty() {
            self.spoil_width(draft);
            return;
        }
        let Some(kind) = only_kind_of(draft.rule) else {
            self.spoil_fields(draft);
            return;
        };
        self.note("spoilt: kind");
        let length = draft.data.len();
        // Now and then several are wrong, and only the first of them counts.
        for _ in 0..*self.dice.pick(&[1, 1, 2, 3]) {
            let anywhere = self.dice.below(length);
            let place = *self.dice.pick(&[0, length - 1, anywhere, anywhere]);
            draft.data[place] = match kind {
                Kind::Decimal => *self.dice.pick(b"/:AF -.\t\x1F\x7F\x00"),
                Kind::Hexadecimal => *self.dice.pick(b"/:@Gafg` \t\x00\x7F"),
                Kind::Text => *self.dice.pick(b"\x1F\x7F\x00\x01\t\x0B\x1B"),
            };
        }
    }

    fn spoil_check(&mut self, draft: &mut Draft) {
        self.note("spoilt: check character");
        draft.check = match self.dice.below(6) {
            0 => CheckChoice::OtherSum,
            1 => CheckChoice::Moved(*self.dice.pick(&[1, 255])),
            2 => CheckChoice::Moved(*self.dice.pick(&[32, 64, 128, 192, 224])),
            3 => CheckChoice::Fixed(self.dice.between(0x20, 0x5F) as u8),
            4 => CheckChoice::Fixed(self.dice.byte()),
            _ => CheckChoice::LeftOut,
        };
    }

    /// "One of 128 or more enters the sum with its full number and is of no
    /// kind": only judging and writing can see such a byte.
    fn spoil_high_bit(&mut self, draft: &mut Draft) {
        self.note("spoilt: a byte of 128 or more");
        let part = match self.dice.below(5) {
            0 => &mut draft.label,
            1 => &mut draft.first_separator,
            2 => &mut draft.stamp,
            3 => &mut draft.data,
            _ => &mut draft.final_separator,
        };
        let part = if part.is_empty() {
            &mut draft.label
        } else {
            part
        };
        if !part.is_empty() {
            let place = self.dice.below(part.len());
            part[place] |= 0x80;
        }
    }

    /// A content with separators and a right check character, but so short, of
    /// about eight characters at most, that hardly any data fit: whether its
    /// label was found shows in the refusal, which is 11 or a later one.
    pub fn short_content(&mut self, mode: Mode) -> Vec<u8> {
        self.note("content of hardly any characters");
        let short: Vec<&'static Rule> = all_rules(mode)
            .iter()
            .filter(|rule| rule.label.len() <= 4)
            .collect();
        let mut draft = self.right_draft_of(mode, &short);
        if self.dice.percent(30) {
            let misses = [Miss::Cut, Miss::OtherEnd, Miss::Longer, Miss::ZerosBehind];
            let miss = *self.dice.pick(&misses);
            self.spoil_by(&mut draft.label, miss);
        }
        draft.stamp.clear();
        draft.stamp_separator.clear();
        // Both separators and the check character take three.
        let room = 5_usize.saturating_sub(draft.label.len());
        let length = self.dice.between(0, room);
        draft.data = self.filling(draft.rule, length);
        draft.content()
    }

    /// A content of just this many characters, in one of several forms.
    pub fn sized_content(&mut self, mode: Mode, length: usize) -> Vec<u8> {
        self.note("content of a chosen size");
        let separator = mode.separator();
        match self.dice.below(6) {
            0 => vec![separator; length],
            1 => self.data_of(Kind::Text, length),
            2 => {
                // Two separators and a right check character, of no label.
                let mut content = vec![b'~'; length];
                if length >= 4 {
                    let between = self.dice.between(1, length - 3);
                    content[between] = separator;
                    close_content(mode, &mut content);
                }
                content
            }
            _ => {
                // A label of the list, with data as long as it takes.
                let mut draft = self.right_draft(mode);
                let others = draft.content().len() - draft.data.len();
                if let Some(rest) = length.checked_sub(others) {
                    draft.data = self.filling(draft.rule, rest);
                    return draft.content();
                }
                let mut content = draft.content();
                content.truncate(length);
                if length >= 4 && self.dice.percent(50) {
                    close_content(mode, &mut content);
                }
                content
            }
        }
    }
}

/// Puts the final separator and the right check character at the end.
fn close_content(mode: Mode, content: &mut [u8]) {
    let length = content.len();
    content[length - 2] = mode.separator();
    content[length - 1] = check_character(summed_part(mode, &content[..length - 1]));
}

/// Each of the labels with each of its alternatives.
fn labels_and_alternatives(rules: &[&'static Rule]) -> Vec<(&'static Rule, &'static [Field])> {
    rules
        .iter()
        .flat_map(|rule| {
            let alternatives = rule.alternatives.iter();
            alternatives.map(move |fields| (*rule, &fields[..]))
        })
        .collect()
}

/// The kind of data that are a single field of one kind; none where there are
/// several fields, or a text.
fn only_kind_of(rule: &Rule) -> Option<Kind> {
    match rule.format {
        Format::Field(Field::Run { kind, .. }) => Some(kind),
        _ => None,
    }
}

fn stamp_text(letter: u8, fields: [usize; 6]) -> Vec<u8> {
    let mut stamp = vec![letter];
    for field in fields {
        stamp.extend(format!("{field:02}").bytes());
    }
    stamp
}
