//! Made-up data of several fields: fitting ones, and ones that nearly fit.

use crate::dice::Dice;
use crate::drafts::{Draft, Generator};
use crate::formats::{Field, Format};
use crate::table::{all_rules, Rule};

/// What units may be taken for, those of the business meter among them.
const UNITS: [&str; 19] = [
    "", "Wh", "kWh", "MWh", "varh", "kvarh", "VAh", "kVAh", "kW", "TkW", "kVA", "TkVA", "W", "VA",
    "kw", "KW", "kwh", "kva", " kW",
];

/// Signs that may be taken for one another in dates, numbers and names.
const SIGNS: [(u8, &[u8]); 8] = [
    (b'/', b":-. "),
    (b':', b"/.; h"),
    (b' ', b"-_T/\t"),
    (b'-', b"++_ /"),
    (b',', b".;:'- "),
    (b'.', b",;: "),
    (b'T', b"tFI "),
    (b'+', b"- "),
];

/// Characters of labels that may be taken for one another. In the French set of
/// seven bits é has the code of {, and in sets of eight bits often 0xE9.
const SPELLINGS: [(u8, &[u8]); 9] = [
    (b'_', b"- ."),
    (b'+', b"-_"),
    (b'-', b"+_"),
    (b's', b"iS"),
    (b'i', b"sI"),
    (b'e', b"{E\xE9"),
    (b'P', b"pX"),
    (b'A', b"aR"),
    (b'a', b"Ar"),
];

/// How long the fields of a made-up group are.
#[derive(Clone, Copy, Debug, PartialEq, Eq)]
enum Extent {
    Shortest,
    Longest,
    Between,
}

impl Extent {
    /// A length from `least` through `most`.
    fn length(self, dice: &mut Dice, least: usize, most: usize) -> usize {
        match self {
            Extent::Shortest => least,
            Extent::Longest => most,
            Extent::Between => dice.between(least, most),
        }
    }
}

impl Generator {
    /// Data of these fields: as short as they can be, as long, or between.
    pub fn data_of_fields(&mut self, fields: &[Field]) -> Vec<u8> {
        let extent = match self.dice.below(4) {
            0 => Extent::Shortest,
            1 => Extent::Longest,
            _ => Extent::Between,
        };
        self.data_of_extent(fields, extent)
    }

    fn data_of_extent(&mut self, fields: &[Field], extent: Extent) -> Vec<u8> {
        let mut data = Vec::new();
        for field in fields {
            match field {
                Field::Exactly(text) => data.extend(text.bytes()),
                Field::Run { kind, least, most } => {
                    let length = extent.length(&mut self.dice, *least, *most);
                    data.extend(self.data_of(*kind, length));
                }
            }
        }
        data
    }

    /// One character more than the longest data of a label have, or one less
    /// than the shortest; a label without data has only the first.
    pub fn data_just_beyond(&mut self, rule: &Rule) -> Vec<u8> {
        let too_long = rule.shortest == 0 || self.dice.percent(50);
        let (extent, length) = match too_long {
            true => (Extent::Longest, rule.longest),
            false => (Extent::Shortest, rule.shortest),
        };
        let utmost: Vec<Vec<Field>> = rule
            .alternatives
            .iter()
            .filter(|fields| Format::of_fields(fields).lengths().contains(&length))
            .cloned()
            .collect();
        let fields = self.dice.pick(&utmost).clone();
        let mut data = self.data_of_extent(&fields, extent);
        if !too_long {
            let place = self.dice.below(data.len());
            data.remove(place);
        } else if data.is_empty() {
            data.push(b'0');
        } else {
            let place = self.dice.below(data.len());
            data.insert(place, data[place]);
        }
        data
    }

    /// Spoils data of several fields, or of a text: near misses, of which some
    /// fit by chance. Now and then two things are wrong with them.
    pub fn spoil_fields(&mut self, draft: &mut Draft) {
        self.spoil_some_field(draft);
        if !draft.data.is_empty() && self.dice.percent(25) {
            self.exchange_character(draft);
        }
    }

    fn spoil_some_field(&mut self, draft: &mut Draft) {
        match self.dice.below(19) {
            16..=18 if draft.rule.alternatives.len() > 1 => self.splice_alternatives(draft),
            0..=5 if draft.rule.has_gap() => self.move_into_gap(draft),
            0..=3 | 16..=18 => self.exchange_character(draft),
            4 => self.leave_character_out(draft),
            5 => self.put_character_in(draft),
            6 | 7 => self.exchange_unit(draft),
            8 | 9 => self.stretch_field(draft),
            10..=13 => self.exchange_signs(draft),
            14 => {
                self.note("spoilt: data of another label");
                let other = self.dice.pick(all_rules(draft.mode));
                let fields = self.dice.pick(&other.alternatives);
                draft.data = self.data_of_fields(fields);
            }
            _ => {
                self.note("spoilt: data in other letters");
                draft.data = match self.dice.below(2) {
                    0 => draft.data.to_ascii_lowercase(),
                    _ => draft.data.to_ascii_uppercase(),
                };
            }
        }
    }

    /// One character more or less, so that the length lies between those that
    /// data can have, as six between ACTIF and INACTIF.
    fn move_into_gap(&mut self, draft: &mut Draft) {
        if draft.data.len() == draft.rule.longest {
            self.leave_character_out(draft);
        } else {
            self.put_character_in(draft);
        }
    }

    fn leave_character_out(&mut self, draft: &mut Draft) {
        self.note("spoilt: a data character left out");
        let place = self.dice.below(draft.data.len());
        draft.data.remove(place);
    }

    /// One character of the data becomes another: one that is next to it, its
    /// large or small letter, or one of other fields or of no kind.
    pub fn exchange_character(&mut self, draft: &mut Draft) {
        self.note("spoilt: a data character exchanged");
        let place = self.dice.below(draft.data.len());
        let before = draft.data[place];
        draft.data[place] = match self.dice.below(6) {
            0 => before.wrapping_add(1) & 0x7F,
            1 => before.wrapping_sub(1) & 0x7F,
            2 => before ^ 0x20,
            3 => *self.dice.pick(b"\x00\x08\t\x1F\x7F"),
            4 => *self.dice.pick(b" ,-./:;+?TkWVh09"),
            _ => self.dice.between(0x20, 0x7E) as u8,
        };
    }

    /// "« 0 kW »" is not how it is sent, nor "+0,25", nor "DEP" and two spaces.
    fn put_character_in(&mut self, draft: &mut Draft) {
        self.note("spoilt: a data character put in");
        let length = draft.data.len();
        let anywhere = self.dice.below(length + 1);
        let place = *self.dice.pick(&[0, length, anywhere]);
        let added = *self.dice.pick(b"   --++019T,.kS\t\x7F");
        draft.data.insert(place, added);
    }

    /// The digits in front, with another unit behind them.
    fn exchange_unit(&mut self, draft: &mut Draft) {
        self.note("spoilt: unit");
        let digits = draft.data.iter().take_while(|one| one.is_ascii_digit());
        let count = digits.count();
        draft.data.truncate(count);
        draft.data.extend(self.dice.pick(&UNITS).bytes());
    }

    /// A field of digits or text that has one character more than it may have,
    /// or one less. The whole may still have a length that others have.
    fn stretch_field(&mut self, draft: &mut Draft) {
        let mut fields = self.dice.pick(&draft.rule.alternatives).clone();
        let mut runs: Vec<&mut Field> = fields
            .iter_mut()
            .filter(|field| matches!(field, Field::Run { .. }))
            .collect();
        if runs.is_empty() {
            self.put_character_in(draft);
            return;
        }
        self.note("spoilt: a field one too long or too short");
        let chosen = self.dice.below(runs.len());
        if let Field::Run { least, most, .. } = &mut *runs[chosen] {
            let length = match self.dice.below(3) {
                0 => *least - 1,
                _ => *most + 1,
            };
            (*least, *most) = (length, length);
        }
        draft.data = self.data_of_fields(&fields);
    }

    /// All signs of one sort become another, or the last of them, such as the
    /// slashes of a date.
    fn exchange_signs(&mut self, draft: &mut Draft) {
        let Some((sign, other)) = self.pick_exchange(&SIGNS, &draft.data) else {
            self.exchange_character(draft);
            return;
        };
        self.note("spoilt: signs in the data exchanged");
        let mut left = match self.dice.below(2) {
            0 => 1,
            _ => draft.data.len(),
        };
        for one in draft.data.iter_mut().rev() {
            if *one == sign && left > 0 {
                *one = other;
                left -= 1;
            }
        }
    }

    /// A label that is spelt nearly as one of the list: the case of one letter,
    /// another number, another sign. Tableau 10 has EAP_s and EaP_s2.
    pub fn spoil_spelling(&mut self, draft: &mut Draft) {
        let places_of = |wanted: fn(&u8) -> bool| -> Vec<usize> {
            let label = draft.label.iter().enumerate();
            label
                .filter(|(_, one)| wanted(one))
                .map(|(place, _)| place)
                .collect()
        };
        let letters = places_of(u8::is_ascii_alphabetic);
        let digits = places_of(u8::is_ascii_digit);
        let exchange = self.pick_exchange(&SPELLINGS, &draft.label);
        match (self.dice.below(3), exchange) {
            (0, _) if !digits.is_empty() => {
                let place = *self.dice.pick(&digits);
                draft.label[place] = *self.dice.pick(b"0123456789X");
            }
            (1, Some((sign, other))) => {
                let place = draft.label.iter().position(|one| *one == sign);
                draft.label[place.expect("the sign is in it")] = other;
            }
            _ if !letters.is_empty() => {
                let place = *self.dice.pick(&letters);
                draft.label[place] ^= 0x20;
            }
            _ => draft.label.push(b'_'),
        }
    }

    /// One of the signs that stand in the text, and what it may be taken for.
    fn pick_exchange(&mut self, signs: &[(u8, &[u8])], text: &[u8]) -> Option<(u8, u8)> {
        let there: Vec<&(u8, &[u8])> = signs
            .iter()
            .filter(|(sign, _)| text.contains(sign))
            .collect();
        if there.is_empty() {
            return None;
        }
        let (sign, others) = **self.dice.pick(&there);
        Some((sign, *self.dice.pick(others)))
    }
}
