//! Formats of data: which characters may stand in it, field after field.
//!
//! A format is a small grammar. Data are held against it by going over all
//! ways of reading them, so that a field of varying length needs no rule of
//! how far it reaches. Some characters may be left open: then it is asked
//! whether data fit that have the others.

use std::collections::BTreeSet;

/// "Data kinds: N decimal digits; X digits and A to F; T any of 0x20 to 0x7E."
#[derive(Clone, Copy, Debug, PartialEq, Eq)]
pub enum Kind {
    Decimal,
    Hexadecimal,
    Text,
}

impl Kind {
    /// Whether a character is of the kind; "one of 128 or more ... is of no
    /// kind".
    pub fn holds(self, character: u8) -> bool {
        match self {
            Kind::Decimal => character.is_ascii_digit(),
            Kind::Hexadecimal => character.is_ascii_digit() || (b'A'..=b'F').contains(&character),
            Kind::Text => (0x20..=0x7E).contains(&character),
        }
    }
}

/// One field of data.
#[derive(Clone, Debug, PartialEq, Eq)]
pub enum Field {
    /// Characters of a kind, from `least` through `most` of them.
    Run {
        kind: Kind,
        least: usize,
        most: usize,
    },
    /// This text and no other.
    Exactly(&'static str),
}

/// What data may be.
#[derive(Clone, Debug, PartialEq, Eq)]
pub enum Format {
    Field(Field),
    /// All of these, one behind the other.
    Sequence(Vec<Format>),
    /// Any one of these.
    OneOf(Vec<Format>),
}

/// Characters of a kind, from `least` through `most` of them.
pub fn run(kind: Kind, least: usize, most: usize) -> Format {
    Format::Field(Field::Run { kind, least, most })
}

/// This text and no other.
pub fn exactly(text: &'static str) -> Format {
    Format::Field(Field::Exactly(text))
}

/// Any one of these texts.
pub fn one_text_of(texts: &[&'static str]) -> Format {
    Format::OneOf(texts.iter().map(|text| exactly(text)).collect())
}

/// A character of data, or none where it is left open.
type Slot = Option<u8>;

impl Field {
    /// All places where the field can end in the data, when it begins at this
    /// place. Any field has some character for each of its places, so what is
    /// left open stands in no field's way.
    fn ends(&self, data: &[Slot], begin: usize) -> BTreeSet<usize> {
        let rest = &data[begin..];
        match self {
            Field::Run { kind, least, most } => {
                let of_kind = |one: &&Slot| one.is_none_or(|character| kind.holds(character));
                let right = rest.iter().take_while(of_kind).count();
                (*least..=right.min(*most))
                    .map(|count| begin + count)
                    .collect()
            }
            Field::Exactly(text) => {
                let mut pairs = text.bytes().zip(rest);
                let same = pairs.all(|(own, one)| one.is_none_or(|character| character == own));
                match same && text.len() <= rest.len() {
                    true => BTreeSet::from([begin + text.len()]),
                    false => BTreeSet::new(),
                }
            }
        }
    }

    /// All lengths that the field can have.
    fn lengths(&self) -> BTreeSet<usize> {
        match self {
            Field::Run { least, most, .. } => (*least..=*most).collect(),
            Field::Exactly(text) => BTreeSet::from([text.len()]),
        }
    }
}

impl Format {
    /// A format of fields and no choice between them.
    pub fn of_fields(fields: &[Field]) -> Format {
        Format::Sequence(fields.iter().cloned().map(Format::Field).collect())
    }

    /// Whether data fit: some way of reading them ends where they end.
    pub fn fits(&self, data: &[u8]) -> bool {
        self.fits_where(data, |_| true)
    }

    /// Whether some fitting data of the same length have the same characters
    /// wherever this holds of the place; the others are left open.
    pub fn fits_where(&self, data: &[u8], same_at: impl Fn(usize) -> bool) -> bool {
        let characters = data.iter().enumerate();
        let slots: Vec<Slot> = characters
            .map(|(place, character)| same_at(place).then_some(*character))
            .collect();
        self.ends(&slots, 0).contains(&slots.len())
    }

    /// Document 02, M-104: "the first that no fitting data of that length have
    /// there after the same beginning"; none where the data fit. If no fitting
    /// data have the length, it is the first of all. Where all characters are
    /// of one kind, it is the first that is not.
    pub fn first_wrong(&self, data: &[u8]) -> Option<usize> {
        (0..data.len()).find(|last| !self.fits_where(data, |place| place <= *last))
    }

    /// All places where the format can end in the data, when it begins at this
    /// place.
    fn ends(&self, data: &[Slot], begin: usize) -> BTreeSet<usize> {
        match self {
            Format::Field(field) => field.ends(data, begin),
            Format::Sequence(parts) => {
                parts.iter().fold(BTreeSet::from([begin]), |places, part| {
                    places
                        .iter()
                        .flat_map(|place| part.ends(data, *place))
                        .collect()
                })
            }
            Format::OneOf(choices) => choices
                .iter()
                .flat_map(|choice| choice.ends(data, begin))
                .collect(),
        }
    }

    /// All lengths that fitting data have; there may be gaps between them.
    pub fn lengths(&self) -> BTreeSet<usize> {
        match self {
            Format::Field(field) => field.lengths(),
            Format::Sequence(parts) => parts.iter().fold(BTreeSet::from([0]), |sums, part| {
                let lengths = part.lengths();
                sums.iter()
                    .flat_map(|sum| lengths.iter().map(move |length| sum + length))
                    .collect()
            }),
            Format::OneOf(choices) => choices.iter().flat_map(Format::lengths).collect(),
        }
    }

    /// The fields of each alternative: wherever the format leaves a choice, one
    /// of them is taken.
    pub fn alternatives(&self) -> Vec<Vec<Field>> {
        match self {
            Format::Field(field) => vec![vec![field.clone()]],
            Format::Sequence(parts) => parts.iter().fold(vec![Vec::new()], |begun, part| {
                let endings = part.alternatives();
                begun
                    .iter()
                    .flat_map(|fields| endings.iter().map(|more| [&fields[..], more].concat()))
                    .collect()
            }),
            Format::OneOf(choices) => choices.iter().flat_map(Format::alternatives).collect(),
        }
    }
}
