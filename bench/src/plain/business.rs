//! The business meter (PME-PMI): what each of its labels asks of the data, by document 003, 2.9. A label is found by a
//! `match`, as those of the other modes are; the forms of the data are patterns of slices.

use super::group::{all_digits, all_text, is_text};
use super::table::{Kind, Rule};

pub fn find(label: &[u8]) -> Option<Rule> {
    Some(match label {
        b"TRAME" => row(Kind::Test, 4, 4),
        b"ADS" => row(Kind::Text, 12, 12),
        b"MESURES1" | b"MESURES2" => row(Kind::Text, 10, 10),
        b"DATE" | b"DATEPA1" | b"DATEPA2" | b"DATEPA3" | b"DATEPA4" | b"DATEPA5" | b"DATEPA6"
        | b"DebP" | b"DebP-1" | b"FinP-1" | b"DebP_2" | b"DebP-1_2" | b"FinP-1_2" => {
            row(Kind::Date, 17, 17)
        }
        b"EA_s" | b"EA_i" => row(Kind::WattHours, 3, 9),
        b"ER+_s" | b"ER-_s" | b"ER+_i" | b"ER-_i" => row(Kind::VarHours, 5, 11),
        b"EAPP_s" | b"EAPP_i" => row(Kind::VoltAmpereHours, 4, 10),
        b"PTCOUR1" | b"PTCOUR2" => row(Kind::Text, 1, 3),
        b"TARIFDYN" => row(Kind::Signal, 5, 7),
        b"ETATDYN1" | b"ETATDYN2" => row(Kind::Text, 3, 3),
        b"PREAVIS1" | b"PREAVIS2" => row(Kind::Notice, 6, 6),
        b"TDYN1CD" | b"TDYN1CF" | b"TDYN1FD" | b"TDYN1FF" | b"TDYN2CD" | b"TDYN2CF"
        | b"TDYN2FD" | b"TDYN2FF" => row(Kind::DatedPeriod, 21, 21),
        b"MODE" => row(Kind::Control, 8, 8),
        b"CONFIG" => row(Kind::Configuration, 4, 5),
        b"PA1_s" | b"PA2_s" | b"PA3_s" | b"PA4_s" | b"PA5_s" | b"PA6_s" => {
            row(Kind::PowerPoint, 3, 8)
        }
        b"PA1_i" | b"PA2_i" | b"PA3_i" | b"PA4_i" | b"PA5_i" | b"PA6_i" => {
            row(Kind::PowerPoint, 3, 8)
        }
        b"EAP_s" | b"EAP_i" | b"EaP-1_s" | b"EaP-1_i" | b"EaP_s2" | b"EaP-1_s2" => {
            row(Kind::KilowattHours, 4, 10)
        }
        b"ER+P_s" | b"ER-P_s" | b"ER+P_i" | b"ER-P_i" | b"ER+P-1_s" | b"ER-P-1_s" | b"ER+P-1_i"
        | b"ER-P-1_i" => row(Kind::KilovarHours, 6, 12),
        b"PS" | b"PMAX_s" | b"PMAX_i" => row(Kind::ContractPower, 3, 8),
        b"PREAVIS" => row(Kind::Overload, 3, 4),
        b"PA1MN" => row(Kind::Power, 3, 7),
        b"TGPHI_s" | b"TGPHI_i" => row(Kind::Tangent, 4, 8),
        _ => return None,
    })
}

/// No label has a stamp.
const fn row(kind: Kind, smallest: u8, largest: u8) -> Rule {
    Rule {
        kind,
        lengths: (smallest, largest),
        season: None,
    }
}

/// Whether data of a right length have the fields that a kind of the business meter alone asks for. It is kept whole, so that
/// document 01's kinds need not save registers for it.
#[inline(never)]
pub fn has_fields(kind: Kind, data: &[u8]) -> bool {
    match kind {
        Kind::Test => data == b"TEST",
        Kind::Control => data == b"CONTROLE",
        Kind::Configuration => matches!(data, b"CONSO" | b"PROD"),
        Kind::Signal => matches!(data, b"ACTIF" | b"INACTIF"),
        Kind::Overload => matches!(data, b"DEP" | b"DEP "),
        Kind::Notice => matches!(data, [b'T', b'D', b'-', period @ ..] if all_text(period)),
        Kind::Date => is_date(data),
        Kind::DatedPeriod => {
            matches!(data, [date @ .., b'-', a, b, c] if is_date(date) && all_text(&[*a, *b, *c]))
        }
        Kind::WattHours => matches!(data, [value @ .., b'W', b'h'] if is_number(value, 7)),
        Kind::VarHours => {
            matches!(data, [value @ .., b'v', b'a', b'r', b'h'] if is_number(value, 7))
        }
        Kind::VoltAmpereHours => {
            matches!(data, [value @ .., b'V', b'A', b'h'] if is_number(value, 7))
        }
        Kind::KilowattHours => {
            matches!(data, [value @ .., b'k', b'W', b'h'] if is_number(value, 7))
        }
        Kind::KilovarHours => {
            matches!(data, [value @ .., b'k', b'v', b'a', b'r', b'h'] if is_number(value, 7))
        }
        Kind::Power => matches!(data, [value @ .., b'k', b'W'] if is_number(value, 5)),
        Kind::PowerPoint => match data {
            [value @ .., b'T', b'k', b'W'] | [value @ .., b'k', b'W'] => is_number(value, 5),
            _ => false,
        },
        Kind::ContractPower => match data {
            [value @ .., b'k', b'V', b'A'] | [value @ .., b'k', b'W'] => is_number(value, 5),
            _ => false,
        },
        Kind::Tangent => match data {
            [b'-', whole @ .., b',' | b'.', a, b] => is_number(whole, 4) && all_digits(&[*a, *b]),
            [whole @ .., b',' | b'.', a, b] => is_number(whole, 5) && all_digits(&[*a, *b]),
            _ => false,
        },
        Kind::Decimal | Kind::Hexadecimal | Kind::Text => false,
    }
}

/// Where data of a right length that do not have the fields of a kind go wrong: at the first character that no fitting data of
/// that length have there after the same beginning, so as far on as any form of that length goes along with them. If there is
/// no such form, it is the first of all.
pub fn first_wrong(kind: Kind, data: &[u8]) -> usize {
    let of_that_length = forms(kind)
        .iter()
        .filter(|(form, least)| (*least..=form.len()).contains(&data.len()));
    of_that_length
        .map(|(form, _)| along(form.as_bytes(), data))
        .max()
        .unwrap_or(0)
}

/// The forms of a kind's data, and the smallest length of each: `9` is a digit, `?` any character, `;` a comma or a point, and
/// all others are themselves. A form of varying length is written out at its largest, and shorter data have fewer of the digits
/// that it begins with.
fn forms(kind: Kind) -> &'static [(&'static str, usize)] {
    match kind {
        Kind::Test => &[("TEST", 4)],
        Kind::Control => &[("CONTROLE", 8)],
        Kind::Configuration => &[("CONSO", 5), ("PROD", 4)],
        Kind::Signal => &[("ACTIF", 5), ("INACTIF", 7)],
        Kind::Overload => &[("DEP", 3), ("DEP ", 4)],
        Kind::Notice => &[("TD-???", 6)],
        Kind::Date => &[("99/99/99 99:99:99", 17)],
        Kind::DatedPeriod => &[("99/99/99 99:99:99-???", 21)],
        Kind::WattHours => &[("9999999Wh", 3)],
        Kind::VarHours => &[("9999999varh", 5)],
        Kind::VoltAmpereHours => &[("9999999VAh", 4)],
        Kind::KilowattHours => &[("9999999kWh", 4)],
        Kind::KilovarHours => &[("9999999kvarh", 6)],
        Kind::Power => &[("99999kW", 3)],
        Kind::PowerPoint => &[("99999kW", 3), ("99999TkW", 4)],
        Kind::ContractPower => &[("99999kW", 3), ("99999kVA", 4)],
        Kind::Tangent => &[
            ("99999;99", 4),
            ("-9;99", 5),
            ("-99;99", 6),
            ("-999;99", 7),
            ("-9999;99", 8),
        ],
        Kind::Decimal | Kind::Hexadecimal | Kind::Text => &[],
    }
}

/// How many characters of the data go along with a form, of which shorter data are the end.
fn along(form: &[u8], data: &[u8]) -> usize {
    let form = &form[form.len() - data.len()..];
    let is_right = |(&sign, &one): &(&u8, &u8)| match sign {
        b'9' => one.is_ascii_digit(),
        b'?' => is_text(one),
        b';' => matches!(one, b',' | b'.'),
        _ => one == sign,
    };
    form.iter().zip(data).take_while(is_right).count()
}

/// One digit at least, and so many at most.
fn is_number(value: &[u8], most: usize) -> bool {
    (1..=most).contains(&value.len()) && all_digits(value)
}

/// JJ/MM/AA HH:MM:SS: its signs where they stand, and digits elsewhere. What day it is nobody asks.
fn is_date(data: &[u8]) -> bool {
    let [a, b, b'/', c, d, b'/', e, f, b' ', g, h, b':', i, j, b':', k, l] = data else {
        return false;
    };
    [a, b, c, d, e, f, g, h, i, j, k, l]
        .into_iter()
        .fold(true, |all, one| all & one.is_ascii_digit())
}
