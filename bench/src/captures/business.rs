//! A business meter's data: right ones that are made up, form by form, and groups that are wrong as they were sent.

use super::dice::Dice;
use super::groups::content;
use super::noise::with_next_check;
use crate::plain::table::{Kind, Mode};

/// Right data of a kind with fields: values of any length that it has, and each of its texts, units and signs as often as
/// another.
pub fn right_fields(kind: Kind, dice: &mut Dice) -> Vec<u8> {
    match kind {
        Kind::Test => b"TEST".to_vec(),
        Kind::Control => b"CONTROLE".to_vec(),
        Kind::Configuration => pick(&[b"CONSO", b"PROD"], dice),
        Kind::Signal => pick(&[b"ACTIF", b"INACTIF"], dice),
        Kind::Overload => pick(&[b"DEP", b"DEP "], dice),
        Kind::Notice => [b"TD-".to_vec(), period(dice)].concat(),
        Kind::Date => date(dice),
        Kind::DatedPeriod => [date(dice), b"-".to_vec(), period(dice)].concat(),
        Kind::WattHours => quantity(7, &[b"Wh"], dice),
        Kind::VarHours => quantity(7, &[b"varh"], dice),
        Kind::VoltAmpereHours => quantity(7, &[b"VAh"], dice),
        Kind::KilowattHours => quantity(7, &[b"kWh"], dice),
        Kind::KilovarHours => quantity(7, &[b"kvarh"], dice),
        Kind::Power => quantity(5, &[b"kW"], dice),
        Kind::PowerPoint => quantity(5, &[b"kW", b"TkW"], dice),
        Kind::ContractPower => quantity(5, &[b"kW", b"kVA"], dice),
        Kind::Tangent => tangent(dice),
        Kind::Decimal | Kind::Hexadecimal | Kind::Text => unreachable!("it has no fields"),
    }
}

/// A group that is refused, or in rare cases another right one, in place of a right one: for one of the reasons 8 to 11, 13
/// and 14.
pub fn spoilt_content(right: Vec<u8>, dice: &mut Dice) -> Vec<u8> {
    let mode = Mode::Business;
    let end = right.len() - 2;
    let label_end = right.iter().position(|&one| one == b' ');
    let label_end = label_end.expect("a content has a separator");
    let (label, mut data) = (&right[..label_end], right[label_end + 1..end].to_vec());
    match dice.below(9) {
        0 => content(mode, label, None, &[b' '; 130]),
        1 => right[..end].to_vec(),
        2 => with_next_check(right),
        3 => content(mode, b"EAP_s2", None, &data),
        4 => content(mode, label, None, &data[1..]),
        5 => content(mode, label, None, &[&data, &b" "[..]].concat()),
        6 => content(mode, label, None, &[&data, &b"0"[..]].concat()),
        _ => {
            let place = dice.below(data.len() as u64) as usize;
            data[place] = dice.character(b' ', b'~');
            content(mode, label, None, &data)
        }
    }
}

fn pick(words: &[&[u8]], dice: &mut Dice) -> Vec<u8> {
    dice.pick(words).to_vec()
}

fn period(dice: &mut Dice) -> Vec<u8> {
    (0..3).map(|_| dice.character(b' ', b'~')).collect()
}

/// A number of at least one digit and at most so many, without zeros in front.
fn number(most: u32, dice: &mut Dice) -> String {
    let digits = 1 + dice.below(u64::from(most)) as u32;
    dice.below(10u64.pow(digits)).to_string()
}

fn quantity(most: u32, units: &[&[u8]], dice: &mut Dice) -> Vec<u8> {
    [number(most, dice).into_bytes(), pick(units, dice)].concat()
}

/// No month has fewer than 28 days, and all days are as good as another here.
fn date(dice: &mut Dice) -> Vec<u8> {
    let two = |first: u64, limit: u64, dice: &mut Dice| format!("{:02}", first + dice.below(limit));
    let day = [two(1, 28, dice), two(1, 12, dice), two(0, 100, dice)];
    let hour = [two(0, 24, dice), two(0, 60, dice), two(0, 60, dice)];
    format!("{} {}", day.join("/"), hour.join(":")).into_bytes()
}

fn tangent(dice: &mut Dice) -> Vec<u8> {
    let whole = match dice.one_in(2) {
        true => number(5, dice),
        false => format!("-{}", number(4, dice)),
    };
    let sign = dice.pick(&[',', '.']);
    format!("{whole}{sign}{:02}", dice.below(100)).into_bytes()
}
