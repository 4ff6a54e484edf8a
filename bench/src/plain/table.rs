//! The modes, and what each label asks of stamp and data. A label is found by a `match`, of which the compiler makes
//! comparisons in a tree.

use super::business;
use super::wire::{HORIZONTAL_TAB, SPACE};

#[derive(Clone, Copy, PartialEq, Eq)]
pub enum Mode {
    Historic = 0,
    Standard = 1,
    Business = 2,
}

impl Mode {
    pub fn from_number(number: u32) -> Option<Mode> {
        match number {
            0 => Some(Mode::Historic),
            1 => Some(Mode::Standard),
            2 => Some(Mode::Business),
            _ => None,
        }
    }

    pub fn number(self) -> u32 {
        self as u32
    }

    pub fn from_name(name: &str) -> Option<Mode> {
        match name {
            "historic" => Some(Mode::Historic),
            "standard" => Some(Mode::Standard),
            "business" => Some(Mode::Business),
            _ => None,
        }
    }

    /// The mode that the first byte of a capture names.
    pub fn from_letter(letter: u8) -> Option<Mode> {
        match letter {
            b'H' => Some(Mode::Historic),
            b'S' => Some(Mode::Standard),
            b'P' => Some(Mode::Business),
            _ => None,
        }
    }

    pub fn separator(self) -> u8 {
        match self {
            Mode::Historic | Mode::Business => SPACE,
            Mode::Standard => HORIZONTAL_TAB,
        }
    }
}

/// What the data are made of: a row of one kind of document 01, or the fields of one of the business meter's.
#[derive(Clone, Copy, PartialEq, Eq)]
pub enum Kind {
    Decimal,
    Hexadecimal,
    Text,
    /// TEST
    Test,
    /// CONTROLE
    Control,
    /// CONSO or PROD
    Configuration,
    /// ACTIF or INACTIF
    Signal,
    /// DEP, with a space behind it or not
    Overload,
    /// TD- and three characters
    Notice,
    /// JJ/MM/AA HH:MM:SS
    Date,
    /// The same, a hyphen and three characters
    DatedPeriod,
    /// One to seven digits and Wh; the next four have another unit
    WattHours,
    VarHours,
    VoltAmpereHours,
    KilowattHours,
    KilovarHours,
    /// One to five digits and kW
    Power,
    /// The same, with a T before the unit where the point was cut short
    PowerPoint,
    /// One to five digits and kW or kVA
    ContractPower,
    /// One to five digits, or a hyphen and one to four; a comma or a point; two digits
    Tangent,
}

/// What stands first in a stamp: H, E, h or e, or a space.
#[derive(Clone, Copy, PartialEq, Eq)]
pub enum Season {
    Letter,
    Space,
}

#[derive(Clone, Copy)]
pub struct Rule {
    pub kind: Kind,
    /// The smallest and the largest length of the data.
    pub lengths: (u8, u8),
    pub season: Option<Season>,
}

const fn unstamped(kind: Kind, width: u8) -> Rule {
    Rule {
        kind,
        lengths: (width, width),
        season: None,
    }
}

const fn decimal(width: u8) -> Rule {
    unstamped(Kind::Decimal, width)
}

const fn text(width: u8) -> Rule {
    unstamped(Kind::Text, width)
}

const fn stamped(season: Season, kind: Kind, width: u8) -> Rule {
    Rule {
        kind,
        lengths: (width, width),
        season: Some(season),
    }
}

pub fn find(mode: Mode, label: &[u8]) -> Option<Rule> {
    match mode {
        Mode::Historic => find_historic(label),
        Mode::Standard => find_standard(label),
        Mode::Business => business::find(label),
    }
}

fn find_historic(label: &[u8]) -> Option<Rule> {
    Some(match label {
        b"ADCO" => text(12),
        b"OPTARIF" | b"PTEC" | b"DEMAIN" => text(4),
        b"ISOUSC" | b"PEJP" => decimal(2),
        b"BASE" | b"HCHC" | b"HCHP" | b"EJPHN" | b"EJPHPM" => decimal(9),
        b"BBRHCJB" | b"BBRHPJB" | b"BBRHCJW" | b"BBRHPJW" | b"BBRHCJR" | b"BBRHPJR" => decimal(9),
        b"IINST" | b"IINST1" | b"IINST2" | b"IINST3" => decimal(3),
        b"ADPS" | b"ADIR1" | b"ADIR2" | b"ADIR3" => decimal(3),
        b"IMAX" | b"IMAX1" | b"IMAX2" | b"IMAX3" => decimal(3),
        b"PAPP" | b"PMAX" => decimal(5),
        b"HHPHC" => text(1),
        b"MOTDETAT" => text(6),
        b"PPOT" => text(2),
        _ => return None,
    })
}

fn find_standard(label: &[u8]) -> Option<Rule> {
    Some(match label {
        b"ADSC" => text(12),
        b"VTIC" => text(2),
        b"DATE" => stamped(Season::Letter, Kind::Text, 0),
        b"NGTF" | b"LTARF" => text(16),
        b"EAST" | b"EAIT" => decimal(9),
        b"EASF01" | b"EASF02" | b"EASF03" | b"EASF04" | b"EASF05" => decimal(9),
        b"EASF06" | b"EASF07" | b"EASF08" | b"EASF09" | b"EASF10" => decimal(9),
        b"EASD01" | b"EASD02" | b"EASD03" | b"EASD04" => decimal(9),
        b"ERQ1" | b"ERQ2" | b"ERQ3" | b"ERQ4" => decimal(9),
        b"IRMS1" | b"IRMS2" | b"IRMS3" | b"URMS1" | b"URMS2" | b"URMS3" => decimal(3),
        b"PREF" | b"PCOUP" => decimal(2),
        b"SINSTS" | b"SINSTS1" | b"SINSTS2" | b"SINSTS3" | b"SINSTI" => decimal(5),
        b"SMAXSN" | b"SMAXSN1" | b"SMAXSN2" | b"SMAXSN3" | b"SMAXIN" | b"SMAXSN-1"
        | b"SMAXSN1-1" | b"SMAXSN2-1" | b"SMAXSN3-1" | b"SMAXIN-1" | b"CCASN" | b"CCASN-1"
        | b"CCAIN" | b"CCAIN-1" => stamped(Season::Letter, Kind::Decimal, 5),
        b"UMOY1" | b"UMOY2" | b"UMOY3" => stamped(Season::Letter, Kind::Decimal, 3),
        b"STGE" => unstamped(Kind::Hexadecimal, 8),
        b"DPM1" | b"DPM2" | b"DPM3" | b"FPM1" | b"FPM2" | b"FPM3" => {
            stamped(Season::Space, Kind::Decimal, 2)
        }
        b"MSG1" => text(32),
        b"MSG2" => text(16),
        b"PRM" => text(14),
        b"RELAIS" => decimal(3),
        b"NTARF" | b"NJOURF" | b"NJOURF+1" => decimal(2),
        b"PJOURF+1" | b"PPOINTE" => text(98),
        _ => return None,
    })
}
