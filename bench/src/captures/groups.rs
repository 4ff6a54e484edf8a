//! Right groups: the documents' labels, with data and stamps that are made up.

use super::business;
use super::dice::Dice;
use crate::plain::group::check_character;
use crate::plain::table::{self, Kind, Mode, Rule, Season};
use crate::plain::wire::{control, to_wire};

const STANDARD_LABELS: &str =
    "ADSC VTIC DATE NGTF LTARF EAST EASF01 EASF02 EASF03 EASF04 EASF05 EASF06 EASF07 EASF08 \
    EASF09 EASF10 EASD01 EASD02 EASD03 EASD04 EAIT ERQ1 ERQ2 ERQ3 ERQ4 IRMS1 IRMS2 IRMS3 \
    URMS1 URMS2 URMS3 PREF PCOUP SINSTS SINSTS1 SINSTS2 SINSTS3 SMAXSN SMAXSN1 SMAXSN2 \
    SMAXSN3 SMAXSN-1 SMAXSN1-1 SMAXSN2-1 SMAXSN3-1 SINSTI SMAXIN SMAXIN-1 CCASN CCASN-1 \
    CCAIN CCAIN-1 UMOY1 UMOY2 UMOY3 STGE DPM1 FPM1 DPM2 FPM2 DPM3 FPM3 MSG1 MSG2 PRM RELAIS \
    NTARF NJOURF NJOURF+1 PJOURF+1 PPOINTE";

const HISTORIC_LABELS: &str =
    "ADCO OPTARIF ISOUSC BASE HCHC HCHP EJPHN EJPHPM BBRHCJB BBRHPJB BBRHCJW BBRHPJW BBRHCJR \
    BBRHPJR PEJP PTEC DEMAIN IINST IINST1 IINST2 IINST3 ADPS ADIR1 ADIR2 ADIR3 IMAX IMAX1 \
    IMAX2 IMAX3 PMAX PAPP HHPHC MOTDETAT PPOT";

/// In the order of document 003's Tableau 10.
const BUSINESS_LABELS: &str =
    "TRAME ADS MESURES1 DATE EA_s ER+_s ER-_s EAPP_s EA_i ER+_i ER-_i EAPP_i PTCOUR1 TARIFDYN \
    ETATDYN1 PREAVIS1 TDYN1CD TDYN1CF TDYN1FD TDYN1FF MODE CONFIG DATEPA1 PA1_s PA1_i DATEPA2 \
    PA2_s PA2_i DATEPA3 PA3_s PA3_i DATEPA4 PA4_s PA4_i DATEPA5 PA5_s PA5_i DATEPA6 PA6_s PA6_i \
    DebP EAP_s EAP_i ER+P_s ER-P_s ER+P_i ER-P_i DebP-1 FinP-1 EaP-1_s EaP-1_i ER+P-1_s \
    ER-P-1_s ER+P-1_i ER-P-1_i PS PREAVIS PA1MN PMAX_s PMAX_i TGPHI_s TGPHI_i MESURES2 PTCOUR2 \
    ETATDYN2 PREAVIS2 TDYN2CD TDYN2CF TDYN2FD TDYN2FF DebP_2 EaP_s2 DebP-1_2 FinP-1_2 EaP-1_s2";

/// The labels of a mode.
pub fn labels(mode: Mode) -> Vec<&'static str> {
    match mode {
        Mode::Historic => HISTORIC_LABELS.split(' ').collect(),
        Mode::Standard => STANDARD_LABELS.split(' ').collect(),
        Mode::Business => BUSINESS_LABELS.split(' ').collect(),
    }
}

/// A right group's content, in characters.
pub fn right_content(mode: Mode, label: &str, dice: &mut Dice) -> Vec<u8> {
    let rule = table::find(mode, label.as_bytes()).expect("a label of the mode's list");
    let stamp = rule.season.map(|season| stamp(season, dice));
    let data = right_data(rule, dice);
    content(mode, label.as_bytes(), stamp.as_deref(), &data)
}

fn right_data(rule: Rule, dice: &mut Dice) -> Vec<u8> {
    let drawn: fn(&mut Dice) -> u8 = match rule.kind {
        Kind::Decimal => |dice| dice.character(b'0', b'9'),
        Kind::Hexadecimal => |dice| dice.pick(b"0123456789ABCDEF"),
        Kind::Text => |dice| dice.character(b' ', b'~'),
        fields => return business::right_fields(fields, dice),
    };
    let (smallest, largest) = rule.lengths;
    let length = match smallest == largest {
        true => smallest, // nothing to draw
        false => smallest + dice.below(u64::from(largest - smallest) + 1) as u8,
    };
    (0..length).map(|_| drawn(dice)).collect()
}

/// The content of these fields, right or not, with its right check character.
pub fn content(mode: Mode, label: &[u8], stamp: Option<&[u8]>, data: &[u8]) -> Vec<u8> {
    let separator = mode.separator();
    let mut content = [label, &[separator]].concat();
    if let Some(stamp) = stamp {
        content.extend_from_slice(stamp);
        content.push(separator);
    }
    content.extend_from_slice(data);
    let check = check_character(mode, &content);
    content.extend([separator, check]);
    content
}

/// LF, the content and CR as sound wire bytes.
pub fn wire_of(content: &[u8]) -> Vec<u8> {
    let mut wire = vec![control::LINE_FEED];
    wire.extend(content.iter().map(|&character| to_wire(character)));
    wire.push(control::CARRIAGE_RETURN);
    wire
}

/// A right stamp. No month has fewer than 28 days, and all days are as good as another here.
fn stamp(season: Season, dice: &mut Dice) -> Vec<u8> {
    let letter = match season {
        // One in eight is from a clock in degraded mode.
        Season::Letter => dice.pick(b"HEHEHEHEHEHEHEhe"),
        Season::Space => b' ',
    };
    let mut stamp = vec![letter];
    for (first, limit) in [(0, 100), (1, 12), (1, 28), (0, 24), (0, 60), (0, 60)] {
        stamp.extend(format!("{:02}", first + dice.below(limit)).into_bytes());
    }
    stamp
}
