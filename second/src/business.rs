//! The older business meter, the PME-PMI: its labels and data formats, from
//! document 003, chapter 2.9 (document 02, M-100).
//!
//! The labels are held as Tableau 10 prints them, and each format is put
//! together as chapter 2.9 does it: the value by the letter of 2.9.3 that the
//! table refers to, and then the unit of the table.

use crate::formats::{exactly, one_text_of, run, Format, Kind};
use crate::table::Rule;

/// Tableau 10, a row a line and in its order, with the columns "Etiquette",
/// "Unité", "Palier de compteur" and "Précisions".
const TABLEAU_10: &str = "\
TRAME | | 2013 | W
ADS | | 2013 | F
MESURES1 | | Tous | A
DATE | | Tous | B
EA_s | Wh | Tous | L
ER+_s | varh | Tous | M
ER-_s | varh | Tous | M
EAPP_s | VAh | Tous | P
EA_i | Wh | Tous | L
ER+_i | varh | Tous | M
ER-_i | varh | Tous | M
EAPP_i | VAh | Tous | P
PTCOUR1 | | Tous | N
TARIFDYN | | Tous | T
ETATDYN1 | | 2013 | U
PREAVIS1 | | 2013 | U
TDYN1CD | | 2013 | U
TDYN1CF | | 2013 | U
TDYN1FD | | 2013 | U
TDYN1FF | | 2013 | U
MODE | | Tous | R
CONFIG | | Tous | E
DATEPAX | | Tous | B , C
PAX_s | kW | Tous | C
PAX_i | kW | Tous | C
DébP | | Tous | B
EAP_s | kWh | Tous | D
EAP_i | kWh | Tous | D
ER+P_s | kvarh | Tous | D
ER-P_s | kvarh | Tous | D
ER+P_i | kvarh | Tous | D
ER-P_i | kvarh | Tous | D
DébP-1 | | Tous | B
FinP-1 | | Tous | B
EaP-1_s | kWh | Tous | D
EaP-1_i | kWh | Tous | D
ER+P-1_s | kvarh | Tous | D
ER-P-1_s | kvarh | Tous | D
ER+P-1_i | kvarh | Tous | D
ER-P-1_i | kvarh | Tous | D
PS | kW ou kVA | Tous | I
PREAVIS | | Tous | K
PA1MN | kW | Tous | S
PMAX_s | kW ou kVA | Tous | V
PMAX_i | kW ou kVA | Tous | V
TGPHI_s | | Tous | Q
TGPHI_i | | Tous | Q
MESURES2 | | Tous | A
PTCOUR2 | | Tous | N
ETATDYN2 | | 2013 | U
PREAVIS2 | | 2013 | U
TDYN2CD | | 2013 | U
TDYN2CF | | 2013 | U
TDYN2FD | | 2013 | U
TDYN2FF | | 2013 | U
DébP_2 | | Tous | B
EaP_s2 | kWh | Tous | D
DébP-1_2 | | Tous | B
FinP-1_2 | | Tous | B
EaP-1_s2 | kWh | Tous | D
";

/// A row of Tableau 10, for one label.
#[derive(Clone, Debug)]
pub struct Row {
    pub label: String,
    unit: &'static str,
    /// "Tous", or "2013" for what only the later meters send.
    pub meters: &'static str,
    letter: char,
}

/// The rows of Tableau 10 as they are printed.
fn printed_rows() -> Vec<Row> {
    TABLEAU_10
        .lines()
        .map(|line| {
            let columns: Vec<&'static str> = line.split('|').map(str::trim).collect();
            let [label, unit, meters, letters] = columns[..] else {
                panic!("a row has four columns: {line}");
            };
            Row {
                // 1.5.2: labels are "sans caractère accentué", so that the é
                // of the table is sent as e.
                label: label.replace('é', "e"),
                unit,
                meters,
                // "( B , C )" of DATEPAX: (B) has its format, (C) says when
                // it is sent.
                letter: letters.chars().next().expect("a row has a letter"),
            }
        })
        .collect()
}

/// Whether the label stands for six, by its X: PMAX has one too, which is a
/// letter like others.
fn is_numbered(row: &Row) -> bool {
    row.label.contains("PAX")
}

/// All rows, a row a label. "X = 1 à 6", and (C) says in which order:
/// "DATEPA1, PA1_s, PA1_i, DATEPA2, PA2_s, PA2_i, ... , DATEPA6, PA6_s, PA6_i".
pub fn rows() -> Vec<Row> {
    let printed = printed_rows();
    let mut rows = Vec::new();
    for stretch in printed.chunk_by(|one, next| is_numbered(one) == is_numbered(next)) {
        if !is_numbered(&stretch[0]) {
            rows.extend_from_slice(stretch);
            continue;
        }
        for number in 1..=6 {
            rows.extend(stretch.iter().map(|row| Row {
                label: row.label.replace('X', &number.to_string()),
                ..row.clone()
            }));
        }
    }
    rows
}

/// The rules of the business meter. "No row of mode 2 is stamped; dates in it
/// are data."
pub fn rules() -> Vec<Rule> {
    rows()
        .into_iter()
        .map(|row| {
            let format = format_of(&row);
            Rule::new(row.label, format, None)
        })
        .collect()
}

/// 2.9.1: a unit of the table "est inscrite telle quelle, dans la trame émise,
/// à la suite de la valeur émise".
fn format_of(row: &Row) -> Format {
    let value = value_of(row);
    match row.unit {
        "" => value,
        "kW ou kVA" => Format::Sequence(vec![value, one_text_of(&["kW", "kVA"])]),
        unit => Format::Sequence(vec![value, exactly(unit)]),
    }
}

/// The format of a value, by the sub-chapters of 2.9.3. The largest values and
/// the zeros left out in front are the sender's affair: M-100's 13 and 14 are
/// about lengths and kinds.
fn value_of(row: &Row) -> Format {
    match row.letter {
        // "une chaîne de 10 caractères ASCII"; the names that it may be "sont
        // susceptibles de continuer à évoluer", so any will do.
        'A' => run(Kind::Text, 10, 10),
        'B' => date(),
        // "xxxxxTkW", "il varie entre 1 et 5"; "L'élément « T » indique si le
        // point de mesure est tronqué ou non": it is there or not.
        'C' => Format::Sequence(vec![digits(1, 5), one_text_of(&["", "T"])]),
        // "xxxxxxxkWh" or "xxxxxxxkvarh", "il varie entre 1 et 7".
        'D' => digits(1, 7),
        'E' => one_text_of(&["CONSO", "PROD"]),
        // "une chaîne de 12 caractères ASCII alphanumériques".
        'F' => run(Kind::Text, 12, 12),
        // "xxxxxkW" or "xxxxxkVA", "il varie entre 1 et 5"; (V) has no form of
        // its own and the same units.
        'I' | 'S' | 'V' => digits(1, 5),
        // "soit de la chaîne de 3 caractères", "soit de la chaîne de 4
        // caractères ... et du caractère ASCII « espace »".
        'K' => one_text_of(&["DEP", "DEP "]),
        // These have no form of their own. The active and reactive energies
        // since the last Td of the ICE meter (2.7.3) have 1 to 7 digits, and
        // the apparent one is taken to be like them.
        'L' | 'M' | 'P' => digits(1, 7),
        // "une chaîne de 1 à 3 caractères ASCII".
        'N' => run(Kind::Text, 1, 3),
        'Q' => tangent(),
        'R' => exactly("CONTROLE"),
        'T' => one_text_of(&["ACTIF", "INACTIF"]),
        'U' => dynamic_tariff(&row.label),
        'W' => exactly("TEST"),
        other => panic!("2.9.3 has no ( {other} )"),
    }
}

fn digits(least: usize, most: usize) -> Format {
    run(Kind::Decimal, least, most)
}

/// (B): "la chaîne de 17 caractères ASCII suivante : JJ/MM/AA HH:MM:SS". Each
/// letter is a digit, and the rest is as it stands; no calendar is asked, for
/// "dates in it are data" (M-100).
fn date() -> Format {
    let places = ["JJ", "/", "MM", "/", "AA", " ", "HH", ":", "MM", ":", "SS"];
    let format_at = |place: &'static str| match place {
        "/" | " " | ":" => exactly(place),
        letters => digits(letters.len(), letters.len()),
    };
    Format::Sequence(places.map(format_at).to_vec())
}

/// (Q): "xxxxx,xx", "une précision de 2 chiffres après la virgule", "Les
/// valeurs limites sont -9999,99 et 99999,99"; the plus sign is left out, and
/// the sign before the two digits is "« , »" or "« . »".
fn tangent() -> Format {
    let whole = Format::OneOf(vec![
        digits(1, 5),
        Format::Sequence(vec![exactly("-"), digits(1, 4)]),
    ]);
    Format::Sequence(vec![whole, one_text_of(&[",", "."]), digits(2, 2)])
}

/// (U): "ETATDYN1 aaa", "TDYN1CD JJ/MM/AA HH:MM:SS-aaa", "PREAVIS1 TD-aaa", and
/// the same for calendar 2. A name is "une chaîne de trois caractères": `TD- ?`
/// has two spaces in its own, one of them the last.
fn dynamic_tariff(label: &str) -> Format {
    let name = run(Kind::Text, 3, 3);
    if label.starts_with("ETATDYN") {
        name
    } else if label.starts_with("PREAVIS") {
        Format::Sequence(vec![exactly("TD-"), name])
    } else {
        Format::Sequence(vec![date(), exactly("-"), name])
    }
}
