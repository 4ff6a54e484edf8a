//! What the tests hand in: wire bytes and groups, made by the documents' sentences and not by the archive.

use espandim::{Mode, Station};

/// "STX is 0x02 (wire 0x82)".
pub const STX: u8 = 0x82;
pub const ETX: u8 = 0x03;
/// "EOT 0x04 (wire 0x84)".
pub const EOT: u8 = 0x84;
pub const LF: u8 = 0x0A;
/// "CR 0x0D (wire 0x8D)".
pub const CR: u8 = 0x8D;
/// A sound character that a line outside of every frame passes over.
pub const IDLE: u8 = 0x00;

/// "A wire byte is seven data bits with an even parity bit on top".
pub fn wire(character: u8) -> u8 {
    match character.count_ones() % 2 {
        0 => character,
        _ => character | 0x80,
    }
}

/// A group on the wire: LF, its content, CR.
pub fn group(content: &[u8]) -> Vec<u8> {
    let mut bytes = vec![LF];
    bytes.extend(content.iter().map(|&character| wire(character)));
    bytes.push(CR);
    bytes
}

/// A frame on the wire: STX, the groups with these contents, ETX.
pub fn frame(contents: &[&[u8]]) -> Vec<u8> {
    let mut bytes = vec![STX];
    contents
        .iter()
        .for_each(|content| bytes.extend(group(content)));
    bytes.push(ETX);
    bytes
}

/// The content of the group with these fields. "Check character: add the character codes, take the remainder by 64, add
/// 32. Historic: .. the final separator is not counted. Standard: it is counted too". Document 003, 2.9.1, of the business
/// meter: all separators are a space, and the sum is "mode de calcul n°1", which is that of the historic meters (1.5.2).
pub fn content(mode: Mode, label: &[u8], stamp: &[u8], data: &[u8]) -> Vec<u8> {
    let separator = match mode {
        Mode::Historic | Mode::Business => b' ',
        Mode::Standard => b'\t',
    };
    let mut content = [label, &[separator]].concat();
    if !stamp.is_empty() {
        content.extend_from_slice(stamp);
        content.push(separator);
    }
    content.extend_from_slice(data);
    let mut sum: u32 = content.iter().map(|&character| u32::from(character)).sum();
    if mode == Mode::Standard {
        sum += u32::from(separator);
    }
    content.push(separator);
    content.push((sum % 64 + 32) as u8);
    content
}

/// What line 5 of a new station answers to these bytes, as the listing prints it.
pub fn listing(mode: Mode, bytes: &[u8]) -> Vec<String> {
    let mut station = Station::new();
    station.open(5, mode).unwrap();
    let mut answers = Vec::new();
    for piece in bytes.chunks(64) {
        station.deliver(5, piece).unwrap();
        loop {
            let round = station.round();
            answers.extend((&round).into_iter().map(|(line, answer)| {
                assert_eq!(line, 5);
                answer.to_string()
            }));
            if round.counts() == [0; 8] {
                break;
            }
        }
    }
    answers
}
