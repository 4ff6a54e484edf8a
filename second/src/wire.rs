//! Characters on the wire (document 01, "Characters on the wire").

/// "STX is 0x02 (wire 0x82)": it begins a frame.
pub const START_OF_TEXT: u8 = 0x02;
/// "ETX 0x03": it ends a frame.
pub const END_OF_TEXT: u8 = 0x03;
/// "EOT 0x04 (wire 0x84)": it interrupts a frame.
pub const END_OF_TRANSMISSION: u8 = 0x04;
/// "HT 0x09": the separator of standard mode.
pub const HORIZONTAL_TAB: u8 = 0x09;
/// "LF 0x0A": it opens a group.
pub const LINE_FEED: u8 = 0x0A;
/// "CR 0x0D (wire 0x8D)": it closes a group.
pub const CARRIAGE_RETURN: u8 = 0x0D;
/// "SP 0x20 (wire 0xA0)": the separator of historic mode, and of the business
/// meter.
pub const SPACE: u8 = 0x20;

/// "It is sound exactly when its count of ones is even."
pub fn is_sound(wire_byte: u8) -> bool {
    wire_byte.count_ones().is_multiple_of(2)
}

/// "The character is its low seven bits"; an unsound byte has none.
pub fn character_of(wire_byte: u8) -> Option<u8> {
    if is_sound(wire_byte) {
        Some(wire_byte % 128)
    } else {
        None
    }
}

/// "A wire byte is seven data bits with an even parity bit on top": the one
/// sound byte of a character. Only the low seven bits are looked at.
pub fn to_wire(character: u8) -> u8 {
    let low = character % 128;
    if is_sound(low) {
        low
    } else {
        low + 128
    }
}

/// A row of characters as sound wire bytes.
pub fn all_to_wire(characters: &[u8]) -> Vec<u8> {
    characters.iter().map(|one| to_wire(*one)).collect()
}
