//! Characters on the wire: seven data bits with an even parity bit on top.

pub const HORIZONTAL_TAB: u8 = 0x09;
pub const SPACE: u8 = 0x20;

/// The control characters as they come off the wire, parity bit included: a line knows them by one comparison, and an
/// unsound byte is none of them.
pub mod control {
    pub const START_OF_TEXT: u8 = 0x82;
    pub const END_OF_TEXT: u8 = 0x03;
    pub const END_OF_TRANSMISSION: u8 = 0x84;
    pub const LINE_FEED: u8 = 0x0A;
    pub const CARRIAGE_RETURN: u8 = 0x8D;
}

pub fn is_sound(wire: u8) -> bool {
    wire.count_ones() % 2 == 0
}

pub fn character_of(wire: u8) -> u8 {
    wire & 0x7F
}

pub fn to_wire(character: u8) -> u8 {
    character | ((character.count_ones() as u8 % 2) << 7)
}
