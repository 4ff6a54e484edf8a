//! Stamps: a season letter, then YYMMDDhhmmss.

use super::table::Season;

pub const STAMP_LENGTH: usize = 13;

pub fn is_right(season: Season, stamp: &[u8; STAMP_LENGTH]) -> bool {
    let season_is_right = match season {
        Season::Letter => matches!(stamp[0], b'H' | b'E' | b'h' | b'e'),
        Season::Space => stamp[0] == b' ',
    };
    if !season_is_right || !all_digits(&stamp[1..]) {
        return false;
    }
    let number = |place: usize| (stamp[place] - b'0') * 10 + (stamp[place + 1] - b'0');
    let (year, month, day) = (number(1), number(3), number(5));
    let (hour, minute, second) = (number(7), number(9), number(11));
    (1..=12).contains(&month)
        && (1..=days_in(year, month)).contains(&day)
        && hour <= 23
        && minute <= 59
        && second <= 59
}

/// No test has a way out, so that the compiler tests several at once.
fn all_digits(text: &[u8]) -> bool {
    text.iter()
        .fold(true, |all, one| all & one.is_ascii_digit())
}

pub fn days_in(year: u8, month: u8) -> u8 {
    match month {
        2 if year % 4 == 0 => 29,
        2 => 28,
        4 | 6 | 9 | 11 => 30,
        _ => 31,
    }
}
