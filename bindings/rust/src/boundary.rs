//! The five functions of the archive, and a station's memory: the one module with `unsafe` in it.
//!
//! `include/espandim.h` says what a caller owes. The functions here owe nothing to theirs, for they take references and
//! slices, and the language sees to these: they are not null (not even an empty slice's), they are aligned, all that
//! they say lies behind them, and that is at most `isize::MAX` bytes, which is below 2 to the 63. A `&mut` overlaps
//! nothing else that is lent, and nobody else touches what is lent while the call runs. The archive keeps no pointer.

#![deny(clippy::undocumented_unsafe_blocks)]

use core::mem::size_of;

type Marks = [[u8; 6]; 8];
type Places = [[u16; 4]; 8];
type Contents = [[u8; 128]; 8];
type Inboxes = [[u8; 256]; 8];

/// `struct espandim_station`: four arrays, with a row for each line. Only the archive reads and writes these numbers.
#[repr(C)]
#[derive(Clone)]
pub(crate) struct Station {
    marks: Marks,
    places: Places,
    contents: Contents,
    inboxes: Inboxes,
}

// None of a station's bytes is padding.
const _: () = assert!(size_of::<Station>() == 8 * (6 + 2 * 4 + 128 + 256));
const _: () = assert!(size_of::<usize>() == 8); // the archive is for a machine of 64 bits

impl Station {
    /// Zeros: all lines closed.
    pub(crate) const CLOSED: Station = Station {
        marks: [[0; 6]; 8],
        places: [[0; 4]; 8],
        contents: [[0; 128]; 8],
        inboxes: [[0; 256]; 8],
    };
}

extern "C" {
    fn espandim_rows_open(
        marks: &mut Marks,
        places: &mut Places,
        contents: &Contents,
        inboxes: &Inboxes,
        line: u32,
        mode: u32,
    ) -> u32;
    fn espandim_rows_deliver(
        marks: &Marks,
        places: &mut Places,
        contents: &Contents,
        inboxes: &mut Inboxes,
        line: u32,
        bytes: *const u8,
        length: usize,
    ) -> u32;
    fn espandim_rows_round(
        marks: &mut Marks,
        places: &mut Places,
        contents: &mut Contents,
        inboxes: &Inboxes,
        sheet: *mut u8,
        length: usize,
        counts: &mut [u8; 8],
    ) -> u32;
    fn espandim_judge(
        mode: u32,
        content: *const u8,
        length: usize,
        stretches: &mut [usize; 6],
        place: &mut usize,
    ) -> u32;
    fn espandim_write(
        mode: u32,
        label: *const u8,
        label_length: usize,
        stamp: *const u8,
        stamp_length: usize,
        data: *const u8,
        data_length: usize,
        buffer: *mut u8,
        buffer_length: usize,
        written: &mut usize,
    ) -> u32;
}

pub(crate) fn open(station: &mut Station, line: u32, mode: u32) -> u32 {
    // SAFETY: the four arrays of a whole station, ours alone. Every line and every mode has its answer.
    unsafe {
        espandim_rows_open(
            &mut station.marks,
            &mut station.places,
            &station.contents,
            &station.inboxes,
            line,
            mode,
        )
    }
}

pub(crate) fn deliver(station: &mut Station, line: u32, bytes: &[u8]) -> u32 {
    // SAFETY: as in `open`; pointer and length are those of one slice. The station, lent as `&mut`, can't overlap it.
    unsafe {
        espandim_rows_deliver(
            &station.marks,
            &mut station.places,
            &station.contents,
            &mut station.inboxes,
            line,
            bytes.as_ptr(),
            bytes.len(),
        )
    }
}

pub(crate) fn round(station: &mut Station, sheet: &mut [u8], counts: &mut [u8; 8]) -> u32 {
    // SAFETY: as in `open`; pointer and length are those of one slice that may be written; no two `&mut` overlap. A sheet
    // that is too short is refused and not touched.
    unsafe {
        espandim_rows_round(
            &mut station.marks,
            &mut station.places,
            &mut station.contents,
            &station.inboxes,
            sheet.as_mut_ptr(),
            sheet.len(),
            counts,
        )
    }
}

pub(crate) fn judge(
    mode: u32,
    content: &[u8],
    stretches: &mut [usize; 6],
    place: &mut usize,
) -> u32 {
    // SAFETY: pointer and length are those of one slice, which neither the six numbers nor the one, lent as `&mut`, can
    // overlap; nor can these two each other.
    unsafe { espandim_judge(mode, content.as_ptr(), content.len(), stretches, place) }
}

pub(crate) fn write(
    mode: u32,
    label: &[u8],
    stamp: &[u8],
    data: &[u8],
    buffer: &mut [u8],
    written: &mut usize,
) -> u32 {
    // SAFETY: each pointer and the length beside it are those of one slice. Buffer and number are lent as `&mut`, so
    // they overlap nothing; the three that are only read may overlap each other.
    unsafe {
        espandim_write(
            mode,
            label.as_ptr(),
            label.len(),
            stamp.as_ptr(),
            stamp.len(),
            data.as_ptr(),
            data.len(),
            buffer.as_mut_ptr(),
            buffer.len(),
            written,
        )
    }
}

/// The bytes of a station's memory.
pub(crate) fn bytes(station: &Station) -> &[u8; size_of::<Station>()] {
    // SAFETY: as many bytes as a station has, none of them padding, as asserted above; a byte needs no alignment. They
    // are lent for as long as the station is.
    unsafe { &*(station as *const Station).cast() }
}

#[cfg(test)]
mod tests {
    extern crate std;
    use super::*;
    use std::vec::Vec;

    /// Document 01: 18, "sheet under" so many bytes, "nothing changed", and "a refused round gives eight zero counts"; M-108:
    /// "The smallest sheet, and so 18, is now at 1,096 bytes." [`crate::Station::round`] always lends 1,096, so only here
    /// can it be given a shorter one.
    #[test]
    fn a_sheet_of_1095_bytes_is_refused_and_one_of_1096_is_not() {
        let mut station = Station::CLOSED;
        assert_eq!(open(&mut station, 3, 1), 0);
        assert_eq!(deliver(&mut station, 3, &[0x82, 0x03]), 0);
        let before = *bytes(&station);

        let (mut sheet, mut counts) = ([0xEE; 1096], [0xEE; 8]);
        for length in [0, 1, 1079, 1080, 1095] {
            counts = [0xEE; 8];
            let short = &mut sheet[..length];
            assert_eq!(round(&mut station, short, &mut counts), 18);
            assert_eq!(*bytes(&station), before);
            assert_eq!((sheet, counts), ([0xEE; 1096], [0; 8]));
        }

        // Eight counts, eight offsets, the one entry; "bytes after the last entry are unchanged".
        assert_eq!(round(&mut station, &mut sheet, &mut counts), 0);
        assert_eq!(counts, [0, 0, 0, 2, 0, 0, 0, 0]);
        assert_eq!(sheet[..8], counts);
        assert_eq!(
            sheet[8..24],
            [0, 0, 0, 0, 0, 0, 24, 0, 0, 0, 0, 0, 0, 0, 0, 0]
        );
        assert_eq!(sheet[24..30], [2, 0, 0, 0, 1, 0]);
        assert_eq!(sheet[30..], [0xEE; 1096 - 30]);
    }

    /// M-108: "Every sheet entry carries it, two bytes, low byte first, before the text". Two lines in their 258th frame,
    /// which is 2 and 256, a third one in its first: the whole sheet, laid out by hand.
    #[test]
    fn the_number_of_the_frame_stands_before_the_text() {
        let mut station = Station::CLOSED;
        let (mut sheet, mut counts) = ([0xEE; 1096], [0; 8]);
        for line in [1, 4, 6] {
            assert_eq!(open(&mut station, line, 1), 0);
        }
        for _ in 1..258 {
            assert_eq!(deliver(&mut station, 1, &[0x82, 0x03]), 0);
            assert_eq!(deliver(&mut station, 4, &[0x82, 0x03]), 0);
            assert_eq!(round(&mut station, &mut sheet, &mut counts), 0);
        }
        let stamped = b"SMAXSN\tH081225223518\t01200\t7";
        assert_eq!(deliver(&mut station, 1, &begun_frame(stamped)), 0);
        let wrong_kind = b"STGE\t003a0001\tZ";
        assert_eq!(deliver(&mut station, 4, &begun_frame(wrong_kind)), 0);
        let plain = b"URMS1\t230\t?";
        assert_eq!(deliver(&mut station, 6, &begun_frame(plain)), 0);
        sheet = [0xEE; 1096];
        assert_eq!(round(&mut station, &mut sheet, &mut counts), 0);

        // Contents of 28, 15 and 11 characters, and STX, LF and CR. The first entry has a text of 6, 13 and 5 characters
        // behind its 6 bytes, the second no text, and the third one of 5 and 3.
        assert_eq!(counts, [0, 31, 0, 0, 18, 0, 14, 0]);
        let mut expected = Vec::from(counts);
        expected.extend([0, 0, 24, 0, 0, 0, 0, 0, 54, 0, 0, 0, 60, 0, 0, 0]);
        expected.extend([1, 6, 13, 5, 2, 1]);
        expected.extend(b"SMAXSNH08122522351801200");
        expected.extend([14, 0, 0, 8, 2, 1]);
        expected.extend([1, 5, 0, 3, 1, 0]);
        expected.extend(b"URMS1230");
        assert_eq!(sheet[..expected.len()], expected);
        assert!(sheet[expected.len()..].iter().all(|&byte| byte == 0xEE));
    }

    /// Document 01: "Refused judging shows three empty stretches"; [`crate::judge`] hands out none at all then.
    #[test]
    fn refused_judging_shows_three_empty_stretches() {
        let (mut stretches, mut place) = ([7; 6], 7);
        assert_eq!(judge(1, b"URMS1\t230\t?", &mut stretches, &mut place), 1);
        assert_eq!((stretches, place), ([0, 5, 0, 0, 6, 3], 0));
        assert_eq!(judge(1, b"URMS1\t230\t6", &mut stretches, &mut place), 10);
        assert_eq!(stretches, [0; 6]);
    }

    /// A content of each number that judging gives, as characters and with its right check character but for 10: mode,
    /// content, number and, of document 02's M-104, the place.
    const JUDGED: [(u32, &[u8], u32, usize); 13] = [
        (1, b"URMS1\t230\t?", 1, 0),
        (3, b"URMS1\t230\t?", 19, 0),
        (1, &[b'A'; 129], 8, 0),
        (1, b"URMS1 230\t?", 9, 0),
        (1, b"STGE\t003a0001\t6", 10, 0),
        (0, b"PAPQ 0075a _", 11, 0),
        (1, b"SMAXSN\t01200\t?", 12, 7),
        (1, b"DATE\tH090229000000\t\t7", 12, 5),
        (2, b"PA1MN 123456kW T", 13, 0),
        (1, b"STGE\t003a0001\tZ", 14, 8),
        (1, b"SMAXSN\tH081225223518\t012o0\t6", 14, 24),
        (0, b"PAPP 0075a ^", 14, 9),
        (2, b"PA1_s 123456kW K", 14, 11),
    ];

    /// M-104: "for 14 the first wrong data character ..; for 12 the first character after the label's separator; for all
    /// others 0". Every call sets it, whatever was there before.
    #[test]
    fn judging_sets_the_place_to_0_but_for_12_and_14() {
        for (mode, content, number, expected) in JUDGED {
            for before in [0, 7, usize::MAX] {
                let (mut stretches, mut place) = ([7; 6], before);
                assert_eq!(judge(mode, content, &mut stretches, &mut place), number);
                assert_eq!(place, expected);
            }
        }
    }

    /// M-104: "In a sheet entry for a refusal the fourth byte holds this place instead of zero; the second and third stay
    /// zero." [`crate::Round`] does not show them.
    #[test]
    fn the_fourth_byte_of_a_refused_groups_entry_is_the_place() {
        for (mode, content, number, place) in JUDGED {
            if (2..=14).contains(&number) {
                let entry = [number as u8, 0, 0, place as u8, 1, 0];
                assert_eq!(first_entry(mode, &begun_frame(content)), entry);
            }
        }
        // 7, and those that are no refusals of a group: 2 to 6. All are in the first frame but 5, which is in the second.
        let others: [(&[u8], u8, u8); 6] = [
            (&[0x82, 0x03], 2, 1),
            (&[0x82, 0x8D, 0x03], 3, 1),
            (&[0x82, 0x84], 4, 1),
            (&[0x82, 0x82], 5, 2),
            (&[0x82, 0x0A, 0x53, 0x0A], 6, 1),
            (&[0x82, 0x0A, 0xD3, 0x8D], 7, 1),
        ];
        for (wire, number, frame) in others {
            assert_eq!(first_entry(1, wire), [number, 0, 0, 0, frame, 0]);
        }
    }

    /// STX, LF, these characters and CR, as sound wire bytes.
    fn begun_frame(content: &[u8]) -> Vec<u8> {
        let sound = |&one: &u8| one | (one.count_ones() as u8 % 2) << 7;
        let characters = [0x02, 0x0A].iter().chain(content).chain(&[0x0D]);
        characters.map(sound).collect()
    }

    /// The six bytes of what line 6 answers first to these bytes, an accepted group apart.
    fn first_entry(mode: u32, wire: &[u8]) -> [u8; 6] {
        let mut station = Station::CLOSED;
        assert_eq!(open(&mut station, 6, mode), 0);
        assert_eq!(deliver(&mut station, 6, wire), 0);
        let (mut sheet, mut counts) = ([0xEE; 1096], [0; 8]);
        while sheet[20] != 24 {
            assert_eq!(round(&mut station, &mut sheet, &mut counts), 0);
            assert_ne!(counts[6], 0, "there is no answer");
        }
        assert_eq!(sheet[30..], [0xEE; 1096 - 30]);
        sheet[24..30].try_into().unwrap()
    }

    /// Document 01: the writer tells "how many bytes it wrote, 0 when it refuses".
    #[test]
    fn refused_writing_tells_that_nothing_is_written() {
        let (mut buffer, mut written) = ([0xEE; 12], 7);
        assert_eq!(
            write(1, b"URMS1", b"", b"230", &mut buffer, &mut written),
            15
        );
        assert_eq!((buffer, written), ([0xEE; 12], 0));
    }
}
