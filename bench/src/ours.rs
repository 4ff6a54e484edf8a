//! The proved archive, through the functions that include/espandim.h declares: the one module with `unsafe` in it,
//! beside that which reads the clock and those which measure the stack.

use std::mem::size_of;
use std::ptr::from_mut;

type Marks = [[u8; 6]; 8];
type Places = [[u16; 4]; 8];
type Contents = [[u8; 128]; 8];
type Inboxes = [[u8; 256]; 8];

extern "C" {
    pub fn espandim_rows_open(
        marks: &mut Marks,
        places: &mut Places,
        contents: &Contents,
        inboxes: &Inboxes,
        line: u32,
        mode: u32,
    ) -> u32;
    pub fn espandim_rows_deliver(
        marks: &Marks,
        places: &mut Places,
        contents: &Contents,
        inboxes: &mut Inboxes,
        line: u32,
        bytes: *const u8,
        length: usize,
    ) -> u32;
    pub fn espandim_rows_round(
        marks: &mut Marks,
        places: &mut Places,
        contents: &mut Contents,
        inboxes: &Inboxes,
        sheet: *mut u8,
        length: usize,
        counts: &mut [u8; 8],
    ) -> u32;
    pub fn espandim_judge(
        mode: u32,
        content: *const u8,
        length: usize,
        stretches: &mut [usize; 6],
        place: &mut usize,
    ) -> u32;
    pub fn espandim_write(
        mode: u32,
        label: *const u8,
        label_length: usize,
        stamp: *const u8,
        stamp_length: usize,
        data: *const u8,
        data_length: usize,
        buffer: *mut u8,
        buffer_length: usize,
        written: &mut usize,
    ) -> u32;
}

/// The number for the content of one group, and the place where it went wrong.
pub fn judge(mode: u32, content: &[u8]) -> (u32, usize) {
    let (mut stretches, mut place) = ([0; 6], 0);
    let (pointer, length) = (content.as_ptr(), content.len());
    // SAFETY: every mode has its answer; pointer and length are those of one slice, which what is written can't overlap.
    let number = unsafe { espandim_judge(mode, pointer, length, &mut stretches, &mut place) };
    (number, place)
}

/// `struct espandim_station`: four arrays, with a row for each line. Zeros are the station with all lines closed, and
/// no bytes are a wrong station.
#[derive(Clone)]
#[repr(C)]
pub struct Station {
    marks: Marks,
    places: Places,
    contents: Contents,
    inboxes: Inboxes,
}

// None of a station's bytes is padding.
const _: () = assert!(size_of::<Station>() == 3184);

impl Default for Station {
    fn default() -> Station {
        Station {
            marks: [[0; 6]; 8],
            places: [[0; 4]; 8],
            contents: [[0; 128]; 8],
            inboxes: [[0; 256]; 8],
        }
    }
}

impl Station {
    pub fn open(&mut self, line: u32, mode: u32) -> u32 {
        // SAFETY: the four arrays of a whole station, ours alone. Every line and every mode has its answer.
        unsafe {
            espandim_rows_open(
                &mut self.marks,
                &mut self.places,
                &self.contents,
                &self.inboxes,
                line,
                mode,
            )
        }
    }

    pub fn deliver(&mut self, line: u32, bytes: &[u8]) -> u32 {
        // SAFETY: as above; pointer and length are those of one slice, which the station can't overlap.
        unsafe {
            espandim_rows_deliver(
                &self.marks,
                &mut self.places,
                &self.contents,
                &mut self.inboxes,
                line,
                bytes.as_ptr(),
                bytes.len(),
            )
        }
    }

    pub fn round(&mut self, sheet: &mut [u8], counts: &mut [u8; 8]) -> u32 {
        // SAFETY: as above; pointer and length are those of one slice that may be written, and no two `&mut` overlap.
        unsafe {
            espandim_rows_round(
                &mut self.marks,
                &mut self.places,
                &mut self.contents,
                &self.inboxes,
                sheet.as_mut_ptr(),
                sheet.len(),
                counts,
            )
        }
    }

    /// The addresses of the four arrays, in the order in which the three functions take them.
    pub fn addresses(&mut self) -> [usize; 4] {
        [
            from_mut(&mut self.marks) as usize,
            from_mut(&mut self.places) as usize,
            from_mut(&mut self.contents) as usize,
            from_mut(&mut self.inboxes) as usize,
        ]
    }
}
