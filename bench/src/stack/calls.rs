//! The five functions of the archive, each called on a painted stack of its own.

use super::painted::Stack;
use crate::ours::{self, Station};
use crate::plain::station::LINES;
use std::ptr::from_mut;

pub struct Calls {
    open: Stack,
    deliver: Stack,
    round: Stack,
    judge: Stack,
    write: Stack,
}

impl Calls {
    pub fn new() -> Calls {
        Calls {
            open: Stack::new(),
            deliver: Stack::new(),
            round: Stack::new(),
            judge: Stack::new(),
            write: Stack::new(),
        }
    }

    /// Each function's name in the header, all the numbers that it can answer, and its stack.
    pub fn each(&mut self) -> [(&'static str, &'static [u32], &mut Stack); 5] {
        [
            ("espandim_open", &[0, 16, 19], &mut self.open),
            ("espandim_deliver", &[0, 15, 16, 17], &mut self.deliver),
            ("espandim_round", &[0, 18], &mut self.round),
            (
                "espandim_judge",
                &[1, 8, 9, 10, 11, 12, 13, 14, 19],
                &mut self.judge,
            ),
            (
                "espandim_write",
                &[0, 11, 12, 13, 14, 15, 19],
                &mut self.write,
            ),
        ]
    }

    pub fn open(&mut self, station: &mut Station, line: u32, mode: u32) -> u32 {
        let [marks, places, contents, inboxes] = station.addresses();
        let words = [
            marks,
            places,
            contents,
            inboxes,
            line as usize,
            mode as usize,
        ];
        let function = ours::espandim_rows_open as *const ();
        // SAFETY: these are its arguments: the four arrays of a whole station, ours alone, and two numbers. Every line
        // and every mode has its answer.
        unsafe { self.open.call(function, &words) }
    }

    pub fn deliver(&mut self, station: &mut Station, line: u32, bytes: &[u8]) -> u32 {
        let [marks, places, contents, inboxes] = station.addresses();
        let words = [
            marks,
            places,
            contents,
            inboxes,
            line as usize,
            bytes.as_ptr() as usize,
            bytes.len(),
        ];
        let function = ours::espandim_rows_deliver as *const ();
        // SAFETY: as above; address and length are those of one slice, which the station can't overlap.
        unsafe { self.deliver.call(function, &words) }
    }

    pub fn round(
        &mut self,
        station: &mut Station,
        sheet: &mut [u8],
        counts: &mut [u8; LINES],
    ) -> u32 {
        let [marks, places, contents, inboxes] = station.addresses();
        let words = [
            marks,
            places,
            contents,
            inboxes,
            sheet.as_mut_ptr() as usize,
            sheet.len(),
            from_mut(counts) as usize,
        ];
        let function = ours::espandim_rows_round as *const ();
        // SAFETY: as above; address and length are those of one slice that may be written, and no two `&mut` overlap.
        unsafe { self.round.call(function, &words) }
    }

    pub fn judge(&mut self, mode: u32, content: &[u8], stretches: &mut [usize; 6]) -> u32 {
        let mut place = 0;
        let words = [
            mode as usize,
            content.as_ptr() as usize,
            content.len(),
            from_mut(stretches) as usize,
            from_mut::<usize>(&mut place) as usize,
        ];
        let function = ours::espandim_judge as *const ();
        // SAFETY: these are its arguments; every mode has its answer, address and length are those of one slice, and
        // what may be written, the six numbers and the one, overlaps nothing.
        unsafe { self.judge.call(function, &words) }
    }

    pub fn write(&mut self, mode: u32, [label, stamp, data]: [&[u8]; 3], buffer: &mut [u8]) -> u32 {
        let mut written = 0;
        let words = [
            mode as usize,
            label.as_ptr() as usize,
            label.len(),
            stamp.as_ptr() as usize,
            stamp.len(),
            data.as_ptr() as usize,
            data.len(),
            buffer.as_mut_ptr() as usize,
            buffer.len(),
            from_mut::<usize>(&mut written) as usize,
        ];
        let function = ours::espandim_write as *const ();
        // SAFETY: these are its arguments; every mode has its answer, and each address and the length behind it are
        // those of one slice. What may be written, the buffer and the one number, overlaps nothing.
        unsafe { self.write.call(function, &words) }
    }
}
