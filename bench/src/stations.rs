//! The two stations under the same three calls, so that one harness drives both.

use crate::plain::station::LINES;
use crate::{ours, plain};

pub trait Station: Clone + Default {
    fn open(&mut self, line: u32, mode: u32) -> u32;
    fn deliver(&mut self, line: u32, bytes: &[u8]) -> u32;
    fn round(&mut self, sheet: &mut [u8], counts: &mut [u8; LINES]) -> u32;
}

/// Memory that begins at a multiple of 64: what it costs to copy bytes must not hang on where the stack happens to lie.
#[derive(Clone, Default)]
#[repr(align(64))]
pub struct Aligned<Memory>(pub Memory);

macro_rules! is_a_station {
    ($kind:ty) => {
        impl Station for $kind {
            #[inline(always)]
            fn open(&mut self, line: u32, mode: u32) -> u32 {
                <$kind>::open(self, line, mode)
            }

            #[inline(always)]
            fn deliver(&mut self, line: u32, bytes: &[u8]) -> u32 {
                <$kind>::deliver(self, line, bytes)
            }

            #[inline(always)]
            fn round(&mut self, sheet: &mut [u8], counts: &mut [u8; LINES]) -> u32 {
                <$kind>::round(self, sheet, counts)
            }
        }
    };
}

is_a_station!(ours::Station);
is_a_station!(plain::station::Station);
