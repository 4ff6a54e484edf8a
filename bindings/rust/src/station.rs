//! The station.

use crate::boundary;
use crate::numbers::{outcome, Mode, Refusal};
use crate::round::Round;
use core::fmt;

/// How many lines a station has.
pub const LINES: usize = 8;

/// How many bytes can wait on a line.
pub const INBOX: usize = 256;

/// Eight meters' lines, 0 to 7, each with an inbox for the bytes that came off its wire.
///
/// Line numbers have 32 bits: a caller's 256 would arrive as line 0, were it cut to a byte first. So would 4,294,967,296,
/// cut by `as u32`: use `try_into`. A station is 3,184 bytes with no pointer in them: it can stand in a `static`, be moved,
/// and be sent to another thread.
///
/// Noise on a line needs no call (document 02, M-113). Whatever bytes came, from the byte behind the next sound STX on the
/// line's answers are, in order, those of a line that was just opened in the same mode and got this STX first. Only the
/// [frame numbers](crate::Entry::frame) may differ, and the answer at the STX itself, [5](crate::Notice::FrameRestarted) or
/// none. The number goes on: an answer 5, or another number than that of the answer before, shows where the line began anew;
/// a frame whose STX was hit has no number of its own. To open the line again is not needed, and drops what waits.
#[derive(Clone)]
pub struct Station {
    memory: boundary::Station,
}

impl Station {
    /// The station with all lines closed.
    pub const fn new() -> Station {
        Station {
            memory: boundary::Station::CLOSED,
        }
    }

    /// Opens a line in a mode, whether it was open or not: its inbox is empty then, the line outside every frame, and its
    /// [frame number](crate::Entry::frame) 0. So open a line once: an opening before each delivery would drop what waits, and
    /// the frame that has begun.
    ///
    /// # Errors
    ///
    /// [`Refusal::LineUnknown`] (16).
    pub fn open(&mut self, line: u32, mode: Mode) -> Result<(), Refusal> {
        self.open_raw(line, mode.number())
    }

    /// Opens a line in the mode with this number, as it came from a message or a file of settings.
    ///
    /// # Errors
    ///
    /// [`Refusal::LineUnknown`] (16), [`Refusal::ModeUnknown`] (19): the first that holds.
    pub fn open_raw(&mut self, line: u32, mode: u32) -> Result<(), Refusal> {
        outcome(boundary::open(&mut self.memory, line, mode), 0)
    }

    /// Adds bytes, as they came off the wire, to the inbox of an open line: all of them or none.
    ///
    /// # Errors
    ///
    /// [`Refusal::LineUnknown`] (16), [`Refusal::LineClosed`] (17), [`Refusal::NoRoom`] (15): the first that holds. After
    /// 15, rounds make room, and the same bytes are handed in again; more than 256 ([`INBOX`]) are refused however often
    /// they are tried, so cut them.
    pub fn deliver(&mut self, line: u32, bytes: &[u8]) -> Result<(), Refusal> {
        outcome(boundary::deliver(&mut self.memory, line, bytes), 0)
    }

    /// Gives each open line its turn, which takes its oldest bytes, at most 64, up to one that gives an answer.
    ///
    /// How often: until a round [is idle](Round::is_idle), after each delivery. A turn ends at each answer, so a noisy line
    /// may give one byte a round, and one round for each delivery leaves answers behind and fills the inbox. Where bytes
    /// wait on a line its turn takes at least one, so all 256 that can wait are taken within 256 rounds, and the 257th at
    /// the latest is idle. More closely: n bytes that complete k answers are taken within n/64, rounded up, plus k rounds.
    /// With rounds by the clock instead, as many are needed as bytes can come on one line: 1,920 a second at 19200 baud, 960
    /// at 9600, 120 at 1200.
    ///
    /// It can't be refused, as the sheet that is lent for it always has the 1,096 bytes that it needs.
    pub fn round(&mut self) -> Round {
        let mut round = Round::blank();
        let (sheet, counts) = round.parts_mut();
        outcome(boundary::round(&mut self.memory, sheet, counts), 0)
            .expect("a sheet of 1,096 bytes is not refused");
        round
    }

    /// The station's memory, byte by byte. Two stations with the same bytes answer alike from there on; what the bytes
    /// mean is the archive's own business.
    pub fn bytes(&self) -> &[u8; 3184] {
        boundary::bytes(&self.memory)
    }
}

impl Default for Station {
    fn default() -> Station {
        Station::new()
    }
}

impl fmt::Debug for Station {
    fn fmt(&self, to: &mut fmt::Formatter<'_>) -> fmt::Result {
        to.debug_struct("Station").finish_non_exhaustive()
    }
}
