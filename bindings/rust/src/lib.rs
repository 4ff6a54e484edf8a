//! Eight meters' lines, and the reader and the writer of one group, behind types that no caller can misuse.
//!
//! The work is done by the five functions of `include/espandim.h`, which are proved in Rattle: each answer, and every byte
//! that is lent, is fixed for every input. What no proof can see to is what a caller in C owes them: pointers that are
//! not null, that are aligned, with as much behind them as is said, that don't overlap, and a whole station that nobody
//! else touches. Here references, slices and `&mut self` stand for that: a caller owes nothing and needs no `unsafe`.
//! The `unsafe` of this crate is in one module, `boundary`. The crate itself is not proved: it is small, and tested.
//!
//! "Document 01" is the customer's scope page, and document 02 has the customer's later requests. Document 01's numbers are
//! the numbers of [`Answer`], [`Notice`] and [`Refusal`]; a [`Fault`] says where in a group it went wrong, and an [`Entry`] in
//! which frame an answer came.
//!
//! # The way to use it
//!
//! Open each line once. Deliver what comes off its wire, at most 256 bytes at a time; after each delivery, refused or not,
//! call rounds until one takes nothing; what was refused with [`Refusal::NoRoom`] is handed in again then. Whoever leaves
//! by `?` at a delivery that finds no room, before the rounds that would make it, hears nothing ever after. The README of
//! the repository has the lines for bytes that come in chunks of any size.
//!
//! ```
//! use espandim::{Mode, Station};
//!
//! let mut station = Station::new();
//! station.open(0, Mode::Standard)?;
//!
//! let mut answers = Vec::new();
//! station.deliver(0, b"\x82\x0A\x55\xD2\x4D\x53\xB1\x09\xB2\x33\x30\x09\x3F\x8D\x03")?; // nothing waits: there is room
//! loop {
//!     let round = station.round();
//!     answers.extend(round.answers().map(|(line, answer)| format!("{line} {answer}")));
//!     if round.is_idle() {
//!         break;
//!     }
//! }
//! // A turn ends with the byte that gives an answer: the group's last byte in one round, the frame's in the next one.
//! assert_eq!(answers, ["0 1 URMS1 - 230", "0 2"]);
//! assert_eq!(espandim::words(2), Some("frame ended, unflawed"));
//! # Ok::<(), espandim::Refusal>(())
//! ```
//!
//! # The port
//!
//! Eight data bits, no parity, one stop bit, and raw, so that nothing is translated. The top bit of each byte is the
//! meter's own parity bit, and is delivered with it. A port that is set to seven bits and even parity strips it: STX comes
//! as 0x02 instead of 0x82, no frame ever begins, and there is no answer at all. The speed is 9600 baud in standard mode
//! (document 001, 5.3.5) and 1200 in historic mode (document 003, 1.3.1.1; but a SAPHIR may be set to 9600). A PME-PMI,
//! business mode, is set to 1200, 2400, 4800, 9600 or 19200: to 1200 where nobody chose (document 003, 1.4.1), mostly to
//! 9600 (2.9.1); whoever listens has to try. On Linux: `stty -F /dev/ttyUSB0 raw -echo 9600 cs8 -parenb -cstopb`, or with
//! another speed. In the flags of termios: CS8 and CREAD set, and PARENB, CSTOPB, INPCK, ISTRIP, IGNPAR, PARMRK, ICRNL,
//! INLCR, IGNCR, IXON, IXOFF, ICANON, ECHO, ISIG, IEXTEN and OPOST not set.
//!
//! # The archive
//!
//! A program is linked with `libespandim.a`, from the folder that the environment variable `ESPANDIM_ARCHIVE_FOLDER` names
//! when cargo runs; `cargo check` and `cargo doc` do without one. `rt lib`, in crates/espandim, makes it for x86-64,
//! in crates/espandim/out.
//!
//! # What a caller does not owe
//!
//! What a caller in C has to see to is refused by the compiler here. A buffer that overlaps what is read:
//!
//! ```compile_fail,E0502
//! let mut buffer = *b"230.................";
//! espandim::write_raw(1, b"URMS1", b"", &buffer[..3], &mut buffer);
//! ```
//!
//! A station that somebody else touches while a call runs:
//!
//! ```compile_fail,E0499
//! let mut station = espandim::Station::new();
//! std::thread::scope(|both| {
//!     both.spawn(|| station.round().counts());
//!     both.spawn(|| station.round().counts());
//! });
//! ```
//!
//! A part of a station instead of the whole, or one with bytes in it that no call put there:
//!
//! ```compile_fail,E0616
//! let mut station = espandim::Station::new();
//! let part = &mut station.memory;
//! ```

#![no_std]
#![deny(missing_docs)]
#![deny(unsafe_code)]

#[allow(unsafe_code)]
mod boundary;
mod group;
mod numbers;
mod round;
mod station;

pub use group::{judge, judge_raw, write, write_raw, Group, Written, MOST_CONTENT, MOST_WRITTEN};
pub use numbers::{words, Fault, Mode, Notice, Refusal};
pub use round::{Answer, Answers, Entries, Entry, Round};
pub use station::{Station, INBOX, LINES};
