//! The processor time of a command: its own and the kernel's for it, of which other work on the machine takes no part.

use std::fs::File;
use std::io;
use std::process::{Command, Stdio};

/// `struct rusage` of 64-bit Linux: two times of seconds and microseconds, then fourteen numbers that nobody asks for.
#[derive(Default)]
#[repr(C)]
struct Usage {
    user: [i64; 2],
    system: [i64; 2],
    rest: [i64; 14],
}

extern "C" {
    fn getrusage(who: i32, usage: &mut Usage) -> i32;
}

/// The nanoseconds that all commands have taken that were run here and have ended.
fn nanoseconds_of_children() -> i64 {
    const CHILDREN: i32 = -1;
    let mut usage = Usage::default();
    // SAFETY: it fills the struct, which is as long as the system's and ours alone, and keeps no pointer to it.
    let failed = unsafe { getrusage(CHILDREN, &mut usage) } != 0;
    assert!(!failed, "the system tells no times of commands");
    let seconds = usage.user[0] + usage.system[0];
    let microseconds = usage.user[1] + usage.system[1];
    (seconds * 1_000_000 + microseconds) * 1000
}

/// Runs a command so many times with a file as its standard input, and gives the nanoseconds of the quickest run.
pub fn quickest(times: usize, input: &str, command: &[String]) -> io::Result<i64> {
    let mut quickest = i64::MAX;
    for _ in 0..times {
        let before = nanoseconds_of_children();
        let status = Command::new(&command[0])
            .args(&command[1..])
            .stdin(File::open(input)?)
            .stdout(Stdio::null())
            .status()?;
        if !status.success() {
            return Err(io::Error::other(format!("{} failed: {status}", command[0])));
        }
        quickest = quickest.min(nanoseconds_of_children() - before);
    }
    Ok(quickest)
}
