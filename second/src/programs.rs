//! Running other programs, each with bytes on its standard input.

use std::io::{Read, Write};
use std::os::unix::process::CommandExt;
use std::process::{Child, ChildStdout, Command, Stdio};
use std::sync::mpsc::{channel, sync_channel, Receiver, RecvTimeoutError};
use std::time::Duration;

/// A program that has not ended after this long is stopped, or, where its output
/// is read while it comes, one that has written nothing for this long.
const LONGEST_RUN: Duration = Duration::from_secs(60);
/// A program's output is read no further than this.
const LONGEST_OUTPUT: u64 = 16 * 1024 * 1024;
/// How much of an output that is read while it comes is read at once, and how
/// many such pieces may wait.
const PIECE: usize = 64 * 1024;
const PIECES_WAITING: usize = 16;

/// What a program gave.
pub struct ProgramRun {
    pub output: Vec<u8>,
    pub ended_well: bool,
    pub ending: String,
}

/// Starts a command line through `sh -c`, with the bytes on its standard input.
fn start(command_line: &str, input: Vec<u8>) -> std::io::Result<(Child, ChildStdout)> {
    let mut child = Command::new("sh")
        .arg("-c")
        .arg(command_line)
        .stdin(Stdio::piped())
        .stdout(Stdio::piped())
        .process_group(0)
        .spawn()?;
    let mut child_input = child.stdin.take().expect("standard input is piped");
    let child_output = child.stdout.take().expect("standard output is piped");
    // A program may end before it has read everything, so a failed write is
    // no fault.
    std::thread::spawn(move || {
        let _ = child_input.write_all(&input);
    });
    Ok((child, child_output))
}

/// Ends a program that was started: it leads a process group of its own, and that
/// group is ended.
fn end(child: &mut Child) {
    let group = format!("-{}", child.id());
    let _ = Command::new("kill").args(["-KILL", "--", &group]).status();
    let _ = child.wait();
}

/// Whether a program ended well, and how it ended.
fn ending_of(child: &mut Child) -> (bool, String) {
    match child.wait() {
        Ok(status) => (status.success(), status.to_string()),
        Err(problem) => (false, problem.to_string()),
    }
}

/// Runs a command line through `sh -c` with the bytes on its standard input.
pub fn run_program(command_line: &str, input: &[u8]) -> ProgramRun {
    let (mut child, mut child_output) = match start(command_line, input.to_vec()) {
        Ok(started) => started,
        Err(problem) => {
            return ProgramRun {
                output: Vec::new(),
                ended_well: false,
                ending: format!("could not be started: {problem}"),
            }
        }
    };
    let (sender, receiver) = channel();
    std::thread::spawn(move || {
        let mut output = Vec::new();
        let _ = child_output
            .by_ref()
            .take(LONGEST_OUTPUT)
            .read_to_end(&mut output);
        let _ = sender.send(output);
    });
    match receiver.recv_timeout(LONGEST_RUN) {
        Ok(output) => {
            let (ended_well, ending) = ending_of(&mut child);
            ProgramRun {
                output,
                ended_well,
                ending,
            }
        }
        Err(_) => {
            end(&mut child);
            ProgramRun {
                output: Vec::new(),
                ended_well: false,
                ending: format!("stopped after {} seconds", LONGEST_RUN.as_secs()),
            }
        }
    }
}

/// A program whose output is read while it comes, so that little of it is held
/// at a time.
pub struct RunningProgram {
    child: Option<Child>,
    pieces: Receiver<Vec<u8>>,
    /// What was read, and how much of it was asked for.
    read: Vec<u8>,
    next: usize,
    /// Whether it wrote nothing for too long.
    silent: bool,
}

impl RunningProgram {
    /// Starts a command line through `sh -c` with the bytes on its standard input.
    /// One that can't be started writes nothing.
    pub fn start(command_line: &str, input: Vec<u8>) -> RunningProgram {
        let (sender, pieces) = sync_channel(PIECES_WAITING);
        let child = match start(command_line, input) {
            Err(_) => None,
            Ok((child, mut child_output)) => {
                std::thread::spawn(move || loop {
                    let mut piece = vec![0; PIECE];
                    let length = child_output.read(&mut piece).unwrap_or(0);
                    piece.truncate(length);
                    if length == 0 || sender.send(piece).is_err() {
                        return;
                    }
                });
                Some(child)
            }
        };
        RunningProgram {
            child,
            pieces,
            read: Vec::new(),
            next: 0,
            silent: false,
        }
    }

    /// The output through its next LF, or these many bytes of it, or what is left
    /// of it where it ends, or stops for long.
    pub fn next_line(&mut self, longest: usize) -> Vec<u8> {
        let mut line = Vec::new();
        loop {
            let left = &self.read[self.next..];
            let left = &left[..left.len().min(longest - line.len())];
            let end = left.iter().position(|one| *one == b'\n');
            let taken = &left[..end.map_or(left.len(), |place| place + 1)];
            line.extend_from_slice(taken);
            self.next += taken.len();
            if end.is_some() || line.len() == longest {
                return line;
            }
            match self.pieces.recv_timeout(LONGEST_RUN) {
                Ok(piece) => (self.read, self.next) = (piece, 0),
                Err(why) => {
                    self.silent = why == RecvTimeoutError::Timeout;
                    return line;
                }
            }
        }
    }

    /// Stops the program, and tells how it ended if it had ended already.
    pub fn stop(&mut self) -> String {
        let Some(child) = &mut self.child else {
            return "it could not be started".to_string();
        };
        match child.try_wait() {
            Ok(Some(status)) => status.to_string(),
            _ => {
                end(child);
                "it was stopped".to_string()
            }
        }
    }

    /// Whether the program ends well, once all its output is read; one that only
    /// stopped writing does not, and is ended.
    pub fn ends_well(&mut self) -> bool {
        match &mut self.child {
            Some(child) if !self.silent => ending_of(child).0,
            Some(child) => {
                end(child);
                false
            }
            None => false,
        }
    }
}
