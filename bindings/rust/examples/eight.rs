//! Reads up to eight captures as the eight lines of a station, and prints what the lines answer: `examples/c/eight.c`
//! in Rust.
//!
//! usage: eight FILE.. (the first is line 0, the second line 1, and so on)
//!
//! A capture is H (historic), S (standard) or P (business), then wire bytes. Each answer is a line of output, as
//! `4 frame 3: 5`: the number of the line; `frame`, the frame number, by which one sees what came together, and a colon; the
//! number of the answer and, where that is 1, label, stamp or `-`, and data, each after a space; where it is 12 or 14, the
//! place in the group's content where it went wrong. A capture that is empty, or begins otherwise, has the answer 20 and no
//! frame: `6 20`. Exit status 0; 1 where a file can't be read; 2 for bad usage.

#![forbid(unsafe_code)]

use espandim::{Mode, Refusal, Station, LINES};
use std::fs::File;
use std::io::{self, Read, Write};
use std::path::{Path, PathBuf};
use std::process::ExitCode;

/// One source: its file, and the bytes that were read of it and are not delivered yet.
struct Source {
    /// None where it has come to its end, or is no capture.
    file: Option<File>,
    waiting: Vec<u8>,
}

impl Source {
    fn open(path: &Path) -> io::Result<Source> {
        let named = |problem| io::Error::other(format!("{}: {problem}", path.display()));
        Ok(Source {
            file: Some(File::open(path).map_err(named)?),
            waiting: Vec::new(),
        })
    }

    /// Reads on, at most so many bytes, where nothing waits here.
    fn read(&mut self, most: u64) -> io::Result<()> {
        if let (Some(file), true) = (&self.file, self.waiting.is_empty()) {
            if file.take(most).read_to_end(&mut self.waiting)? == 0 {
                self.file = None;
            }
        }
        Ok(())
    }

    /// Opens the line of a capture by the capture's first byte. Tells whether it is a capture.
    fn begin(&mut self, station: &mut Station, line: u32) -> io::Result<bool> {
        self.read(1)?;
        let mode = match self.waiting.as_slice() {
            b"H" => Some(Mode::Historic),
            b"S" => Some(Mode::Standard),
            b"P" => Some(Mode::Business),
            _ => None,
        };
        self.waiting.clear();
        match mode {
            Some(mode) => station.open(line, mode).map_err(io::Error::other)?,
            None => self.file = None,
        }
        Ok(mode.is_some())
    }

    /// Delivers what there is of a source. Where the inbox has no room for it yet, it waits here: 15 changes nothing,
    /// and every round makes room. Tells whether the source has more to give.
    fn go_on(&mut self, station: &mut Station, line: u32) -> io::Result<bool> {
        self.read(64)?;
        if !self.waiting.is_empty() {
            match station.deliver(line, &self.waiting) {
                Ok(()) => self.waiting.clear(),
                Err(Refusal::NoRoom) => {}
                Err(refusal) => return Err(io::Error::other(refusal)),
            }
        }
        Ok(self.file.is_some() || !self.waiting.is_empty())
    }
}

fn print_answers(paths: &[PathBuf], out: &mut impl Write) -> io::Result<()> {
    let mut station = Station::new();
    let mut sources = Vec::new();
    for (line, path) in (0..).zip(paths) {
        let mut source = Source::open(path)?;
        if !source.begin(&mut station, line)? {
            writeln!(out, "{line} 20")?;
        }
        sources.push(source);
    }
    // Until no source has more to give, and a round has taken nothing.
    let mut more = true;
    while more {
        more = false;
        for (line, source) in (0..).zip(&mut sources) {
            more |= source.go_on(&mut station, line)?;
        }
        let round = station.round();
        for (line, entry) in round.entries() {
            writeln!(out, "{line} frame {}: {entry}", entry.frame)?;
        }
        more |= !round.is_idle();
    }
    out.flush()
}

fn main() -> ExitCode {
    let paths: Vec<PathBuf> = std::env::args_os().skip(1).map(PathBuf::from).collect();
    if paths.is_empty() || paths.len() > LINES {
        eprintln!("usage: eight FILE.. (one to eight captures)");
        return ExitCode::from(2);
    }
    match print_answers(&paths, &mut io::stdout().lock()) {
        Ok(()) => ExitCode::SUCCESS,
        Err(problem) => {
            eprintln!("eight: {problem}");
            ExitCode::from(1)
        }
    }
}
