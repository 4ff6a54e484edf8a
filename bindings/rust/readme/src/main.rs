//! Tries the lines in Rust that README.md shows, on captures that are cut in many ways: `examples/c/readme.c` in Rust.
//!
//! usage: readme each FILE | eight FILE.. | stripped FILE | words
//!
//! `bindings/rust/test` takes the lines out of README.md, names the file that it puts them in by ESPANDIM_README_LINES, and
//! has `examples/c/readme hold` compare what is written with the listing.

#![forbid(unsafe_code)]

use std::io::{self, BufWriter, Write};
use std::process::ExitCode;

// README's lines: `begin` and `hear`.
include!(env!("ESPANDIM_README_LINES"));

/// A capture: its mode, and the bytes behind the letter that are not heard yet.
#[derive(Clone)]
struct Capture {
    mode: Mode,
    rest: Vec<u8>,
}

impl Capture {
    fn load(path: &str) -> io::Result<Capture> {
        let bytes = std::fs::read(path)?;
        let mode = match bytes.first() {
            Some(b'H') => Mode::Historic,
            Some(b'S') => Mode::Standard,
            Some(b'P') => Mode::Business,
            _ => return Err(io::Error::other("none of H, S and P")),
        };
        Ok(Capture {
            mode,
            rest: bytes[1..].to_vec(),
        })
    }

    /// The next bytes, at most so many, go to README's lines. Tells whether there are more; a refusal ends it.
    fn next(
        &mut self,
        station: &mut Station,
        line: u32,
        most: usize,
        out: &mut impl Write,
    ) -> io::Result<bool> {
        let some: Vec<u8> = self.rest.drain(..most.min(self.rest.len())).collect();
        let mut written = Ok(());
        let heard = hear(station, line, &some, |line, answer| {
            if written.is_ok() {
                written = writeln!(out, "{line} {answer}");
            }
        });
        written?;
        if let Err(refusal) = heard {
            writeln!(out, "hear gave {}", refusal.number())?;
            self.rest.clear();
        }
        Ok(!self.rest.is_empty())
    }

    /// Bytes that wait already when README's lines are called, where there is room for them.
    fn ahead(&mut self, station: &mut Station, line: u32, most: usize) {
        let some = most.min(self.rest.len());
        if station.deliver(line, &self.rest[..some]).is_ok() {
            self.rest.drain(..some);
        }
    }
}

/// Numbers below a bound, from a fixed beginning.
struct Drawn(u32);

impl Drawn {
    fn below(&mut self, bound: u32) -> usize {
        self.0 = self.0.wrapping_mul(1103515245).wrapping_add(12345);
        ((self.0 >> 16) % bound) as usize
    }
}

fn each(capture: &Capture, out: &mut impl Write) -> io::Result<()> {
    for size in 1..=300 {
        writeln!(out, "chunks of {size}")?;
        let (line, mut capture) = (size % 8, capture.clone());
        let mut station = begin(&[(line, capture.mode)]).map_err(io::Error::other)?;
        while capture.next(&mut station, line, size as usize, out)? {}
    }
    for run in 1..=30 {
        writeln!(out, "chunks of mixed sizes, {run}")?;
        let (line, mut capture, mut drawn) = (run % 8, capture.clone(), Drawn(run));
        let mut station = begin(&[(line, capture.mode)]).map_err(io::Error::other)?;
        loop {
            // In every other run bytes wait already, so that a delivery may find no room at first.
            if run % 2 == 0 {
                capture.ahead(&mut station, line, drawn.below(257));
            }
            if !capture.next(&mut station, line, drawn.below(600), out)? {
                break;
            }
        }
    }
    Ok(())
}

fn eight(mut captures: Vec<Capture>, out: &mut impl Write) -> io::Result<()> {
    let modes: Vec<(u32, Mode)> = (0..).zip(captures.iter().map(|it| it.mode)).collect();
    let mut station = begin(&modes).map_err(io::Error::other)?;
    let mut drawn = Drawn(0);
    let mut more = true;
    while more {
        more = false;
        // So that a round has several lines to serve.
        for (line, capture) in (0..).zip(&mut captures) {
            capture.ahead(&mut station, line, drawn.below(257));
        }
        for (line, capture) in (0..).zip(&mut captures) {
            more |= capture.next(&mut station, line, drawn.below(600), out)?;
        }
    }
    Ok(())
}

fn run(what: &str, mut captures: Vec<Capture>, out: &mut impl Write) -> io::Result<bool> {
    match (what, captures.len()) {
        ("each", 1) => each(&captures[0], out)?,
        ("eight", 8) => eight(captures, out)?,
        ("stripped", 1) => {
            let capture = &mut captures[0];
            capture.rest.iter_mut().for_each(|byte| *byte &= 0x7F);
            let mut station = begin(&[(0, capture.mode)]).map_err(io::Error::other)?;
            while capture.next(&mut station, 0, 64, out)? {}
        }
        ("words", 0) => {
            for number in (0..=21).chain([u32::MAX]) {
                let words = espandim::words(number).unwrap_or("not a number of the table");
                writeln!(out, "{number} {words}")?;
            }
        }
        _ => return Ok(false),
    }
    out.flush()?;
    Ok(true)
}

fn main() -> ExitCode {
    let arguments: Vec<String> = std::env::args().collect();
    let what = arguments.get(1).map_or("", String::as_str);
    let captures = arguments.iter().skip(2).map(|path| Capture::load(path));
    let done = captures
        .collect::<io::Result<_>>()
        .and_then(|captures| run(what, captures, &mut BufWriter::new(io::stdout().lock())));
    match done {
        Ok(true) => ExitCode::SUCCESS,
        Ok(false) => {
            eprintln!("usage: readme each FILE | eight FILE.. | stripped FILE | words");
            ExitCode::from(2)
        }
        Err(problem) => {
            eprintln!("readme: {problem}");
            ExitCode::from(1)
        }
    }
}
