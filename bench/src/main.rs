//! Measures the proved reader against the plain one; `bench/run` calls it.

mod busy;
mod captures;
mod clock;
mod listing;
mod lookup;
mod ours;
mod picture;
mod places;
mod plain;
mod stack;
mod stations;
mod tally;
mod worst;

use plain::table::Mode;
use std::io::{self, Read, Write};
use std::process::ExitCode;

const USAGE: &str = "usage: bench make KIND BYTES                       writes a capture; KIND: standard, historic, business,
                                                   noisy or noisy-business
       bench listing                               plain reader: lists the capture on standard input
       bench tally                                 plain reader: counts its answers
       bench station ours|plain LINES [check]      feeds it to so many lines; check: one number for all answers
       bench worst ours|plain TIMES [idle]         makes the worst round; idle: all but the round
       bench lookup ours|plain MODE WHICH right|wrong TIMES
                                                   judges groups of these labels, with a right check character, up to the
                                                   test behind the look-up, or a wrong one, up to that before it; MODE:
                                                   historic, standard or business; WHICH: first, middle, last, each or
                                                   missing
       bench places                                makes sure that both readers tell the same number and place of groups
                                                   with one wrong character, and prints how many groups these were
       bench stack                                 ours: the bytes of stack that each call takes
       bench time TIMES FILE COMMAND..             nanoseconds of the quickest run with the file as input
       bench picture                               draws the figures on standard input (SVG)";

/// What a word that names a reader stands for.
#[derive(Clone, Copy)]
enum Reader {
    Ours,
    Plain,
}

impl Reader {
    fn from_name(name: &str) -> Option<Reader> {
        match name {
            "ours" => Some(Reader::Ours),
            "plain" => Some(Reader::Plain),
            _ => None,
        }
    }
}

fn main() -> ExitCode {
    let words: Vec<String> = std::env::args().skip(1).collect();
    match run(&words) {
        Ok(true) => ExitCode::SUCCESS,
        Ok(false) => {
            eprintln!("{USAGE}");
            ExitCode::from(2)
        }
        Err(error) => {
            eprintln!("bench: {error}");
            ExitCode::FAILURE
        }
    }
}

/// Does what the words ask for; false where they ask for nothing that there is.
fn run(words: &[String]) -> io::Result<bool> {
    let names: Vec<&str> = words.iter().map(String::as_str).collect();
    match names[..] {
        ["make", kind, length] => {
            let (Some(kind), Ok(length)) = (captures::Kind::from_name(kind), length.parse()) else {
                return Ok(false);
            };
            io::stdout().write_all(&captures::make(kind, length))?;
        }
        ["listing"] => io::stdout().write_all(&listing::of(&read_all()?))?,
        ["tally"] => print!("{}", tally::of(&mut io::stdin().lock())?),
        ["station", reader, lines, ref rest @ ..] => {
            let (Some(reader), Ok(lines @ 1..=8)) = (Reader::from_name(reader), lines.parse())
            else {
                return Ok(false);
            };
            match rest {
                [] => run_busy(reader, lines, &mut busy::Sum::default(), |sum| sum.0)?,
                ["check"] => run_busy(reader, lines, &mut busy::Hash::default(), |hash| hash.0)?,
                _ => return Ok(false),
            }
        }
        ["worst", reader, times, ref rest @ ..] => {
            let (Some(reader), Ok(times)) = (Reader::from_name(reader), times.parse()) else {
                return Ok(false);
            };
            let with_round = match rest {
                [] => true,
                ["idle"] => false,
                _ => return Ok(false),
            };
            let sheet = match reader {
                Reader::Ours => worst::run::<ours::Station>(times, with_round),
                Reader::Plain => worst::run::<plain::station::Station>(times, with_round),
            };
            io::stdout().write_all(&sheet)?;
        }
        ["lookup", reader, mode, which, check, times] => {
            let (Some(reader), Some(mode), Some(which), Some(check), Ok(times)) = (
                Reader::from_name(reader),
                Mode::from_name(mode),
                lookup::Which::from_name(which),
                lookup::Check::from_name(check),
                times.parse(),
            ) else {
                return Ok(false);
            };
            let groups = lookup::groups(mode, which, check);
            match reader {
                Reader::Ours => lookup::run(lookup::by_ours, mode, &groups, times),
                Reader::Plain => lookup::run(lookup::by_plain, mode, &groups, times),
            }
            for group in groups {
                println!("{} {}", group.label, group.refusal);
            }
        }
        ["places"] => println!("{}", places::compared()),
        ["stack"] => {
            for (name, bytes) in stack::table() {
                println!("{name} {bytes}");
            }
        }
        ["picture"] => {
            let figures = String::from_utf8_lossy(&read_all()?).into_owned();
            let picture = picture::of(&figures);
            print!(
                "{}",
                picture.ok_or_else(|| io::Error::other("these are no figures"))?
            );
        }
        ["time", times, file, _, ..] => {
            let Ok(times) = times.parse() else {
                return Ok(false);
            };
            println!("{}", clock::quickest(times, file, &words[3..])?);
        }
        _ => return Ok(false),
    }
    Ok(true)
}

fn read_all() -> io::Result<Vec<u8>> {
    let mut bytes = Vec::new();
    io::stdin().lock().read_to_end(&mut bytes)?;
    Ok(bytes)
}

fn run_busy<W: busy::Witness>(
    reader: Reader,
    lines: usize,
    witness: &mut W,
    number: impl Fn(&W) -> u64,
) -> io::Result<()> {
    let capture = read_all()?;
    let bad = || io::Error::other("this is no capture");
    let (letter, wire) = capture.split_first().ok_or_else(bad)?;
    let mode = Mode::from_letter(*letter).ok_or_else(bad)?;
    match reader {
        Reader::Ours => busy::run::<ours::Station, W>(mode, wire, lines, witness),
        Reader::Plain => busy::run::<plain::station::Station, W>(mode, wire, lines, witness),
    }
    println!("{:016x}", number(witness));
    Ok(())
}
