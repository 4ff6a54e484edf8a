//! The command-line program `second`.

use second::compare::{compare, Settings};
use second::listing::listing;
use second::long_history::{long_history, long_log};
use second::replay::replay;
use std::io::{Read, Write};
use std::process::ExitCode;

const USAGE: &str = "usage:
  second listing < capture
  second replay < log
  second long-history > log
  second compare SEED COUNT [--listing PROGRAM] [--replay PROGRAM] [--only M-113]
";

fn main() -> ExitCode {
    let arguments: Vec<String> = std::env::args().skip(1).collect();
    let words: Vec<&str> = arguments.iter().map(String::as_str).collect();
    match words.as_slice() {
        ["listing"] => turn_input_into_output(listing),
        ["replay"] => turn_input_into_output(replay),
        ["long-history"] => write_output(&long_log(&long_history())),
        ["compare", rest @ ..] => match read_settings(rest) {
            Some(settings) => match compare(&settings) {
                true => ExitCode::SUCCESS,
                false => ExitCode::from(1),
            },
            None => explain_usage(),
        },
        _ => explain_usage(),
    }
}

fn explain_usage() -> ExitCode {
    eprint!("{USAGE}");
    ExitCode::from(2)
}

fn turn_input_into_output(work: fn(&[u8]) -> String) -> ExitCode {
    let mut input = Vec::new();
    if let Err(problem) = std::io::stdin().lock().read_to_end(&mut input) {
        eprintln!("standard input cannot be read: {problem}");
        return ExitCode::from(2);
    }
    write_output(work(&input).as_bytes())
}

fn write_output(bytes: &[u8]) -> ExitCode {
    let mut output = std::io::stdout().lock();
    let outcome = output.write_all(bytes).and_then(|()| output.flush());
    match outcome {
        Ok(()) => ExitCode::SUCCESS,
        Err(_) => ExitCode::from(2),
    }
}

fn read_settings(words: &[&str]) -> Option<Settings> {
    let [seed, count, options @ ..] = words else {
        return None;
    };
    let mut settings = Settings {
        seed: seed.parse().ok()?,
        count: count.parse().ok()?,
        listing_program: None,
        replay_program: None,
        only_recovery: false,
    };
    if options.len() % 2 != 0 {
        return None;
    }
    for option in options.chunks(2) {
        let program = Some(option[1].to_string());
        match option[0] {
            "--listing" => settings.listing_program = program,
            "--replay" => settings.replay_program = program,
            "--only" if option[1] == "M-113" => settings.only_recovery = true,
            _ => return None,
        }
    }
    Some(settings)
}
