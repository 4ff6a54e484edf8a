//! Holds other programs against this reader, on made-up captures and
//! histories, and against themselves where document 02, M-113, has two of their
//! outputs agree.

use crate::dice::Dice;
use crate::drafts::Generator;
use crate::hexadecimal::hexadecimal;
use crate::histories::{log_bytes, Item};
use crate::line::read_whole;
use crate::listing::{listing, open_capture};
use crate::long_history::{long_history, long_log, LongTally};
use crate::noise::SecondHistory;
use crate::partings::{report_behind_start, report_on_pair};
use crate::programs::{run_program, ProgramRun, RunningProgram};
use crate::recovery::{
    find_parting, listings_agree, opened_by, taken_by_both, CutCapture, Pair, Period, Replayed,
};
use crate::recovery_tally::Behind;
use crate::replay::{perform, replies_to, text_of_replies, Call, Reply};
use crate::station::Station;
use crate::table::{Mode, MODES};
use crate::tally::Tally;
use crate::wire::{to_wire, START_OF_TEXT};
use std::io::Write;
use std::sync::atomic::{AtomicBool, AtomicU64, Ordering};
use std::sync::Mutex;
use std::time::{Duration, Instant};

/// How many programs may run at one time.
const MOST_AT_ONCE: usize = 2;
/// How often a program is run at most to cut an input down.
const MOST_CUTTING_RUNS: usize = 2000;
/// How long the cutting of an input goes on at most.
const LONGEST_CUTTING: Duration = Duration::from_secs(240);
/// Of so many captures one is cut at an STX, which takes two more runs; those with
/// noise all are.
const CAPTURES_TO_ONE_CUT: u64 = 3;

/// What `second compare` was asked for.
#[derive(Clone, Debug)]
pub struct Settings {
    pub seed: u64,
    pub count: u64,
    pub listing_program: Option<String>,
    pub replay_program: Option<String>,
    /// Whether a program is held against itself alone, as M-113 has it, and not
    /// against this reader.
    pub only_recovery: bool,
}

impl Settings {
    /// As many captures as were asked for, and a tenth as many histories.
    fn captures_and_histories(&self) -> (u64, u64) {
        (self.count, self.count / 10)
    }

    /// Captures and histories with noise come besides.
    fn noisy_ones(&self) -> (u64, u64) {
        (self.count / 5, self.count / 10)
    }
}

/// An input on which a program differs from this reader, or from itself.
pub(crate) enum Difference {
    OnCapture(Vec<u8>),
    OnHistory(Vec<Item>),
    /// A capture, and the place of the STX behind which it differs from M-113.
    BehindStart(Vec<u8>, usize),
    /// The same for a line of a history and the fresh one of a second history.
    OnPair(Vec<Item>, SecondHistory, Pair),
}

/// One piece of work for a worker.
#[derive(Clone, Copy, Debug)]
pub(crate) enum Task {
    Capture(u64),
    History(u64),
    NoisyCapture(u64),
    NoisyHistory(u64),
}

/// Compares, prints what came of it, and tells whether all was the same.
pub fn compare(settings: &Settings) -> bool {
    let (tally, found) = go_through(settings);
    if let Some((task, difference)) = found {
        print_difference(settings, task, difference);
        return false;
    }
    if settings.only_recovery {
        print_quietly(&tally.recovery.report());
        return true;
    }
    // It comes last, for what differs there is not cut down.
    let (long_tally, parting) = go_through_long_history(settings.replay_program.as_deref());
    if let Some(parting) = parting {
        print_quietly(&parting);
        return false;
    }
    let (captures, histories) = settings.captures_and_histories();
    print_quietly(&tally.report(captures, histories));
    print_quietly(&long_tally.report());
    true
}

/// Makes the captures and histories, notes what is in them, and runs the
/// programs that are given, up to a difference.
pub(crate) fn go_through(settings: &Settings) -> (Tally, Option<(Task, Difference)>) {
    let (captures, histories) = settings.captures_and_histories();
    let (noisy_captures, noisy_histories) = settings.noisy_ones();
    let all = captures + histories + noisy_captures + noisy_histories;
    let program = settings.listing_program.as_deref();
    let listed_at_start = MODES.map(|mode| {
        let capture = [mode.letter(), to_wire(START_OF_TEXT)];
        program.map_or(Vec::new(), |program| run_program(program, &capture).output)
    });
    let next_task = AtomicU64::new(0);
    let stop = AtomicBool::new(false);
    let whole_tally = Mutex::new(Tally::default());
    let found: Mutex<Option<(u64, Difference)>> = Mutex::new(None);
    let workers = std::thread::available_parallelism()
        .map_or(1, |cores| cores.get())
        .min(MOST_AT_ONCE);
    std::thread::scope(|scope| {
        for _ in 0..workers {
            scope.spawn(|| {
                let mut tally = Tally::default();
                while !stop.load(Ordering::SeqCst) {
                    let number = next_task.fetch_add(1, Ordering::SeqCst);
                    if number >= all {
                        break;
                    }
                    let task = task_of(settings, number);
                    let difference = do_task(settings, &listed_at_start, task, &mut tally);
                    if let Some(difference) = difference {
                        stop.store(true, Ordering::SeqCst);
                        let mut place = found.lock().expect("no worker panics");
                        if place.as_ref().is_none_or(|(other, _)| number < *other) {
                            *place = Some((number, difference));
                        }
                    }
                }
                whole_tally.lock().expect("no worker panics").add(tally);
            });
        }
    });
    let tally = whole_tally.into_inner().expect("no worker panics");
    let first = found.into_inner().expect("no worker panics");
    let difference = first.map(|(number, difference)| (task_of(settings, number), difference));
    (tally, difference)
}

/// Every eleventh task is a history, as long as there are both; those with noise
/// come last.
fn task_of(settings: &Settings, number: u64) -> Task {
    let (captures, histories) = settings.captures_and_histories();
    let (noisy_captures, _) = settings.noisy_ones();
    if let Some(index) = number.checked_sub(captures + histories) {
        return match index.checked_sub(noisy_captures) {
            None => Task::NoisyCapture(index),
            Some(index) => Task::NoisyHistory(index),
        };
    }
    let block = number / 11;
    if block < histories {
        match number % 11 {
            10 => Task::History(block),
            within => Task::Capture(block * 10 + within),
        }
    } else {
        let index = number - histories;
        debug_assert!(index < captures);
        Task::Capture(index)
    }
}

fn do_task(
    settings: &Settings,
    listed_at_start: &[Vec<u8>; 3],
    task: Task,
    tally: &mut Tally,
) -> Option<Difference> {
    let generator_of = |family, index| Generator::new(Dice::for_item(settings.seed, family, index));
    match task {
        Task::Capture(index) => {
            let mut generator = generator_of(1, index);
            let capture = generator.capture();
            tally.add_deeds(&generator.deeds);
            tally.note_capture(&capture);
            tally.captures_compared += u64::from(settings.listing_program.is_some());
            let tried = index.is_multiple_of(CAPTURES_TO_ONE_CUT);
            let start = tried.then(|| start_in(&mut generator, &capture)).flatten();
            compare_capture(settings, listed_at_start, capture, start, tally)
        }
        Task::NoisyCapture(index) => {
            let mut generator = generator_of(3, index);
            let mode = *generator.dice.pick(&MODES);
            let capture = [vec![mode.letter()], generator.noisy_traffic(mode)].concat();
            tally.add_deeds(&generator.deeds);
            tally.recovery.noisy_captures += 1;
            let start = start_in(&mut generator, &capture);
            compare_capture(settings, listed_at_start, capture, start, tally)
        }
        Task::History(index) => {
            let mut generator = generator_of(2, index);
            let history = generator.history(index);
            let log = log_bytes(&history);
            let replies = replies_to(&log);
            tally.add_deeds(&generator.deeds);
            tally.note_history(&log, &replies);
            tally.histories_compared += u64::from(settings.replay_program.is_some());
            compare_history(settings, generator, history, tally)
        }
        Task::NoisyHistory(index) => {
            let mut generator = generator_of(4, index);
            let history = generator.noisy_history();
            tally.add_deeds(&generator.deeds);
            tally.recovery.noisy_histories += 1;
            compare_history(settings, generator, history, tally)
        }
    }
}

/// Runs a program, and notes how it ended.
fn run_and_note(program: &str, input: &[u8], tally: &mut Tally) -> ProgramRun {
    let run = run_program(program, input);
    tally.runs_not_ended_well += u64::from(!run.ended_well);
    run
}

/// One sound STX of a capture, if it has any, and the capture's mode.
fn start_in(generator: &mut Generator, capture: &[u8]) -> Option<(Mode, usize)> {
    let (mode, wire) = open_capture(capture).ok()?;
    let start = generator.start_to_try(mode, wire)?;
    Some((mode, start))
}

/// Holds the listing of a capture against this reader's and, behind an STX of it,
/// against that of a fresh line.
fn compare_capture(
    settings: &Settings,
    listed_at_start: &[Vec<u8>; 3],
    capture: Vec<u8>,
    start: Option<(Mode, usize)>,
    tally: &mut Tally,
) -> Option<Difference> {
    if let Some((mode, start)) = start {
        let (before, fresh) = capture[1..].split_at(start);
        let answers = read_whole(mode, fresh).len();
        tally
            .recovery
            .note_start(Behind::Listing, mode, before, answers);
    }
    let program = settings.listing_program.as_ref()?;
    let run = run_and_note(program, &capture, tally);
    if !settings.only_recovery && run.output != listing(&capture).into_bytes() {
        return Some(Difference::OnCapture(capture));
    }
    let (mode, start) = start?;
    let cut = CutCapture::at(&capture, start);
    let [front, fresh] =
        [&cut.front, &cut.fresh].map(|input| run_and_note(program, input, tally).output);
    tally.recovery.note_compared(Behind::Listing, 1);
    let at_start = &listed_at_start[usize::from(mode.number())];
    let agree = listings_agree(&run.output, &front, &fresh, at_start);
    (!agree).then_some(Difference::BehindStart(capture, start))
}

/// Holds the replay of a history against this reader's, and lines of it against
/// those of a second history, which is held against this reader too.
fn compare_history(
    settings: &Settings,
    mut generator: Generator,
    history: Vec<Item>,
    tally: &mut Tally,
) -> Option<Difference> {
    let first = Replayed::by_this_reader(&history);
    let periods = first.periods().expect("this reader's output can be read");
    let second = generator.second_history(&periods);
    let again = second.as_ref().map(|second| {
        tally.recovery.second_histories += 1;
        let again = Replayed::by_this_reader(&second.items);
        note_pairs(&periods, &again, &second.pairs, tally);
        again
    });
    let program = settings.replay_program.as_ref()?;
    let mut replayed =
        |own: &Replayed| own.with_output(run_and_note(program, &own.log, tally).output);
    let by_program = replayed(&first);
    if !settings.only_recovery && by_program.output != first.output {
        return Some(Difference::OnHistory(history));
    }
    let (second, again) = second.zip(again)?;
    let again_by_program = replayed(&again);
    if !settings.only_recovery && again_by_program.output != again.output {
        return Some(Difference::OnHistory(second.items));
    }
    tally
        .recovery
        .note_compared(Behind::Sheets, second.pairs.len());
    let parting = find_parting(&second.pairs, &by_program, &again_by_program);
    parting.map(|pair| Difference::OnPair(history, second, pair))
}

/// Notes the STX of a history that are tried.
fn note_pairs(periods: &[Period], again: &Replayed, pairs: &[Pair], tally: &mut Tally) {
    let fresh_ones = again.periods().expect("this reader's output can be read");
    for pair in pairs {
        let line = opened_by(periods, pair.opened_by).expect("an accepted opening");
        let fresh = opened_by(&fresh_ones, pair.fresh_by).expect("an accepted opening");
        let count = taken_by_both(line, pair.start, fresh);
        let answers = line.answers_behind(pair.start, count).len();
        let before = &line.delivered[..pair.start];
        tally
            .recovery
            .note_start(Behind::Sheets, line.mode, before, answers);
    }
}

/// Makes the long history and notes what is in it. A program that is given is
/// compared line by line while it writes, for it writes 150 million characters;
/// where they part, it is told how.
pub(crate) fn go_through_long_history(program: Option<&str>) -> (LongTally, Option<String>) {
    let calls = long_history();
    let mut running = program.map(|program| RunningProgram::start(program, long_log(&calls)));
    let mut tally = LongTally::default();
    let mut station = Station::new();
    for (index, call) in calls.iter().enumerate() {
        let reply = perform(&mut station, call);
        tally.note_call(call, &reply);
        let Some(running) = running.as_mut() else {
            continue;
        };
        let own = format!("{}\n", reply.text());
        let other = running.next_line(own.len() + 1);
        if other != own.as_bytes() {
            let number = index + 1;
            let ending = running.stop();
            let parting = parting_of(number, call, &reply, &own, &other, &ending);
            return (tally, Some(parting));
        }
    }
    let Some(mut running) = running else {
        return (tally, None);
    };
    let other = running.next_line(80);
    if !other.is_empty() {
        running.stop();
        let parting = format!(
            "difference on the long history: the program goes on after its last record with {:?}\n",
            String::from_utf8_lossy(&other)
        );
        return (tally, Some(parting));
    }
    tally.compared = true;
    tally.ended_well = running.ends_well();
    (tally, None)
}

/// How the outputs part on a record of the long history, counted from 1.
fn parting_of(
    number: usize,
    call: &Call,
    reply: &Reply,
    own: &str,
    other: &[u8],
    ending: &str,
) -> String {
    let mut report = format!(
        "difference on the long history, whose log `second long-history` writes: record {number}\n\
         record in hex: {}\n",
        hexadecimal(&call.to_record())
    );
    for entry in reply.entries() {
        report.push_str(&format!(
            "entry of this reader at {}: line {}, answer {}, frame number {}\n",
            entry.offset, entry.line, entry.number, entry.frame
        ));
    }
    report.push_str(&format!(
        "they part on {}the program: {ending}\n",
        difference_of_lines(own, &String::from_utf8_lossy(other))
    ));
    report
}

/// Cuts a row down: leaves out chunks, large ones first, as long as what is
/// left still differs.
pub(crate) fn cut_down<Part: Clone>(
    parts: Vec<Part>,
    still_differs: &mut dyn FnMut(&[Part]) -> bool,
) -> Vec<Part> {
    let mut parts = parts;
    let mut chunk = parts.len().div_ceil(2).max(1);
    loop {
        let mut begin = 0;
        let mut shortened = false;
        while begin < parts.len() {
            let end = (begin + chunk).min(parts.len());
            let without = [&parts[..begin], &parts[end..]].concat();
            if still_differs(&without) {
                parts = without;
                shortened = true;
            } else {
                begin = end;
            }
        }
        if chunk > 1 {
            chunk = chunk.div_ceil(2);
        } else if !shortened {
            return parts;
        }
    }
}

/// Bounds the cutting, in runs and in time.
pub(crate) struct Patience {
    runs: usize,
    begin: Instant,
}

impl Patience {
    pub(crate) fn new() -> Patience {
        Patience {
            runs: 0,
            begin: Instant::now(),
        }
    }

    pub(crate) fn allows_another_run(&mut self) -> bool {
        self.runs += 1;
        self.runs <= MOST_CUTTING_RUNS && self.begin.elapsed() < LONGEST_CUTTING
    }
}

fn cut_capture(program: &str, capture: Vec<u8>) -> Vec<u8> {
    let mut patience = Patience::new();
    cut_down(capture, &mut |shorter: &[u8]| {
        patience.allows_another_run()
            && run_program(program, shorter).output != listing(shorter).into_bytes()
    })
}

fn history_differs(program: &str, items: &[Item]) -> bool {
    let log = log_bytes(items);
    run_program(program, &log).output != text_of_replies(&replies_to(&log)).into_bytes()
}

/// Leaves out whole records first, then bytes of the deliveries and judgings
/// that are left, and so on until nothing more can go.
fn cut_history(program: &str, history: Vec<Item>) -> Vec<Item> {
    let mut patience = Patience::new();
    let mut differs =
        |items: &[Item]| patience.allows_another_run() && history_differs(program, items);
    let mut items = history;
    loop {
        let before = log_bytes(&items).len();
        items = cut_down(items, &mut differs);
        for index in 0..items.len() {
            let mut trial = items.clone();
            let bytes = payload_of(&items[index]);
            let shorter = cut_down(bytes, &mut |shorter: &[u8]| {
                trial[index] = with_payload(&items[index], shorter);
                differs(&trial)
            });
            items[index] = with_payload(&items[index], &shorter);
        }
        if log_bytes(&items).len() == before {
            return items;
        }
    }
}

/// The bytes of an item that can be cut down; none for calls without any.
fn payload_of(item: &Item) -> Vec<u8> {
    match item {
        Item::Call(Call::Deliver { bytes, .. }) => bytes.clone(),
        Item::Call(Call::Judge { content, .. }) => content.clone(),
        Item::Raw(bytes) => bytes.clone(),
        Item::Call(_) => Vec::new(),
    }
}

/// The same item with another payload.
fn with_payload(item: &Item, payload: &[u8]) -> Item {
    match item {
        Item::Call(Call::Deliver { line, .. }) => Item::Call(Call::Deliver {
            line: *line,
            bytes: payload.to_vec(),
        }),
        Item::Call(Call::Judge { mode, .. }) => Item::Call(Call::Judge {
            mode: *mode,
            content: payload.to_vec(),
        }),
        Item::Raw(_) => Item::Raw(payload.to_vec()),
        Item::Call(call) => Item::Call(call.clone()),
    }
}

fn print_difference(settings: &Settings, task: Task, difference: Difference) {
    let mut report = String::new();
    let (input, own, run) = match difference {
        Difference::OnCapture(capture) => {
            let program = settings.listing_program.as_deref().unwrap_or("");
            report.push_str(&format!(
                "difference on {task:?} of seed {} ({} bytes before cutting)\n",
                settings.seed,
                capture.len()
            ));
            let shorter = cut_capture(program, capture);
            let run = run_program(program, &shorter);
            let own = listing(&shorter);
            (shorter, own, run)
        }
        Difference::OnHistory(history) => {
            let program = settings.replay_program.as_deref().unwrap_or("");
            report.push_str(&format!(
                "difference on {task:?} of seed {} ({} records before cutting)\n",
                settings.seed,
                history.len()
            ));
            let shorter = cut_history(program, history);
            report.push_str("records:\n");
            for item in &shorter {
                report.push_str(&format!("  {}\n", hexadecimal(&item.to_record())));
            }
            let log = log_bytes(&shorter);
            let run = run_program(program, &log);
            let own = text_of_replies(&replies_to(&log));
            (log, own, run)
        }
        Difference::BehindStart(capture, start) => {
            let program = settings.listing_program.as_deref().unwrap_or("");
            print_quietly(&format!(
                "difference from M-113 on {task:?} of seed {}: {}",
                settings.seed,
                report_behind_start(program, &capture, start)
            ));
            return;
        }
        Difference::OnPair(first, second, pair) => {
            let program = settings.replay_program.as_deref().unwrap_or("");
            print_quietly(&format!(
                "difference from M-113 on {task:?} of seed {}: {}",
                settings.seed,
                report_on_pair(program, &first, &second, pair)
            ));
            return;
        }
    };
    report.push_str(&format!("input in hex:\n{}\n", hexadecimal(&input)));
    report.push_str(&format!("output of this reader:\n{own}"));
    report.push_str(&format!(
        "output of the program ({}):\n{}",
        run.ending,
        String::from_utf8_lossy(&run.output)
    ));
    report.push_str(&first_difference(
        &own,
        &String::from_utf8_lossy(&run.output),
    ));
    print_quietly(&report);
}

/// Points out where the outputs part.
fn first_difference(own: &str, other: &str) -> String {
    if own == other {
        return "the outputs are the same now: the program is not steady\n".to_string();
    }
    let own_lines: Vec<&str> = own.split_inclusive('\n').collect();
    let other_lines: Vec<&str> = other.split_inclusive('\n').collect();
    let line = count_same(&own_lines, &other_lines);
    let text_of = |lines: &[&str]| lines.get(line).map_or(String::new(), |one| one.to_string());
    format!(
        "they part on line {}, {}",
        line + 1,
        difference_of_lines(&text_of(&own_lines), &text_of(&other_lines))
    )
}

/// Points out where two lines of output part.
fn difference_of_lines(own: &str, other: &str) -> String {
    let own: Vec<char> = own.chars().collect();
    let other: Vec<char> = other.chars().collect();
    let place = count_same(&own, &other);
    let excerpt = |characters: &[char]| -> String {
        let begin = place.saturating_sub(30).min(characters.len());
        let end = (place + 30).min(characters.len());
        characters[begin..end].iter().collect()
    };
    format!(
        "character {}, near:\n  this reader: {:?}\n  the program: {:?}\n",
        place + 1,
        excerpt(&own),
        excerpt(&other)
    )
}

/// How many parts two rows have in common from their beginnings.
fn count_same<Part: PartialEq>(first: &[Part], second: &[Part]) -> usize {
    first
        .iter()
        .zip(second)
        .take_while(|(one, other)| one == other)
        .count()
}

/// Prints, and does not mind when nobody reads.
fn print_quietly(text: &str) {
    let mut output = std::io::stdout().lock();
    let _ = output.write_all(text.as_bytes());
    let _ = output.flush();
}
