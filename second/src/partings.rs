//! Shows where a program parts from document 02, M-113, cut down to a short input.

use crate::compare::{cut_down, Patience};
use crate::hexadecimal::hexadecimal;
use crate::histories::Item;
use crate::noise::SecondHistory;
use crate::programs::run_program;
use crate::recovery::{
    find_parting, listings_agree, opened_by, plain_history, CutCapture, Pair, Replayed, Stream,
};
use crate::wire::{to_wire, START_OF_TEXT};

const WHAT: &str = "the answers behind an STX are not those of a freshly opened line\n";

/// Leaves out what stands before the STX first, and then what stands behind it.
fn cut_around_start(
    before: &[u8],
    behind: &[u8],
    differs: &dyn Fn(&[u8], &[u8]) -> bool,
) -> (Vec<u8>, Vec<u8>) {
    let mut patience = Patience::new();
    let before = cut_down(before.to_vec(), &mut |shorter: &[u8]| {
        patience.allows_another_run() && differs(shorter, behind)
    });
    let behind = cut_down(behind.to_vec(), &mut |shorter: &[u8]| {
        patience.allows_another_run() && differs(&before, shorter)
    });
    (before, behind)
}

/// Shows a capture whose answers behind the STX at this place are not those of a
/// fresh line.
pub(crate) fn report_behind_start(program: &str, capture: &[u8], start: usize) -> String {
    let (letter, wire) = capture.split_first().expect("it has an STX");
    let sound_start = to_wire(START_OF_TEXT);
    let capture_of =
        |before: &[u8], behind: &[u8]| [&[*letter], before, &[sound_start], behind].concat();
    let differs = |before: &[u8], behind: &[u8]| {
        let capture = capture_of(before, behind);
        let cut = CutCapture::at(&capture, before.len());
        let at_start = [*letter, sound_start];
        let [whole, front, fresh, at_start] = [&capture[..], &cut.front, &cut.fresh, &at_start]
            .map(|input| run_program(program, input).output);
        !listings_agree(&whole, &front, &fresh, &at_start)
    };
    let (before, behind) = cut_around_start(&wire[..start], &wire[start + 1..], &differs);
    let capture = capture_of(&before, &behind);
    let cut = CutCapture::at(&capture, before.len());
    let mut report = WHAT.to_string();
    for (name, input) in [
        ("the whole capture", &capture),
        ("the capture through the STX", &cut.front),
        ("a fresh line from the STX on", &cut.fresh),
    ] {
        let run = run_program(program, input);
        report.push_str(&format!(
            "{name}, in hex:\n{}\noutput of the program ({}):\n{}",
            hexadecimal(input),
            run.ending,
            String::from_utf8_lossy(&run.output)
        ));
    }
    report
}

/// Shows a line whose answers behind an STX are not those of a fresh one: on a line
/// alone, cut down, if they differ there too, else in both histories as they are.
pub(crate) fn report_on_pair(
    program: &str,
    first: &[Item],
    second: &SecondHistory,
    pair: Pair,
) -> String {
    let replayed = |items: &[Item]| {
        let own = Replayed::by_this_reader(items);
        own.with_output(run_program(program, &own.log).output)
    };
    let periods = Replayed::by_this_reader(first)
        .periods()
        .unwrap_or_default();
    let line = opened_by(&periods, pair.opened_by).expect("an accepted opening");
    let alone = |wire: Vec<u8>| {
        plain_history(&Stream {
            line: line.line,
            mode: line.mode,
            wire,
        })
    };
    let histories_of = |before: &[u8], behind: &[u8]| {
        let fresh = [&[to_wire(START_OF_TEXT)], behind].concat();
        [alone([before, &fresh].concat()), alone(fresh)]
    };
    let pair_at = |start: usize| Pair {
        opened_by: 0,
        start,
        fresh_by: 0,
    };
    let differs = |before: &[u8], behind: &[u8]| {
        let [first, second] = histories_of(before, behind).map(|items| replayed(&items));
        find_parting(&[pair_at(before.len())], &first, &second).is_some()
    };
    let taken = line.taken_bytes();
    let (before, behind) = (&taken[..pair.start], &taken[pair.start + 1..]);
    let (histories, pair) = if differs(before, behind) {
        let (before, behind) = cut_around_start(before, behind, &differs);
        (histories_of(&before, &behind), pair_at(before.len()))
    } else {
        ([first.to_vec(), second.items.clone()], pair)
    };
    let mut report = format!(
        "{WHAT}the STX is byte {} since record {} of the first history; the fresh line was opened by \
         record {} of the second\n",
        pair.start + 1,
        pair.opened_by + 1,
        pair.fresh_by + 1
    );
    for (name, items) in ["first", "second"].iter().zip(&histories) {
        report.push_str(&format!("the {name} history, records:\n"));
        for item in items {
            report.push_str(&format!("  {}\n", hexadecimal(&item.to_record())));
        }
        report.push_str("answers of the program:\n");
        for period in replayed(items).periods().iter().flatten() {
            for answer in &period.answers {
                report.push_str(&format!(
                    "  line {} since record {}: {answer:?}\n",
                    period.line,
                    period.opened_by + 1
                ));
            }
        }
    }
    report
}
