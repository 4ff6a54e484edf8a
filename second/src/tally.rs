//! What came up in the captures and histories that were made, and the closing
//! report of it.

use crate::followed::{follow_call, FollowedLine};
use crate::formats::Format;
use crate::frame_tally::{add_times, FrameTally};
use crate::group::stamp_is_right;
use crate::histories::CALLS_IN_HISTORY;
use crate::line::{read_whole, PlacedAnswer};
use crate::listing::open_capture;
use crate::near_labels::{misses_of, Miss, MISSES};
use crate::numbers::{Answer, Fault};
use crate::recovery_tally::RecoveryTally;
use crate::replay::{read_log, Call, Entry, Reply};
use crate::station::{LINES, LONGEST_TURN};
use crate::table::{all_rules, find_rule, stamped_rules, Mode, Rule, Season, MODES, SMALL_SEASONS};
use crate::wire::{character_of, to_wire, HORIZONTAL_TAB, LINE_FEED};
use crate::wrong_places::{ways_of, Way, WAYS};
use std::collections::{BTreeMap, BTreeSet};
use std::ops::RangeInclusive;

/// Where an answer was seen, one column of the closing table.
#[derive(Clone, Copy, Debug, PartialEq, Eq, PartialOrd, Ord)]
pub enum Place {
    Listing,
    Opening,
    Delivery,
    Round,
    Sheet,
    Judging,
    Writing,
}

const PLACES: [(Place, &str); 7] = [
    (Place::Listing, "listing"),
    (Place::Opening, "opening"),
    (Place::Delivery, "delivery"),
    (Place::Round, "round"),
    (Place::Sheet, "sheet"),
    (Place::Judging, "judging"),
    (Place::Writing, "writing"),
];

/// The places that see groups.
pub const GROUP_PLACES: [(Place, &str); 4] = [
    (Place::Listing, "listing"),
    (Place::Sheet, "sheet"),
    (Place::Judging, "judging"),
    (Place::Writing, "writing"),
];

/// Those of them that read groups, and so tell where one went wrong.
pub const READING_PLACES: [(Place, &str); 3] = [
    (Place::Listing, "listing"),
    (Place::Sheet, "sheet"),
    (Place::Judging, "judging"),
];

/// A group whose label is in its mode's list, as it was accepted, written or
/// refused.
struct Group<'texts> {
    mode: Mode,
    label: &'texts [u8],
    stamp: &'texts [u8],
    data: &'texts [u8],
}

impl<'texts> Group<'texts> {
    /// The group of a content that was refused as 12, 13 or 14, so that it has
    /// its separators. For a stamp it must have an HT of its own and not only
    /// the final one.
    fn of_content(mode: Mode, content: &'texts [u8]) -> Option<Group<'texts>> {
        let body = &content[..content.len().checked_sub(2)?];
        let mut fields = body.splitn(2, |one| *one == mode.separator());
        let (label, rest) = (fields.next()?, fields.next()?);
        let stamped = find_rule(mode, label)?.stamp.is_some();
        let (stamp, data) = if stamped {
            let end = rest.iter().position(|one| *one == HORIZONTAL_TAB)?;
            (&rest[..end], &rest[end + 1..])
        } else {
            (&rest[..0], rest)
        };
        Some(Group {
            mode,
            label,
            stamp,
            data,
        })
    }
}

/// A label of the business meter, an answer to it and the length of its data.
/// The answer to a written group is 1, as to a group accepted.
type BusinessKey = (Place, &'static str, u8, usize);

/// What was seen in the inputs that were made.
#[derive(Default)]
pub struct Tally {
    pub captures_compared: u64,
    pub histories_compared: u64,
    pub runs_not_ended_well: u64,
    calls: u64,
    unreadable_logs: u64,
    answers: BTreeMap<(u8, Place), u64>,
    /// How often a label was accepted or written.
    labels_accepted: BTreeMap<(Place, Mode, &'static str), u64>,
    /// How often a stamped label was met with a small season.
    small_seasons: BTreeMap<(Place, &'static str, u8), u64>,
    /// How often a label of the business meter was accepted or written, or
    /// refused for its stamp or its data.
    business: BTreeMap<BusinessKey, u64>,
    /// How often each alternative of such a label was accepted or written.
    alternatives: BTreeMap<(Place, &'static str, usize), u64>,
    /// How often a label was refused that misses this one of the list.
    misses: BTreeMap<(Place, Mode, Miss, &'static str), u64>,
    /// How often a content of fewer than eight characters had one of the answers
    /// that come once a label is looked up, 11 to 14.
    short_contents: BTreeMap<(Place, Mode, u8), u64>,
    /// How often a group was refused as 12 or 14 with this place in its content.
    wrong_at: BTreeMap<(Place, Mode, u8, usize), u64>,
    /// How often the data of a label that were refused as 14 went wrong so.
    ways: BTreeMap<(Place, Mode, Way, &'static str), u64>,
    /// What came up of frame numbers.
    pub frames: FrameTally,
    /// What was held against a freshly opened line.
    pub recovery: RecoveryTally,
    answers_on_64th_byte: u64,
    offsets_over_255: u64,
    largest_offset: usize,
    deeds: BTreeMap<&'static str, u64>,
}

impl Tally {
    fn count(&mut self, number: u8, place: Place) {
        *self.answers.entry((number, place)).or_insert(0) += 1;
    }

    /// Notes a group and its answer: 1 for one accepted or written, else 12 to
    /// 14. Other answers say nothing of stamp or data.
    fn note_group(&mut self, place: Place, number: u8, group: &Group) {
        let Some(rule) = find_rule(group.mode, group.label) else {
            return;
        };
        match number {
            1 => {
                let key = (place, group.mode, rule.label.as_str());
                *self.labels_accepted.entry(key).or_insert(0) += 1;
                self.meet_season(place, Season::WinterOrSummer, rule, group.stamp);
            }
            12 => self.meet_season(place, Season::SpaceOnly, rule, group.stamp),
            13 | 14 => {}
            _ => return,
        }
        if group.mode == Mode::Business {
            self.meet_business(place, number, rule, group.data);
        }
    }

    /// Notes a content that was refused, with this place in it.
    fn note_refused(
        &mut self,
        place: Place,
        number: u8,
        mode: Mode,
        content: &[u8],
        wrong_at: usize,
    ) {
        if let (12..=14, Some(group)) = (number, Group::of_content(mode, content)) {
            self.note_group(place, number, &group);
            if number == 14 {
                self.note_ways(place, &group, wrong_at);
            }
        }
        if number == 12 || number == 14 {
            let key = (place, mode, number, wrong_at);
            *self.wrong_at.entry(key).or_insert(0) += 1;
        }
        match (number, label_of_content(mode, content)) {
            // Without a label a content is not in shape, whatever else it has.
            (9, Some(label)) if label.is_empty() => self.note_misses(place, mode, label),
            (11, Some(label)) => self.note_misses(place, mode, label),
            _ => {}
        }
        if content.len() < 8 && (11..=14).contains(&number) {
            let key = (place, mode, number);
            *self.short_contents.entry(key).or_insert(0) += 1;
        }
    }

    /// Notes a label that was refused for itself.
    fn note_misses(&mut self, place: Place, mode: Mode, label: &[u8]) {
        for (miss, listed) in misses_of(mode, label) {
            let key = (place, mode, miss, listed);
            *self.misses.entry(key).or_insert(0) += 1;
        }
    }

    /// Notes how data went wrong that were refused as 14.
    fn note_ways(&mut self, place: Place, group: &Group, wrong_at: usize) {
        let rule = find_rule(group.mode, group.label).expect("the label was found");
        for way in ways_of(rule, group.data, wrong_at) {
            let key = (place, group.mode, way, rule.label.as_str());
            *self.ways.entry(key).or_insert(0) += 1;
        }
    }

    /// Counts a small season of a label that has this season rule. The rest of
    /// the stamp must be right, so that the answer hangs on the season.
    fn meet_season(&mut self, place: Place, season: Season, rule: &'static Rule, stamp: &[u8]) {
        let small = stamp.first().filter(|one| SMALL_SEASONS.contains(one));
        let (Some(small), true) = (small, rule.stamp == Some(season)) else {
            return;
        };
        if stamp_is_right(Season::WinterOrSummer, stamp) {
            let key = (place, rule.label.as_str(), *small);
            *self.small_seasons.entry(key).or_insert(0) += 1;
        }
    }

    /// Counts a group of the business meter, and which alternative an accepted
    /// one has.
    fn meet_business(&mut self, place: Place, number: u8, rule: &'static Rule, data: &[u8]) {
        let label = rule.label.as_str();
        let key = (place, label, number, data.len());
        *self.business.entry(key).or_insert(0) += 1;
        if number != 1 {
            return;
        }
        for (index, fields) in rule.alternatives.iter().enumerate() {
            if Format::of_fields(fields).fits(data) {
                *self.alternatives.entry((place, label, index)).or_insert(0) += 1;
            }
        }
    }

    /// How often a label was accepted or written in a mode.
    pub fn times_accepted(&self, place: Place, mode: Mode, label: &'static str) -> u64 {
        let times = self.labels_accepted.get(&(place, mode, label));
        times.copied().unwrap_or(0)
    }

    /// How often an alternative of a label of the business meter was accepted
    /// or written, the alternatives counted from 0.
    pub fn times_of_alternative(&self, place: Place, label: &'static str, index: usize) -> u64 {
        let times = self.alternatives.get(&(place, label, index));
        times.copied().unwrap_or(0)
    }

    /// How often a label of the business meter had this answer, 1 or 12 to 14,
    /// with data of one of these lengths.
    pub fn times_of_business(
        &self,
        place: Place,
        label: &'static str,
        number: u8,
        length_is: impl Fn(usize) -> bool,
    ) -> u64 {
        let keys = (place, label, number, 0)..=(place, label, number, usize::MAX);
        self.business
            .range(keys)
            .filter(|((_, _, _, length), _)| length_is(*length))
            .map(|(_, times)| times)
            .sum()
    }

    /// How often a stamped label came with a small season: accepted or
    /// written, or, for DPM and FPM, refused as 12.
    pub fn times_met(&self, place: Place, label: &'static str, small: u8) -> u64 {
        let times = self.small_seasons.get(&(place, label, small));
        times.copied().unwrap_or(0)
    }

    /// How often labels were refused that miss one of these of the list.
    pub fn times_missed(
        &self,
        place: Place,
        mode: Mode,
        miss: Miss,
        listed_is: impl Fn(&str) -> bool,
    ) -> u64 {
        let of_miss = self.misses.iter().filter(|((at, of, by, listed), _)| {
            (*at, *of, *by) == (place, mode, miss) && listed_is(listed)
        });
        of_miss.map(|(_, times)| times).sum()
    }

    /// How often a content of fewer than eight characters had one of these
    /// answers, from 11 through 14.
    pub fn times_short(&self, place: Place, mode: Mode, numbers: RangeInclusive<u8>) -> u64 {
        numbers
            .filter_map(|number| self.short_contents.get(&(place, mode, number)))
            .sum()
    }

    /// The places in contents that came with 12 or 14.
    pub fn places_met(&self, place: Place, number: u8) -> BTreeSet<usize> {
        let keys = self.wrong_at.keys();
        keys.filter(|(at, _, answer, _)| (*at, *answer) == (place, number))
            .map(|(_, _, _, wrong_at)| *wrong_at)
            .collect()
    }

    /// How often the data of one of these labels went wrong so.
    pub fn times_wrong(
        &self,
        place: Place,
        mode: Mode,
        way: Way,
        label_is: impl Fn(&str) -> bool,
    ) -> u64 {
        let of_way = self.ways.iter().filter(|((at, of, by, label), _)| {
            (*at, *of, *by) == (place, mode, way) && label_is(label)
        });
        of_way.map(|(_, times)| times).sum()
    }

    /// How often an answer was seen at all the places.
    pub fn times_answered(&self, number: u8) -> u64 {
        PLACES
            .iter()
            .filter_map(|(place, _)| self.answers.get(&(number, *place)))
            .sum()
    }

    /// Adds what the generator did.
    pub fn add_deeds(&mut self, deeds: &BTreeMap<&'static str, u64>) {
        for (deed, times) in deeds {
            *self.deeds.entry(deed).or_insert(0) += times;
        }
    }

    /// Adds what another tally has.
    pub fn add(&mut self, other: Tally) {
        self.captures_compared += other.captures_compared;
        self.histories_compared += other.histories_compared;
        self.runs_not_ended_well += other.runs_not_ended_well;
        self.calls += other.calls;
        self.unreadable_logs += other.unreadable_logs;
        self.answers_on_64th_byte += other.answers_on_64th_byte;
        self.offsets_over_255 += other.offsets_over_255;
        self.largest_offset = self.largest_offset.max(other.largest_offset);
        add_times(&mut self.answers, other.answers);
        add_times(&mut self.labels_accepted, other.labels_accepted);
        add_times(&mut self.small_seasons, other.small_seasons);
        add_times(&mut self.business, other.business);
        add_times(&mut self.alternatives, other.alternatives);
        add_times(&mut self.misses, other.misses);
        add_times(&mut self.short_contents, other.short_contents);
        add_times(&mut self.wrong_at, other.wrong_at);
        add_times(&mut self.ways, other.ways);
        self.frames.add(other.frames);
        self.recovery.add(other.recovery);
        self.add_deeds(&other.deeds);
    }

    /// Notes all answers of a capture.
    pub fn note_capture(&mut self, capture: &[u8]) {
        match open_capture(capture) {
            Err(refusal) => self.count(refusal.number(), Place::Listing),
            Ok((mode, wire)) => {
                for placed in &read_whole(mode, wire) {
                    self.note_listed(mode, wire, placed);
                }
            }
        }
    }

    fn note_listed(&mut self, mode: Mode, wire: &[u8], placed: &PlacedAnswer) {
        let number = placed.answer.number();
        self.count(number, Place::Listing);
        match &placed.answer {
            Answer::GroupAccepted { label, stamp, data } => {
                let group = Group {
                    mode,
                    label: label.as_bytes(),
                    stamp: stamp.as_bytes(),
                    data: data.as_bytes(),
                };
                self.note_group(Place::Listing, number, &group);
            }
            Answer::GroupRefused(Fault { place, .. }) => {
                let content = content_closed_at(wire, placed.place);
                self.note_refused(Place::Listing, number, mode, &content, *place);
            }
            _ => {}
        }
    }

    /// Notes all calls of a history.
    pub fn note_history(&mut self, log: &[u8], replies: &[Reply]) {
        let log = read_log(log);
        self.calls += log.calls.len() as u64;
        self.unreadable_logs += u64::from(log.unreadable.is_some());
        let mut lines: [FollowedLine; LINES] = Default::default();
        for (call, reply) in log.calls.iter().zip(replies) {
            self.frames.note_opening(call, reply, &lines);
            follow_call(&mut lines, call, reply);
            self.frames.note_round(reply, &lines);
            self.note_call(call, reply, &lines);
        }
    }

    /// Notes one call; the lines are as the call left them.
    fn note_call(&mut self, call: &Call, reply: &Reply, lines: &[FollowedLine; LINES]) {
        match (call, reply) {
            (_, Reply::Opened { number }) => self.count(*number, Place::Opening),
            (_, Reply::Delivered { number }) => self.count(*number, Place::Delivery),
            (_, Reply::Rounded { number, counts, .. }) => {
                self.count(*number, Place::Round);
                for entry in reply.entries() {
                    self.note_entry(&entry, &lines[entry.line]);
                    if usize::from(counts[entry.line]) == LONGEST_TURN {
                        self.answers_on_64th_byte += 1;
                    }
                }
            }
            (Call::Judge { mode, content }, Reply::Judged { number, .. }) => {
                self.count(*number, Place::Judging);
                self.note_judged(*number, *mode, content, reply);
            }
            (
                Call::Write {
                    mode,
                    label,
                    stamp,
                    data,
                    ..
                },
                Reply::Written { number, .. },
            ) => {
                self.count(*number, Place::Writing);
                if let Some(mode) = Mode::from_number(*mode) {
                    let group = Group {
                        mode,
                        label,
                        stamp,
                        data,
                    };
                    let number = if *number == 0 { 1 } else { *number };
                    self.note_group(Place::Writing, number, &group);
                    if number == 11 {
                        self.note_misses(Place::Writing, mode, label);
                    }
                }
            }
            _ => unreachable!("each call has its own kind of reply"),
        }
    }

    fn note_judged(&mut self, number: u8, mode: u8, content: &[u8], reply: &Reply) {
        let (
            Some(mode),
            Reply::Judged {
                label,
                stamp,
                data,
                place,
                ..
            },
        ) = (Mode::from_number(mode), reply)
        else {
            return;
        };
        if number == 1 {
            let group = Group {
                mode,
                label,
                stamp,
                data,
            };
            self.note_group(Place::Judging, number, &group);
        } else {
            self.note_refused(Place::Judging, number, mode, content, *place);
        }
    }

    /// Notes an entry of a sheet; the last byte that its line took gave it.
    fn note_entry(&mut self, entry: &Entry, line: &FollowedLine) {
        self.count(entry.number, Place::Sheet);
        self.offsets_over_255 += u64::from(entry.offset > 255);
        self.largest_offset = self.largest_offset.max(entry.offset);
        let Some(mode) = line.mode else {
            return;
        };
        if entry.number == 1 {
            let [label, stamp, data] = &entry.texts;
            let group = Group {
                mode,
                label,
                stamp,
                data,
            };
            self.note_group(Place::Sheet, entry.number, &group);
        } else if matches!(entry.number, 9 | 11..=14) {
            let content = content_closed_at(&line.delivered, line.taken - 1);
            self.note_refused(Place::Sheet, entry.number, mode, &content, entry.place);
        }
    }

    /// The closing report.
    pub fn report(&self, captures: u64, histories: u64) -> String {
        let mut report = format!(
            "captures: {captures} made, {} compared\n\
             histories: {histories} made of {CALLS_IN_HISTORY} calls each, {} compared; \
             {} calls in them, {} of them end in `?`\n\
             runs that ended with another status than 0: {}\n",
            self.captures_compared,
            self.histories_compared,
            self.calls,
            self.unreadable_logs,
            self.runs_not_ended_well,
        );
        report.push_str(&self.report_of_answers());
        report.push_str(&self.report_of_labels());
        report.push_str(&self.report_of_small_seasons());
        report.push_str(&self.report_of_business());
        report.push_str(&self.report_of_misses());
        report.push_str(&self.report_of_short_contents());
        report.push_str(&self.report_of_wrong_places());
        report.push_str(&self.report_of_ways());
        report.push_str(&self.frames.report());
        report.push_str(&self.recovery.report());
        report.push_str(&format!(
            "turns with an answer on the 64th byte: {}\n\
             entries at an offset over 255: {}, largest offset: {}\n",
            self.answers_on_64th_byte, self.offsets_over_255, self.largest_offset
        ));
        report.push_str("what the generator did:\n");
        for (deed, times) in &self.deeds {
            report.push_str(&format!("  {times:>9} {deed}\n"));
        }
        report
    }

    fn report_of_answers(&self) -> String {
        let mut report = "answers seen:\n  number".to_string();
        for (_, name) in PLACES {
            report.push_str(&format!(" {name:>9}"));
        }
        report.push_str("       all\n");
        for number in 0..=20 {
            report.push_str(&format!("  {number:>6}"));
            for (place, _) in PLACES {
                let times = self.answers.get(&(number, place)).unwrap_or(&0);
                report.push_str(&format!(" {times:>9}"));
            }
            report.push_str(&format!(" {:>9}\n", self.times_answered(number)));
        }
        report
    }

    fn report_of_labels(&self) -> String {
        let modes = [Mode::Standard, Mode::Historic, Mode::Business];
        let [standard, historic, business] = modes.map(|mode| all_rules(mode).len());
        let mut report = format!(
            "labels accepted or written, standard of {standard}, historic of {historic} and \
             business of {business}:\n"
        );
        for (place, name) in GROUP_PLACES {
            let [standard, historic, business] = modes.map(|mode| self.count_accepted(place, mode));
            let rarest = modes.map(|mode| self.fewest_accepted(place, mode));
            report.push_str(&format!(
                "  {name}: {standard}, {historic} and {business}; the rarest came {} times\n",
                rarest.iter().min().expect("there are modes")
            ));
        }
        report
    }

    /// How often the label of a mode came that came least.
    fn fewest_accepted(&self, place: Place, mode: Mode) -> u64 {
        let rules = all_rules(mode).iter();
        rules
            .map(|rule| self.times_accepted(place, mode, &rule.label))
            .min()
            .expect("a mode has labels")
    }

    /// How many labels of a mode were accepted or written.
    fn count_accepted(&self, place: Place, mode: Mode) -> usize {
        let rules = all_rules(mode).iter();
        rules
            .filter(|rule| self.times_accepted(place, mode, &rule.label) > 0)
            .count()
    }

    /// How many alternatives of the business meter's labels were accepted or
    /// written, and how many of its labels were refused for their data.
    fn report_of_business(&self) -> String {
        let rules = all_rules(Mode::Business);
        let all: usize = rules.iter().map(|rule| rule.alternatives.len()).sum();
        let mut report = format!(
            "alternatives of the business meter's labels accepted or written, of {all}, and labels \
             refused as 13 and 14:\n"
        );
        for (place, name) in GROUP_PLACES {
            let alternatives = self.times_of_alternatives(place);
            let met = alternatives.iter().filter(|times| **times > 0).count();
            let rarest = alternatives.iter().min().expect("there are alternatives");
            let [width, fields] = [13, 14].map(|number| {
                let refused = rules.iter().filter(|rule| {
                    self.times_of_business(place, &rule.label, number, |_| true) > 0
                });
                refused.count()
            });
            report.push_str(&format!(
                "  {name}: {met}, the rarest {rarest} times; {width} and {fields}\n"
            ));
        }
        report
    }

    /// How often each alternative of each label of the business meter came.
    fn times_of_alternatives(&self, place: Place) -> Vec<u64> {
        all_rules(Mode::Business)
            .iter()
            .flat_map(|rule| {
                (0..rule.alternatives.len())
                    .map(|index| self.times_of_alternative(place, &rule.label, index))
            })
            .collect()
    }

    /// How many labels of the lists were missed in each way, and how often.
    fn report_of_misses(&self) -> String {
        let mut report = "labels of the lists that were missed by a label refused as 11 (as 9, \
                          where a content has none), and how often:\n"
            .to_string();
        for (miss, name) in MISSES {
            let shares = GROUP_PLACES.map(|(place, place_name)| {
                let times: Vec<u64> = self
                    .misses
                    .iter()
                    .filter(|((at, _, by, _), _)| (*at, *by) == (place, miss))
                    .map(|(_, times)| *times)
                    .collect();
                let all: u64 = times.iter().sum();
                format!("{place_name} {}, {all} times", times.len())
            });
            report.push_str(&format!("  {name}: {}\n", shares.join("; ")));
        }
        report
    }

    /// How often contents of fewer than eight characters had a label that was
    /// not in the list, and one that was.
    fn report_of_short_contents(&self) -> String {
        let mut report =
            "contents of fewer than eight characters refused as 11, and as 12 to 14:\n".to_string();
        // The writer is handed no content.
        for (place, name) in READING_PLACES {
            let [unlisted, listed] = [11..=11, 12..=14].map(|numbers| {
                let times = MODES.map(|mode| self.times_short(place, mode, numbers.clone()));
                times.iter().sum::<u64>()
            });
            report.push_str(&format!("  {name}: {unlisted} and {listed}\n"));
        }
        report
    }

    /// How many places in contents came with 12 and with 14, and the last one.
    fn report_of_wrong_places(&self) -> String {
        let mut report = "different places in the content met with 12 and with 14:\n".to_string();
        for (place, name) in READING_PLACES {
            let [stamps, data] = [12, 14].map(|number| self.places_met(place, number));
            report.push_str(&format!(
                "  {name}: {} and {}; the last {}\n",
                stamps.len(),
                data.len(),
                data.last().unwrap_or(&0)
            ));
        }
        report
    }

    /// How often data that were refused as 14 went wrong in each way.
    fn report_of_ways(&self) -> String {
        let mut report = "how data refused as 14 went wrong, and how often:\n".to_string();
        for (way, name) in WAYS {
            let shares = READING_PLACES.map(|(place, place_name)| {
                let times = MODES.map(|mode| self.times_wrong(place, mode, way, |_| true));
                format!("{place_name} {}", times.iter().sum::<u64>())
            });
            report.push_str(&format!("  {name}: {}\n", shares.join(", ")));
        }
        report
    }

    /// With how many stamped labels h and e were met at the places that see
    /// groups, and how often the rarest of them.
    fn report_of_small_seasons(&self) -> String {
        let with_letter = labels_with(Season::WinterOrSummer);
        let with_space = labels_with(Season::SpaceOnly);
        let mut report = format!(
            "labels met with a small season, {} accepted or written and {} of DPM and FPM refused \
             as 12:\n",
            with_letter.len(),
            with_space.len()
        );
        for (place, name) in GROUP_PLACES {
            let shares = SMALL_SEASONS.map(|small| {
                format!(
                    "{} with {} and {}",
                    char::from(small),
                    self.count_met(place, &with_letter, small),
                    self.count_met(place, &with_space, small)
                )
            });
            report.push_str(&format!(
                "  {name}: {}; the rarest came {} times\n",
                shares.join(", "),
                self.fewest_met(place)
            ));
        }
        report
    }

    /// How many of the labels came with this small season.
    fn count_met(&self, place: Place, labels: &[&'static str], small: u8) -> usize {
        labels
            .iter()
            .filter(|label| self.times_met(place, label, small) > 0)
            .count()
    }

    /// How often the stamped label and small season came that came least.
    fn fewest_met(&self, place: Place) -> u64 {
        stamped_rules()
            .iter()
            .flat_map(|rule| SMALL_SEASONS.map(|small| self.times_met(place, &rule.label, small)))
            .min()
            .expect("some labels are stamped")
    }
}

/// The stamped labels that have this season rule.
fn labels_with(season: Season) -> Vec<&'static str> {
    stamped_rules()
        .iter()
        .filter(|rule| rule.stamp == Some(season))
        .map(|rule| rule.label.as_str())
        .collect()
}

/// What stands before the first separator of a content, if another one stands
/// where the final one must.
fn label_of_content(mode: Mode, content: &[u8]) -> Option<&[u8]> {
    let body = &content[..content.len().checked_sub(2)?];
    let is_separator = |one: &u8| *one == mode.separator();
    let end = body.iter().position(is_separator)?;
    is_separator(&content[body.len()]).then_some(&body[..end])
}

/// The content of the group that the byte at this place closed.
fn content_closed_at(wire: &[u8], place: usize) -> Vec<u8> {
    let opened_at = wire[..place]
        .iter()
        .rposition(|one| *one == to_wire(LINE_FEED))
        .expect("a group is opened by LF");
    wire[opened_at + 1..place]
        .iter()
        .filter_map(|one| character_of(*one))
        .collect()
}
