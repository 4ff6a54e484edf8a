//! What was held against a freshly opened line (document 02, M-113).

use crate::frame_tally::add_times;
use crate::pasts::{pasts_of, Past, PASTS};
use crate::table::{Mode, MODES};
use std::collections::BTreeMap;

/// Where the answers behind an STX were looked at.
#[derive(Clone, Copy, Debug, PartialEq, Eq, PartialOrd, Ord)]
pub enum Behind {
    Listing,
    Sheets,
}

pub const BEHIND: [(Behind, &str); 2] = [(Behind::Listing, "listing"), (Behind::Sheets, "sheets")];

/// Which STX were tried, and what stood before and behind them.
#[derive(Default)]
pub struct RecoveryTally {
    pub noisy_captures: u64,
    pub noisy_histories: u64,
    pub second_histories: u64,
    /// How often a line of a mode had a past at an STX behind which it answered.
    pasts: BTreeMap<(Behind, Mode, Past), u64>,
    /// How many STX were tried, how many answers came behind them, and how many of
    /// the STX were compared.
    starts: BTreeMap<Behind, u64>,
    answers: BTreeMap<Behind, u64>,
    compared: BTreeMap<Behind, u64>,
}

impl RecoveryTally {
    /// Notes an STX that is tried: what a line took before it, and how many answers
    /// came behind it that can be compared.
    pub fn note_start(&mut self, behind: Behind, mode: Mode, before: &[u8], answers: usize) {
        *self.starts.entry(behind).or_insert(0) += 1;
        *self.answers.entry(behind).or_insert(0) += answers as u64;
        if answers > 0 {
            for past in pasts_of(mode, before) {
                *self.pasts.entry((behind, mode, past)).or_insert(0) += 1;
            }
        }
    }

    /// Notes that so many were compared, by what a program printed.
    pub fn note_compared(&mut self, behind: Behind, count: usize) {
        *self.compared.entry(behind).or_insert(0) += count as u64;
    }

    /// Adds what another tally has.
    pub fn add(&mut self, other: RecoveryTally) {
        self.noisy_captures += other.noisy_captures;
        self.noisy_histories += other.noisy_histories;
        self.second_histories += other.second_histories;
        add_times(&mut self.pasts, other.pasts);
        add_times(&mut self.starts, other.starts);
        add_times(&mut self.answers, other.answers);
        add_times(&mut self.compared, other.compared);
    }

    /// How often a line of a mode had this past at an STX behind which it answered.
    pub fn times_behind(&self, behind: Behind, mode: Mode, past: Past) -> u64 {
        let key = (behind, mode, past);
        self.pasts.get(&key).copied().unwrap_or(0)
    }

    /// The part of the closing report.
    pub fn report(&self) -> String {
        let shares = BEHIND.map(|(behind, name)| {
            let [starts, compared, answers] = [&self.starts, &self.compared, &self.answers]
                .map(|times| times.get(&behind).copied().unwrap_or(0));
            let rarest = MODES
                .iter()
                .flat_map(|mode| PASTS.map(|(past, _)| self.times_behind(behind, *mode, past)))
                .min()
                .expect("there are modes");
            format!(
                "{name} {starts} made, {compared} compared, {answers} answers, the rarest past of a \
                 mode {rarest} times"
            )
        });
        format!(
            "STX held against a freshly opened line: {}; besides, {} captures and {} histories with \
             noise, and {} second histories\n",
            shares.join("; "),
            self.noisy_captures,
            self.noisy_histories,
            self.second_histories
        )
    }
}
