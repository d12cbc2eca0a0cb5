//! Counts of what a run of lists covered.

use crate::call::{Call, Shape, ANSWERS, PLAIN};
use std::collections::BTreeMap;
use std::fmt;

#[derive(Default)]
pub struct Tally {
    pub lists: u64,
    pub calls: u64,
    kinds: [u64; 2],
    /// Whether there was a list with user memory.
    memory: bool,
    /// The least and the largest capacity.
    capacities: Option<(u32, u32)>,
    /// By a call's name and its answer, where 1 stands for a count above 0.
    answers: BTreeMap<(&'static str, i64), u64>,
}

impl Tally {
    pub fn count_list(&mut self, shape: &Shape) {
        self.lists += 1;
        self.kinds[shape.kind as usize] += 1;
        self.memory |= shape.memory.is_some();
        self.see_capacities((shape.capacity, shape.capacity));
    }

    pub fn count(&mut self, call: &Call, word: i64) {
        self.calls += 1;
        *self.answers.entry((call.name(), word.min(1))).or_default() += 1;
    }

    fn see_capacities(&mut self, (least, most): (u32, u32)) {
        let seen = self.capacities.get_or_insert((least, most));
        *seen = (seen.0.min(least), seen.1.max(most));
    }

    /// Adds another run's counts.
    pub fn add(&mut self, other: Tally) {
        self.lists += other.lists;
        self.calls += other.calls;
        self.kinds = [0, 1].map(|kind| self.kinds[kind] + other.kinds[kind]);
        self.memory |= other.memory;
        other.capacities.into_iter().for_each(|capacities| self.see_capacities(capacities));
        for (answer, number) in other.answers {
            *self.answers.entry(answer).or_default() += number;
        }
    }

    /// The calls of these lists and their answers.
    fn expected(&self) -> &'static [(&'static str, &'static [i64])] {
        const ALL: &[(&str, &[i64])] = &ANSWERS;
        &ALL[..if self.memory { ALL.len() } else { PLAIN }]
    }

    /// The answers that should occur and did not.
    pub fn missing(&self) -> Vec<(&'static str, i64)> {
        let all =
            self.expected().iter().flat_map(|(name, answers)| answers.iter().map(move |one| (*name, *one)));
        all.filter(|answer| !self.answers.contains_key(answer)).collect()
    }

    /// The answers that occurred and should not.
    pub fn unexpected(&self) -> Vec<(&'static str, i64)> {
        let known = |(name, answer): &(&str, i64)| {
            self.expected().iter().any(|(call, answers)| call == name && answers.contains(answer))
        };
        self.answers.keys().filter(|answer| !known(answer)).copied().collect()
    }
}

impl fmt::Display for Tally {
    fn fmt(&self, f: &mut fmt::Formatter<'_>) -> fmt::Result {
        let Tally { lists, calls, kinds: [streams, datagrams], .. } = self;
        let (least, most) = self.capacities.unwrap_or_default();
        writeln!(
            f,
            "{lists} lists ({streams} stream, {datagrams} datagram, C from {least} to {most}), {calls} calls"
        )?;
        writeln!(f, "call: done with a count above 0, done with 0, refused by status")?;
        for (name, answers) in self.expected() {
            let number = |answer| self.answers.get(&(*name, answer)).copied().unwrap_or_default();
            write!(f, "  {name:22}{:>9}{:>9}", number(1), number(0))?;
            for status in answers.iter().filter(|answer| **answer < 0) {
                write!(f, "  {status}: {}", number(*status))?;
            }
            writeln!(f)?;
        }
        match (&self.missing()[..], &self.unexpected()[..]) {
            ([], []) => writeln!(f, "every answer of every call occurred"),
            (missing, unexpected) => writeln!(f, "missing: {missing:?}, unexpected: {unexpected:?}"),
        }
    }
}
