//! Counts of what a run of scripts covered.

use crate::branches::{created, Step, View};
use crate::endings::Ending;
use crate::machine::{Answer, Machine};
use crate::oracle::{observed_listing, word, Observer};
use crate::record::Record;
use script::table::SHAPES;
use std::collections::{BTreeMap, BTreeSet};
use std::fmt;

/// Scripts, records, answers by call, and branches by name.
#[derive(Default)]
pub struct Tally {
    pub scripts: u64,
    pub records: u64,
    stops: u64,
    /// By tag: how often it was done, and refused with each status.
    pub(crate) done: [u64; SHAPES.len()],
    pub(crate) refused: [BTreeMap<i64, u64>; SHAPES.len()],
    kinds: [u64; 2],
    branches: BTreeMap<&'static str, u64>,
    view: View,
}

impl Tally {
    /// Adds another run's counts.
    pub fn add(&mut self, other: Tally) {
        self.scripts += other.scripts;
        self.records += other.records;
        self.stops += other.stops;
        for tag in 0..SHAPES.len() {
            self.done[tag] += other.done[tag];
            for (status, number) in &other.refused[tag] {
                *self.refused[tag].entry(*status).or_default() += number;
            }
        }
        for kind in 0..2 {
            self.kinds[kind] += other.kinds[kind];
        }
        for (name, number) in other.branches {
            *self.branches.entry(name).or_default() += number;
        }
    }

    /// The listing of a script, counted.
    pub fn listing(&mut self, script: &[u8]) -> String {
        self.scripts += 1;
        observed_listing(script, self)
    }

    /// The statuses with which calls of a tag were refused, after 0 if any
    /// was done.
    pub fn statuses(&self, tag: usize) -> Vec<i64> {
        let done = (self.done[tag] > 0).then_some(0);
        done.into_iter().chain(self.refused[tag].keys().rev().copied()).collect()
    }

    /// Names of the branches that were reached.
    pub fn branches(&self) -> BTreeSet<&'static str> {
        self.branches.keys().copied().collect()
    }

    /// How often a branch was reached.
    pub fn times(&self, name: &str) -> u64 {
        self.branches.get(name).copied().unwrap_or(0)
    }

    /// The numbers of scripts and records.
    pub fn summary(&self) -> String {
        let [streams, datagrams] = self.kinds.map(with_commas);
        let [scripts, stops, records] = [self.scripts, self.stops, self.records].map(with_commas);
        format!(
            "{scripts} scripts ({streams} stream, {datagrams} datagram, {stops} stopped), {records} records"
        )
    }

    fn reached(&mut self, names: impl IntoIterator<Item = &'static str>) {
        for name in names {
            *self.branches.entry(name).or_default() += 1;
        }
    }

    fn count(&mut self, record: &Record, word: i64) {
        self.records += 1;
        let tag = record.values().0 as usize;
        if word < 0 {
            *self.refused[tag].entry(word).or_default() += 1;
        } else {
            self.done[tag] += 1;
        }
    }
}

/// A number with commas between thousands.
pub(crate) fn with_commas(number: u64) -> String {
    match number {
        0..1000 => number.to_string(),
        _ => format!("{},{:03}", with_commas(number / 1000), number % 1000),
    }
}

impl Observer for Tally {
    fn called(&mut self, record: &Record, answer: &Answer, machine: &Machine) {
        self.count(record, word(answer));
        let after = self.view.next(machine, record, answer);
        let step = Step { before: &self.view, after: &after, record, answer };
        let names = step.names();
        self.view = after;
        self.reached(names);
    }

    fn created(&mut self, record: &Record, machine: Option<&Machine>) {
        self.count(record, if machine.is_some() { 0 } else { -10 });
        self.reached(created(record, machine.is_some()));
        if let (Record::Create { kind, .. }, Some(machine)) = (record, machine) {
            self.kinds[*kind as usize] += 1;
            self.view = View::of(machine);
        }
    }

    fn ended(&mut self, ending: &Ending) {
        self.stops += u64::from(matches!(ending, Ending::Stopped(_)));
        self.reached([ending.name()]);
    }
}

impl fmt::Display for Tally {
    fn fmt(&self, f: &mut fmt::Formatter<'_>) -> fmt::Result {
        writeln!(f, "{}", self.summary())?;
        writeln!(f, "call: done, refused by status")?;
        for (tag, shape) in SHAPES.iter().enumerate() {
            write!(f, "  {:16}{:>9}", shape.name, self.done[tag])?;
            for (status, number) in self.refused[tag].iter().rev() {
                write!(f, "  {status}: {number}")?;
            }
            writeln!(f)?;
        }
        writeln!(f, "branches")?;
        for (name, number) in &self.branches {
            writeln!(f, "  {name:50}{number:>9}")?;
        }
        Ok(())
    }
}
