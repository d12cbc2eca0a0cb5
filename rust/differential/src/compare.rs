//! Runs scripts through the oracle and through another program, and finds a
//! small script for the first difference.

use crate::oracle::listing;
use crate::shrink::shrink;
use crate::source::Source;
use crate::tally::Tally;
use std::io::{self, Read, Write};
use std::process::{Command, Stdio};
use std::sync::atomic::{AtomicU64, Ordering};
use std::thread;

/// A pipe holds at least this much, so that a script up to this size can be
/// written before its listing is read.
const PIPE: usize = 32 * 1024;

/// Gives the listing of a script: the program that is compared.
pub trait Subject: Sync {
    fn listing(&self, script: &[u8]) -> Vec<u8>;
}

impl<F: Fn(&[u8]) -> Vec<u8> + Sync> Subject for F {
    fn listing(&self, script: &[u8]) -> Vec<u8> {
        self(script)
    }
}

/// A command that takes a script on standard input.
pub struct Program {
    words: Vec<String>,
}

impl Program {
    /// The program's path and its arguments.
    pub fn new(words: Vec<String>) -> Self {
        Program { words }
    }

    fn run(&self, script: &[u8]) -> io::Result<Vec<u8>> {
        let mut command = Command::new(&self.words[0]);
        command.args(&self.words[1..]).stdin(Stdio::piped()).stdout(Stdio::piped());
        let mut child = command.spawn()?;
        let mut input = child.stdin.take().expect("standard input is a pipe");
        let mut output = child.stdout.take().expect("standard output is a pipe");
        let mut listing = Vec::new();
        if script.len() <= PIPE {
            put(&mut input, script)?;
            drop(input);
            output.read_to_end(&mut listing)?;
        } else {
            thread::scope(|scope| {
                let writer = scope.spawn(move || put(&mut input, script));
                output.read_to_end(&mut listing)?;
                writer.join().expect("the writer does not panic")
            })?;
        }
        let status = child.wait()?;
        if !status.success() {
            listing.extend(format!("(ended with {status})\n").bytes());
        }
        Ok(listing)
    }
}

/// A program may end before it has read all of a stopped script.
fn put(input: &mut impl Write, script: &[u8]) -> io::Result<()> {
    match input.write_all(script) {
        Err(error) if error.kind() == io::ErrorKind::BrokenPipe => Ok(()),
        other => other,
    }
}

impl Subject for Program {
    fn listing(&self, script: &[u8]) -> Vec<u8> {
        self.run(script).unwrap_or_else(|error| panic!("{}: {error}", self.words[0]))
    }
}

/// The first difference of a run.
#[derive(Debug)]
pub struct Difference {
    pub number: u64,
    /// The script cut down, and its two listings.
    pub script: Vec<u8>,
    pub expected: String,
    pub found: Vec<u8>,
}

/// Compares all scripts of a source on some threads. The tally counts the
/// scripts that were compared.
pub fn compare(source: &Source, subject: &dyn Subject, workers: usize) -> (Tally, Option<Difference>) {
    let differs = |number, tally: &mut Tally| {
        let script = source.script(number);
        let expected = tally.listing(&script);
        subject.listing(&script) != expected.as_bytes()
    };
    let (tallies, first) = search(source.number(), workers, differs);
    (total(tallies), first.map(|number| cut(number, &source.script(number), subject)))
}

/// Counts what all scripts of a source cover, without a program beside the
/// oracle.
pub fn cover(source: &Source, workers: usize) -> Tally {
    let count = |number, tally: &mut Tally| {
        tally.listing(&source.script(number));
        false
    };
    total(search(source.number(), workers, count).0)
}

fn total(tallies: Vec<Tally>) -> Tally {
    let mut total = Tally::default();
    tallies.into_iter().for_each(|tally| total.add(tally));
    total
}

/// Tries the numbers below a limit on some threads, each with counts of its
/// own, up to the first that differs. Gives the counts and that number.
pub fn search<T: Default + Send>(
    limit: u64,
    workers: usize,
    differs: impl Fn(u64, &mut T) -> bool + Sync,
) -> (Vec<T>, Option<u64>) {
    let next = AtomicU64::new(0);
    let first = AtomicU64::new(u64::MAX);
    let work = || {
        let mut counts = T::default();
        loop {
            let number = next.fetch_add(1, Ordering::Relaxed);
            if number >= limit || number > first.load(Ordering::Relaxed) {
                return counts;
            }
            if differs(number, &mut counts) {
                first.fetch_min(number, Ordering::Relaxed);
            }
        }
    };
    let counts = thread::scope(|scope| {
        let workers: Vec<_> = (0..workers).map(|_| scope.spawn(work)).collect();
        workers.into_iter().map(|worker| worker.join().expect("no worker panics")).collect()
    });
    let first = first.into_inner();
    (counts, (first < u64::MAX).then_some(first))
}

fn cut(number: u64, script: &[u8], subject: &dyn Subject) -> Difference {
    let differs = |script: &[u8]| subject.listing(script) != listing(script).as_bytes();
    let script = shrink(script, differs);
    let expected = listing(&script);
    let found = subject.listing(&script);
    Difference { number, script, expected, found }
}

impl Difference {
    /// Where the listings part: the number of the line, from 0 for the header,
    /// and both lines.
    pub fn line(&self) -> (usize, String, String) {
        let found = String::from_utf8_lossy(&self.found).into_owned();
        let mut expected_lines = self.expected.split('\n');
        let mut found_lines = found.split('\n');
        let mut number = 0;
        loop {
            let lines = (expected_lines.next(), found_lines.next());
            if lines.0 != lines.1 || lines == (None, None) {
                let text = |line: Option<&str>| line.unwrap_or("(nothing)").to_string();
                return (number, text(lines.0), text(lines.1));
            }
            number += 1;
        }
    }
}
