//! A script and its listing, gone through together, record by record.

use crate::listing::{line_of, Added, Answer, Line, HEADER};
use crate::mistake::{Mistake, Word};
use crate::names::status;
use crate::pair::{Call, Pair};
use crate::record::{next_record, Record, Stop};

/// A record with its line.
pub struct Step<'a> {
    /// The number of the record, from 0.
    pub number: u64,
    /// The record.
    pub record: &'a Record,
    /// The word of the answer.
    pub word: i64,
    /// What the line adds.
    pub added: &'a Added,
    /// Why the call is refused, where the pair before it gives a reason for the status.
    pub reason: Option<&'static str>,
    /// The signal words before the record.
    pub words: [Option<u32>; 2],
    /// The bytes queued before the record.
    pub queued: [usize; 2],
    /// The pair after the record.
    pub pair: &'a Pair,
    /// Where the line does not fit the record.
    pub mismatches: &'a [String],
}

/// How a script ends.
#[derive(Clone, Debug, PartialEq)]
pub enum Ending {
    /// Behind its last record.
    Whole,
    /// At a refused create.
    Refused,
    /// At a byte, for a reason.
    Stopped(usize, Stop),
    /// It cannot be followed further, because the listing does not fit.
    Lost,
}

/// What is known once the last record is gone through.
pub struct Outcome {
    /// How the script ends.
    pub ending: Ending,
    /// How many records were gone through.
    pub records: u64,
    /// How many of them were refused.
    pub refused: u64,
    /// Where the listing does not fit the script, beside what was shown with a record.
    pub mismatches: Vec<String>,
    /// How many mismatches there are in all.
    pub number: usize,
}

impl Outcome {
    /// Whether the listing fits the script, in words.
    pub fn fit(&self) -> String {
        match self.number {
            0 => "the listing fits the script".to_string(),
            1 => "the listing does not fit the script in 1 place".to_string(),
            number => format!("the listing does not fit the script in {number} places"),
        }
    }
}

struct Trace<'a> {
    script: &'a [u8],
    lines: std::iter::Peekable<std::iter::Enumerate<std::str::Lines<'a>>>,
    offset: usize,
    pair: Pair,
    outcome: Outcome,
}

/// Goes through a script and its listing and shows each record with its line.
pub fn trace(script: &[u8], listing: &str, see: &mut dyn FnMut(&Step)) -> Outcome {
    let outcome = Outcome { ending: Ending::Lost, records: 0, refused: 0, mismatches: Vec::new(), number: 0 };
    let lines = listing.lines().enumerate().peekable();
    let mut trace = Trace { script, lines, offset: 0, pair: Pair::new(), outcome };
    trace.header();
    trace.outcome.ending = loop {
        match trace.next(see) {
            Ok(None) => {}
            Ok(Some(ending)) => break ending,
            Err(mismatch) => {
                trace.note(mismatch);
                break Ending::Lost;
            }
        }
    };
    if let (Some((at, line)), true) = (trace.lines.next(), trace.outcome.ending != Ending::Lost) {
        trace.note(format!("line {}: found `{line}`, but the script has ended", at + 1));
    }
    if !listing.is_empty() && !listing.ends_with('\n') {
        trace.note("the last line of the listing is cut: it has no newline".to_string());
    }
    trace.outcome
}

impl Trace<'_> {
    fn note(&mut self, mismatch: String) {
        self.outcome.mismatches.push(mismatch);
        self.outcome.number += 1;
    }

    /// The header, or a line in its place that is no record's.
    fn header(&mut self) {
        let first = self.lines.peek().map_or("", |(_, line)| line);
        if first != HEADER {
            self.note(format!("line 1, column 1: expected `{HEADER}`"));
        }
        if !first.starts_with("0 ") && !first.starts_with("stop ") {
            self.lines.next();
        }
    }

    /// Goes through one record; says how the script ends where it does.
    fn next(&mut self, see: &mut dyn FnMut(&Step)) -> Result<Option<Ending>, String> {
        let rest = &self.script[self.offset..];
        if rest.is_empty() {
            return Ok(Some(Ending::Whole));
        }
        let (record, size) = match next_record(rest, self.outcome.records > 0) {
            Ok(found) => found,
            Err(stop) => return self.stop(stop).map(Some),
        };
        let name = record.shape().name;
        let number = self.outcome.records;
        let Some((at, text)) = self.lines.next() else {
            return Err(format!("the listing has ended before the line of record {number} (`{name}`)"));
        };
        let told = |mistake: Mistake| format!("{mistake}, for record {number} (`{name}`)");
        let answer = match line_of(Word { text, line: at + 1, column: 1 }).map_err(told)? {
            Line::Answer(answer) => answer,
            Line::Stop => {
                return Err(format!(
                    "line {}: found `{text}`, but record {number} (`{name}`) is whole",
                    at + 1
                ))
            }
        };
        if answer.number != number {
            return Err(format!(
                "line {}: found record {}, expected record {number} (`{name}`)",
                at + 1,
                answer.number
            ));
        }
        let added = answer.added(record.shape()).map_err(told)?;
        self.step(&record, &answer, &added, see);
        self.offset += size;
        let refused_create = number == 0 && answer.word < 0;
        Ok(refused_create.then_some(Ending::Refused))
    }

    /// The line of a stop.
    fn stop(&mut self, stop: Stop) -> Result<Ending, String> {
        let due = format!("stop {}", self.offset);
        match self.lines.next() {
            Some((_, line)) if line == due => Ok(Ending::Stopped(self.offset, stop)),
            Some((at, line)) => Err(format!("line {}: found `{line}`, expected `{due}`: {stop}", at + 1)),
            None => Err(format!("the listing has ended before `{due}`: {stop}")),
        }
    }

    /// Follows a record by its answer, and shows it.
    fn step(&mut self, record: &Record, answer: &Answer, added: &Added, see: &mut dyn FnMut(&Step)) {
        let shape = record.shape();
        let mut notes = Vec::new();
        let words = [0, 1].map(|place| self.pair.ends[place].word);
        let queued = [0, 1].map(|place| self.pair.ends[place].queue.bytes.len());
        self.pair.came.clear();
        self.pair.gone.clear();
        self.pair.cancelled.clear();
        let due = shape.refusals.iter().find(|refusal| (refusal.holds)(&self.pair, record));
        let reason = due.filter(|due| due.status == answer.word).map(|due| due.reason);
        test_answer(answer, due.map(|due| (due.status, due.reason)), &mut notes);
        if let (Ok(word), None) = (u64::try_from(answer.word), due) {
            let call = Call { record, word, bytes: &added.bytes, numbers: &added.numbers };
            if word > 0 && !shape.done.contains("{}") {
                notes.push(format!("the word is {word}, expected 0"));
            }
            self.pair.follow(&call, &mut notes);
        }
        self.pair.take_words(answer.ends, &mut notes);
        self.outcome.records += 1;
        self.outcome.refused += u64::from(answer.word < 0);
        self.outcome.number += notes.len();
        let (number, pair, word) = (answer.number, &self.pair, answer.word);
        see(&Step { number, record, word, added, reason, words, queued, pair, mismatches: &notes });
    }
}

/// Notes an answer that is done where it has to be refused, or the other way, or refused with another status.
fn test_answer(answer: &Answer, due: Option<(i64, &str)>, notes: &mut Vec<String>) {
    match due {
        Some((number, reason)) if number != answer.word => {
            notes.push(format!("the word is {}, expected {}: {reason}", answer.word, status(number)))
        }
        None if answer.word < 0 => {
            notes.push(format!("the word is {}, but nothing refuses the call", answer.word))
        }
        _ => {}
    }
}
