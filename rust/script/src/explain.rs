//! A script and its listing in words.

use crate::fold::fold;
use crate::names::signals;
use crate::trace::{Outcome, Step};
use crate::words;
use std::fmt::Write as _;
use std::io::{self, Write};

/// Writes an explanation of a script and its listing. Equal records that change nothing are told once.
pub fn explain(script: &[u8], listing: &str, out: &mut dyn Write) -> io::Result<Outcome> {
    let outcome = fold(script, listing, step_text, |run| match run.times {
        1 => writeln!(out, "record {}: {}", run.first, run.text),
        times => writeln!(out, "records {} to {}, each: {}", run.first, run.first + times - 1, run.text),
    })?;
    writeln!(out, "{}", words::ending(&outcome.ending))?;
    for mismatch in &outcome.mismatches {
        writeln!(out, "DOES NOT FIT: {mismatch}")?;
    }
    writeln!(out, "{}", words::summary(&outcome))?;
    Ok(outcome)
}

/// All about a step but its number.
fn step_text(step: &Step) -> String {
    let mut text = format!("{}\n  {}\n", words::call(step.record), words::answer(step));
    for place in 0..2 {
        writeln!(text, "  {}", end_text(step, place)).unwrap();
    }
    for packet in &step.pair.came {
        writeln!(text, "  a packet comes: {}", words::packet(packet)).unwrap();
    }
    for packet in &step.pair.gone {
        writeln!(text, "  a packet goes: {}", words::packet(packet)).unwrap();
    }
    for wait in &step.pair.cancelled {
        writeln!(text, "  a wait goes: {}", words::wait(wait)).unwrap();
    }
    if !step.pair.waits.is_empty() || !step.pair.packets.is_empty() {
        let (waits, packets) = (step.pair.waits.len(), step.pair.packets.len());
        writeln!(text, "  waits: {waits}, packets to take: {packets}").unwrap();
    }
    for mismatch in step.mismatches {
        writeln!(text, "  DOES NOT FIT (line {} of the listing): {mismatch}", step.number + 2).unwrap();
    }
    text.pop();
    text
}

/// An end after a step: its bits, which of them are new and which are gone, its queue.
fn end_text(step: &Step, place: usize) -> String {
    let name = format!("end{}", place + 1);
    let end = &step.pair.ends[place];
    let before = step.words[place];
    let Some(word) = end.word else {
        return match before {
            Some(_) => format!("{name}: now closed"),
            None => format!("{name}: closed"),
        };
    };
    let kept = signals(word & before.unwrap_or(word));
    let mut text = format!("{name}: {}", if word == 0 { "no signal".to_string() } else { kept.join(", ") });
    let set = signals(word & !before.unwrap_or(word));
    if !set.is_empty() {
        let joint = if kept.is_empty() { "now" } else { ", now also" };
        write!(text, "{joint} {}", set.join(", ")).unwrap();
    }
    let cleared = signals(before.unwrap_or(word) & !word);
    if !cleared.is_empty() {
        write!(text, ", no longer {}", cleared.join(", ")).unwrap();
    }
    text + "; " + &words::queue(step.pair, end, step.queued[place])
}
