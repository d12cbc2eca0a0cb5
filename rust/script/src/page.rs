//! A script and its listing as one HTML file, which needs nothing else.

use crate::fold::{fold, Run};
use crate::names::{signals, MEANINGS, SIGNALS};
use crate::pair::{End, Pair};
use crate::text::line_of;
use crate::trace::{trace, Outcome, Step};
use crate::words;
use std::fmt::Write as _;
use std::io::{self, Write};

const STYLE: &str = include_str!("page.css");
/// The most datagrams of a queue that are drawn one by one.
const MOST_DRAWN: usize = 32;
/// The most waits, and the most packets, that are shown.
const MOST_SHOWN: usize = 6;

/// Writes the page of a script and its listing. Equal records that change nothing have one row.
pub fn page(title: &str, script: &[u8], listing: &str, out: &mut dyn Write) -> io::Result<Outcome> {
    let outcome = trace(script, listing, &mut |_| {});
    let (title, summary) = (escaped(title), escaped(&words::summary(&outcome)));
    let wrong = if outcome.number > 0 { "mismatch" } else { "summary" };
    writeln!(out, "<!doctype html>\n<html lang=\"en\">\n<head>\n<meta charset=\"utf-8\">")?;
    writeln!(out, "<meta name=\"viewport\" content=\"width=device-width, initial-scale=1\">")?;
    writeln!(out, "<title>{title} and its listing</title>\n<style>\n{STYLE}</style>\n</head>\n<body>")?;
    writeln!(out, "<h1>{title} and its listing</h1>\n<p class=\"{wrong}\">{summary}</p>")?;
    writeln!(out, "{}", legend())?;
    writeln!(out, "<table>\n<thead><tr><th class=\"number\">Record</th><th>Call and answer</th>")?;
    writeln!(out, "<th class=\"ends\">end1</th><th class=\"ends\">end2</th>")?;
    writeln!(out, "<th class=\"waits\">Waits and packets</th></tr></thead>\n<tbody>")?;
    fold(script, listing, row, |run| put(run, out))?;
    writeln!(out, "{}\n</tbody>\n</table>\n</body>\n</html>", ending(&outcome))?;
    Ok(outcome)
}

/// A text in HTML.
fn escaped(text: &str) -> String {
    text.replace('&', "&amp;").replace('<', "&lt;").replace('>', "&gt;").replace('"', "&quot;")
}

/// A text in a cell, where a line may be broken inside the names of bits.
fn cell(text: &str) -> String {
    escaped(text).replace('|', "|<wbr>").replace('_', "_<wbr>")
}

/// How to read the page.
fn legend() -> String {
    let mut text = String::from("<details><summary>How to read this page</summary>\n");
    text.push_str(
        "<p>Each row is a record of the script: the call in words and as text, its answer, and both ends ",
    );
    text.push_str(
        "after it. A bar is the queue of bytes that the end can read, as wide as its capacity, the oldest ",
    );
    text.push_str("bytes at the left; on datagram pairs it is parted into datagrams.</p>\n<p>");
    text.push_str(
        "<span class=\"bit new\">set by this call</span><span class=\"bit gone\">cleared by this call</span>",
    );
    text.push_str("</p>\n<dl>");
    for ((name, _), meaning) in SIGNALS.iter().zip(MEANINGS) {
        write!(text, "<dt><span class=\"bit\">{name}</span></dt><dd>{meaning}</dd>").unwrap();
    }
    text.push_str("</dl></details>");
    text
}

/// Writes the row of equal records; the text of a row begins behind its number.
fn put(run: &Run, out: &mut dyn Write) -> io::Result<()> {
    let (class, cells) = run.text.split_once('\n').unwrap_or(("", &run.text));
    let number = match run.times {
        1 => run.first.to_string(),
        times => format!("{} to {}", run.first, run.first + times - 1),
    };
    writeln!(out, "<tr class=\"{class}\"><th class=\"number\" scope=\"row\">{number}</th>\n{cells}</tr>")
}

/// The classes of a row and, on the lines behind them, its cells without the number.
fn row(step: &Step) -> String {
    let mut classes = vec![if step.word < 0 { "refused" } else { "done" }];
    if !step.mismatches.is_empty() {
        classes.push("wrong");
    }
    let mut text = classes.join(" ");
    let call = cell(&words::call(step.record));
    let answer = cell(&words::answer(step));
    writeln!(text, "\n<td class=\"call\"><p>{call}</p><p class=\"answer\">{answer}</p>").unwrap();
    for mismatch in step.mismatches {
        let mismatch = cell(mismatch);
        writeln!(text, "<p class=\"mismatch\">Does not fit (line {}): {mismatch}</p>", step.number + 2)
            .unwrap();
    }
    writeln!(text, "<code>{}</code></td>", cell(&shortened(line_of(step.record)))).unwrap();
    for place in 0..2 {
        let name = place + 1;
        writeln!(text, "<td class=\"ends\" data-end=\"end{name}\">{}</td>", end_cell(step, place)).unwrap();
    }
    writeln!(text, "<td class=\"waits\">{}</td>", waits_cell(step)).unwrap();
    text
}

/// A line of the text form without most of the bytes of a fill.
fn shortened(line: String) -> String {
    const MOST: usize = 120;
    match line.char_indices().nth(MOST) {
        Some((at, _)) => format!("{}...", &line[..at]),
        None => line,
    }
}

/// An end: its bits, and its queue.
fn end_cell(step: &Step, place: usize) -> String {
    let end = &step.pair.ends[place];
    let before = step.words[place];
    let Some(word) = end.word else {
        let class = if before.is_some() { "bit new" } else { "bit" };
        return format!("<span class=\"{class}\">closed</span>");
    };
    let before = before.unwrap_or(word);
    let mut text = String::new();
    let mut put = |class: &str, bits: u32| {
        for name in signals(bits) {
            let name = cell(&name);
            write!(text, "<span class=\"{class}\">{name}</span>").unwrap();
        }
    };
    put("bit", word & before);
    put("bit new", word & !before);
    put("bit gone", before & !word);
    if text.is_empty() {
        text.push_str("<span class=\"quiet\">no signal</span>");
    }
    text + &queue(step.pair, end, step.queued[place])
}

/// The bar of a queue, and its sizes.
fn queue(pair: &Pair, end: &End, before: usize) -> String {
    let queued = end.queue.bytes.len();
    let (added, removed) = (queued.saturating_sub(before), before.saturating_sub(queued));
    let said = words::queue(pair, end, before);
    let class = if end.queue.lengths.is_empty() { "queue" } else { "queue datagrams" };
    let mut text = format!("<div class=\"{class}\" role=\"img\" aria-label=\"{said}\">");
    let mut put = |class: &str, bytes: usize| {
        if bytes > 0 {
            let width = 100.0 * bytes as f64 / pair.capacity as f64;
            write!(text, "<span class=\"{class}\" style=\"width:{width:.2}%\"></span>").unwrap();
        }
    };
    put("removed", removed);
    let mut at = 0;
    for length in parts(end, added) {
        put(if at + added < queued { "queued" } else { "added" }, length);
        at += length;
    }
    write!(text, "</div><div class=\"sizes\">{said}</div>").unwrap();
    text
}

/// The parts of a bar: the datagrams, where they are not too many, else what was queued before and what is new.
fn parts(end: &End, added: usize) -> Vec<usize> {
    match end.queue.lengths.len() {
        1..=MOST_DRAWN => end.queue.lengths.iter().copied().collect(),
        _ => vec![end.queue.bytes.len() - added, added],
    }
}

/// The packets that come and go, the waits that are cancelled, and the waits and packets after that.
fn waits_cell(step: &Step) -> String {
    let mut text = String::new();
    for packet in &step.pair.came {
        let packet = cell(&words::packet(packet));
        write!(text, "<p><span class=\"bit new\">packet comes</span> {packet}</p>").unwrap();
    }
    let packets = step.pair.gone.iter().map(|packet| ("packet", words::packet(packet)));
    let waits = step.pair.cancelled.iter().map(|wait| ("wait", words::wait(wait)));
    for (what, gone) in packets.chain(waits) {
        write!(text, "<p><span class=\"bit left\">{what} goes</span> {}</p>", cell(&gone)).unwrap();
    }
    let waits = step.pair.waits.iter().map(|wait| cell(&words::wait(wait)));
    let packets = step.pair.packets.iter().map(|packet| format!("key {}", words::key(packet.key)));
    text + &listed("Waits", waits) + &listed("Packets to take", packets)
}

/// The first of some things, and how many there are.
fn listed(name: &str, things: impl ExactSizeIterator<Item = String>) -> String {
    let number = things.len();
    let more = if number > MOST_SHOWN { "; and so on" } else { "" };
    let shown: Vec<String> = things.take(MOST_SHOWN).collect();
    match number {
        0 => String::new(),
        _ => format!("<p class=\"sizes\">{name}: {number} ({}{more})</p>", shown.join("; ")),
    }
}

/// The last row: how the script ends, and what does not fit.
fn ending(outcome: &Outcome) -> String {
    let said = escaped(&words::ending(&outcome.ending));
    let mut text = format!("<tr><td class=\"ending\" colspan=\"5\"><p>{said}</p>");
    for mismatch in &outcome.mismatches {
        write!(text, "<p class=\"mismatch\">Does not fit: {}</p>", escaped(mismatch)).unwrap();
    }
    text + "</td></tr>"
}
