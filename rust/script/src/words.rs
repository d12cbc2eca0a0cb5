//! Records and answers in words.

use crate::names::{status, Values, SIGNAL_WORD};
use crate::pair::{End, Packet, Pair, Wait};
use crate::record::{Adds, Record, Stop};
use crate::text::hex;
use crate::trace::{Ending, Outcome, Step};

/// The most bytes that are shown.
const MOST_SHOWN: usize = 32;

/// A call in words.
pub(crate) fn call(record: &Record) -> String {
    let mut said = String::new();
    for (place, phrase) in record.shape().says.iter().enumerate() {
        let (phrase, has_zero) = filled_in(phrase, record);
        if place == 0 {
            said = phrase;
        } else if !has_zero {
            said = format!("{said}, {phrase}");
        }
    }
    said
}

/// `1 byte` for `1 bytes`.
fn singular(said: &str) -> String {
    match said.strip_prefix("1 bytes") {
        Some(rest) => format!("1 byte{rest}"),
        None => said.replace(" 1 bytes", " 1 byte"),
    }
}

/// A phrase with the values of a record, and whether one of them is 0.
fn filled_in(phrase: &str, record: &Record) -> (String, bool) {
    let mut said = phrase.to_string();
    let mut has_zero = false;
    for (field, value) in record.shape().fields.iter().zip(&record.values) {
        let place = format!("{{{}}}", field.name);
        has_zero |= *value == 0 && said.contains(&place);
        said = said.replace(&place, &field.values.words(*value));
    }
    // The bytes come last: they may have letters that look like one of the places above.
    (singular(&said).replace("{bytes}", &bytes(&record.bytes)), has_zero)
}

/// Bytes in hexadecimal, with their letters if all have one, cut where there are many.
pub(crate) fn bytes(bytes: &[u8]) -> String {
    let shown = &bytes[..bytes.len().min(MOST_SHOWN)];
    let mut said = hex(shown);
    if shown.iter().all(|byte| matches!(byte, b' '..=b'~')) {
        said = format!("{said} \"{}\"", String::from_utf8_lossy(shown));
    }
    match bytes.len() > MOST_SHOWN {
        true => format!("{said} and so on ({} bytes)", bytes.len()),
        false => said,
    }
}

/// An answer in words: what was done, or the status and its reason.
pub(crate) fn answer(step: &Step) -> String {
    if step.word < 0 {
        let reason = step.reason.map(|reason| format!(": {reason}")).unwrap_or_default();
        return format!("refused, {}{reason}", status(step.word));
    }
    let shape = step.record.shape();
    let mut parts = vec![];
    if !shape.done.is_empty() {
        parts.push(singular(&shape.done.replace("{}", &step.word.to_string())));
    }
    if let Adds::Numbers(numbers) = shape.adds {
        let named = numbers.iter().zip(&step.added.numbers);
        let named: Vec<String> =
            named.map(|(part, value)| format!("{} {}", part.name, part.values.words(*value))).collect();
        parts.push(named.join(", "));
    }
    if !step.added.bytes.is_empty() {
        parts.push(bytes(&step.added.bytes));
    }
    match parts.is_empty() {
        true => "done".to_string(),
        false => format!("done: {}", parts.join(": ")),
    }
}

/// What is queued at an end, in words, and what changed.
pub(crate) fn queue(pair: &Pair, end: &End, before: usize) -> String {
    let queued = end.queue.bytes.len();
    let mut said = format!("{queued} of {} bytes queued", pair.capacity);
    if before != queued {
        said = format!("{said} ({before} before)");
    }
    match (end.queue.lengths.len(), end.queue.lengths.front()) {
        (1, _) => format!("{said}, 1 datagram"),
        (number, Some(first)) => format!("{said}, {number} datagrams, the first has {first}"),
        _ => said,
    }
}

/// A key as the text form has it.
pub(crate) fn key(key: u64) -> String {
    Values::Number.text(key)
}

/// A packet in words.
pub(crate) fn packet(packet: &Packet) -> String {
    let [trigger, observed] = [packet.trigger, packet.observed].map(|word| SIGNAL_WORD.words(word.into()));
    format!("key {}, trigger {trigger}, observed {observed}", key(packet.key))
}

/// A wait in words.
pub(crate) fn wait(wait: &Wait) -> String {
    format!("key {} at end{} for {}", key(wait.key), wait.end + 1, SIGNAL_WORD.words(wait.mask.into()))
}

/// How a script ends, in words.
pub(crate) fn ending(ending: &Ending) -> String {
    match ending {
        Ending::Whole => "The script ends behind its last record.".to_string(),
        Ending::Refused => "The script ends at the refused create.".to_string(),
        Ending::Stopped(at, stop) => stopped(*at, *stop),
        Ending::Lost => "From here on the listing cannot be followed.".to_string(),
    }
}

fn stopped(at: usize, stop: Stop) -> String {
    format!("The script program stops at byte {at}: {stop}.")
}

/// One line that sums up what was gone through.
pub(crate) fn summary(outcome: &Outcome) -> String {
    let (records, refused) = (outcome.records, outcome.refused);
    format!("{records} records, {} done, {refused} refused; {}", records - refused, outcome.fit())
}
