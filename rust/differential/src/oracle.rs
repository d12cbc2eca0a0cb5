//! The script program over the original: a script in, its listing out.

use crate::endings::Ending;
use crate::machine::{Answer, Done, Machine};
use crate::record::Record;
use script::listing::HEADER;
use script::record::next_record;
use script::text::hex;
use std::fmt::Write;

/// Sees each record, its answer, and the pair after it, and how the script ends.
pub trait Observer {
    fn called(&mut self, record: &Record, answer: &Answer, machine: &Machine);
    /// A create, done or refused.
    fn created(&mut self, record: &Record, machine: Option<&Machine>);
    fn ended(&mut self, ending: &Ending);
}

struct Nobody;

impl Observer for Nobody {
    fn called(&mut self, _record: &Record, _answer: &Answer, _machine: &Machine) {}
    fn created(&mut self, _record: &Record, _machine: Option<&Machine>) {}
    fn ended(&mut self, _ending: &Ending) {}
}

/// The listing of a script.
pub fn listing(script: &[u8]) -> String {
    observed_listing(script, &mut Nobody)
}

/// The listing of a script, with each step shown to an observer.
pub fn observed_listing(script: &[u8], observer: &mut dyn Observer) -> String {
    let mut text = format!("{HEADER}\n");
    let mut machine: Option<Machine> = None;
    let mut offset = 0;
    let mut number = 0u64;
    let mut ending = None;
    while offset < script.len() && ending.is_none() {
        let (record, size) = match next_record(&script[offset..], machine.is_some()) {
            Ok((record, size)) => (Record::from(record), size),
            Err(stop) => {
                writeln!(text, "stop {offset}").unwrap();
                ending = Some(Ending::Stopped(stop));
                continue;
            }
        };
        let answer = match &mut machine {
            Some(machine) => {
                let answer = machine.call(&record);
                observer.called(&record, &answer, machine);
                answer
            }
            None => create(&record, &mut machine, observer),
        };
        put_line(&mut text, number, &answer, machine.as_ref());
        offset += size;
        number += 1;
        if machine.is_none() {
            ending = Some(Ending::Refused(script.len() - offset));
        }
    }
    observer.ended(&ending.unwrap_or(Ending::Whole(number)));
    text
}

fn create(record: &Record, machine: &mut Option<Machine>, observer: &mut dyn Observer) -> Answer {
    let Record::Create { kind, capacity, rights } = *record else {
        unreachable!("only a create is a first record")
    };
    let made = Machine::create(kind, capacity, rights);
    observer.created(record, made.as_ref().ok());
    *machine = Some(made?);
    Ok(Done::Nothing)
}

/// The answer as one number: the count when done, else the status.
pub fn word(answer: &Answer) -> i64 {
    match answer {
        Ok(Done::Count(count)) => *count as i64,
        Ok(Done::Delivered(bytes)) => bytes.len() as i64,
        Ok(_) => 0,
        Err(status) => *status,
    }
}

fn put_line(text: &mut String, number: u64, answer: &Answer, machine: Option<&Machine>) {
    write!(text, "{number} {}", word(answer)).unwrap();
    for end in 0..2 {
        match machine.and_then(|machine| machine.word(end)) {
            Some(signals) => write!(text, " {signals:08x}").unwrap(),
            None => text.push_str(" -"),
        }
    }
    match answer {
        Ok(Done::Delivered(bytes)) if !bytes.is_empty() => write!(text, " {}", hex(bytes)).unwrap(),
        Ok(Done::Info(numbers)) => {
            for number in numbers {
                write!(text, " {number}").unwrap();
            }
        }
        Ok(Done::Packet { key, trigger, observed }) => {
            write!(text, " {key:016x} {trigger:08x} {observed:08x}").unwrap();
        }
        _ => {}
    }
    text.push('\n');
}
