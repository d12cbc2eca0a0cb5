//! Scripts to be stored with their listings: the named cases, damaged scripts,
//! full places, short sequences and random scripts.

use crate::cases::cases;
use crate::enumerate::{Sequences, Start};
use crate::generate;
use crate::machine::BASE;
use crate::oracle::listing;
use crate::record::{script_of, Record, Transfer};
use crate::stream;
use crate::waits::PLACES;
use script::record::{FILL, HEAD, MOST_FILL};
use script::table::SHAPES;
use std::collections::HashSet;

/// A random script is stored if it and its listing are at most this long.
const SHORT: usize = 3000;
const RANDOM: usize = 300;
const SEED: u64 = 1;

/// Names and scripts. A script that is made twice has its first name only.
pub fn scripts() -> Vec<(String, Vec<u8>)> {
    let mut scripts: Vec<_> = cases().into_iter().map(|case| (case.name, case.script)).collect();
    scripts.extend(creates());
    scripts.extend(damaged());
    scripts.extend(full_places());
    scripts.extend(cancelled_places());
    scripts.extend(sequences());
    let random = (0..).map(|number| (number, generate::script(SEED, number)));
    let short = random.filter(|(_, script)| script.len() + listing(script).len() <= SHORT);
    scripts.extend(short.take(RANDOM).map(|(number, script)| (format!("random {number}"), script)));
    let mut seen = HashSet::new();
    scripts.retain(|(_, script)| seen.insert(script.clone()));
    scripts
}

/// What is stored: for each script its name, the script and the oracle's listing
/// of it, each after its length.
pub fn stored(scripts: &[(String, Vec<u8>)]) -> Vec<u8> {
    let mut stored = Vec::new();
    for (name, script) in scripts {
        stream::put(&mut stored, name.as_bytes());
        stream::put(&mut stored, script);
        stream::put(&mut stored, listing(script).as_bytes());
    }
    stored
}

fn create(kind: u32, capacity: u32, rights: [u8; 2]) -> Record {
    Record::Create { kind, capacity, rights }
}

/// Creates that are done and refused, with a call after them.
fn creates() -> Vec<(String, Vec<u8>)> {
    let mut arguments = Vec::new();
    for capacity in [0, 1, 2, 4095, 4096, 4097, 262144, 262145, u32::MAX] {
        arguments.push((0, capacity, [7, 7]));
        arguments.push((1, capacity, [7, 7]));
    }
    arguments.extend([2, 256, 65536, u32::MAX].map(|kind| (kind, 8, [7, 7])));
    arguments.extend([0, 1, 2, 4, 7, 8, 255].map(|word| (0, 8, [word, 7])));
    arguments.extend([0, 1, 2, 4, 7, 8, 255].map(|word| (0, 8, [7, word])));
    let script = |(kind, capacity, rights)| {
        let name = format!("create {kind} {capacity} {rights:?}");
        (name, script_of(&[create(kind, capacity, rights), Record::Info { handle: 1 }]))
    };
    arguments.into_iter().map(script).collect()
}

/// A good record of each tag, with the most and fewest bytes for a fill.
fn one_of_each() -> Vec<Record> {
    let tags = (0..SHAPES.len() as u8).filter(|tag| *tag != FILL);
    let mut records: Vec<Record> = tags
        .map(|tag| {
            let values = vec![1; SHAPES[tag as usize].fields.len()];
            Record::from_values(tag, &values, Vec::new())
        })
        .collect();
    for number in [1, 2, MOST_FILL] {
        records.push(Record::Fill { address: 65536, bytes: vec![0x41; number] });
    }
    records
}

/// Every way to stop: first records, lengths, cuts, tags, a second create.
fn damaged() -> Vec<(String, Vec<u8>)> {
    let start = script_of(&[create(0, 8, [7, 7])]);
    let mut scripts = vec![("empty".to_string(), Vec::new())];
    for record in one_of_each() {
        let bytes = script_of(std::slice::from_ref(&record));
        let (name, tag) = (SHAPES[bytes[0] as usize].name, bytes[0]);
        let number = bytes.len();
        scripts.push((format!("first record {name} {number}"), bytes.clone()));
        scripts.push((format!("later record {name} {number}"), [&start[..], &bytes].concat()));
        for cut in [1, 2, HEAD, number - 1] {
            let cut = cut.min(number - 1);
            scripts.push((format!("{name} {number} cut to {cut}"), [&start[..], &bytes[..cut]].concat()));
        }
        let length = (number - HEAD) as u16;
        for wrong in [length.wrapping_sub(1), length + 1, length ^ 0x100, length ^ 0x8000] {
            let mut script = [&start[..], &[tag], &wrong.to_le_bytes()].concat();
            script.resize(script.len() + wrong as usize % 5000, 0);
            scripts.push((format!("{name} {number} with length {wrong}"), script));
        }
    }
    for tag in [13, 14, 127, 128, 255] {
        scripts.push((format!("tag {tag}"), [&start[..], &[tag, 0, 0]].concat()));
        scripts.push((format!("tag {tag} alone"), [&start[..], &[tag]].concat()));
        scripts.push((format!("tag {tag} first"), vec![tag, 0, 0]));
    }
    // The first tag that no record has, with the body of each.
    for record in one_of_each() {
        let mut bytes = script_of(std::slice::from_ref(&record));
        let (name, number) = (SHAPES[bytes[0] as usize].name, bytes.len());
        bytes[0] = SHAPES.len() as u8;
        scripts.push((format!("{name} {number} with the tag {}", bytes[0]), [&start[..], &bytes].concat()));
    }
    scripts
}

fn wait(handle: u32, key: u64, mask: u32, edge: u8) -> Record {
    Record::Wait { handle, key, mask, edge }
}

/// All places used by waits, by packets, and by both; then some come free.
fn full_places() -> Vec<(String, Vec<u8>)> {
    let mut scripts = Vec::new();
    for (name, mask) in [("waits", 1), ("packets", 2), ("waits and packets", 3)] {
        let mut records = vec![create(0, 8, [7, 7])];
        for number in 0..PLACES as u64 + 1 {
            let mask = if mask == 3 { 1 + (number % 2) as u32 } else { mask };
            records.push(wait(1 + (number % 2) as u32, number, mask, 0));
        }
        records.extend([wait(3, 0, 1, 2), wait(1, 0, 1, 2), wait(1, 0, 1, 1), Record::Take]);
        records.extend([wait(1, 500, 2, 0), wait(1, 501, 2, 0), Record::Close { handle: 2 }]);
        records.extend([wait(2, 502, 2, 0), wait(1, 503, 4, 0), wait(1, 504, 0, 0)]);
        records.extend(vec![Record::Take; PLACES + 1]);
        records.extend([Record::Close { handle: 1 }, Record::Take]);
        scripts.push((format!("all places used by {name}"), script_of(&records)));
    }
    scripts
}

/// All places used, by waits and packets of both ends with few keys; then cancels
/// free some, new waits take them, and all packets are taken in their order.
fn cancelled_places() -> Vec<(String, Vec<u8>)> {
    let cancel = |handle, key| Record::Cancel { handle, key };
    let keys = [1, 2, 3, (1 << 32) + 1, 5];
    let mut scripts = Vec::new();
    for (name, capacity, key) in [("the first", 1, 1), ("a middle", 2, 3), ("the last", 3, 5)] {
        let mut records = vec![create(0, capacity, [7, 7])];
        for (number, key) in keys.iter().cycle().take(PLACES).enumerate() {
            let [handle, mask] = [number % 2, number / 2 % 2].map(|bit| 1 + bit as u32);
            records.push(wait(handle, *key, mask, 0));
        }
        records.extend([wait(1, 9, 4, 0), cancel(3, key), cancel(1, 9), cancel(1, key), cancel(1, key)]);
        records.extend(vec![wait(2, 6, 2, 0); 14]);
        let write = Transfer { handle: 1, options: 0, address: BASE, count: 1, count_at: 0 };
        records.extend([Record::Write(write), cancel(2, key), Record::Close { handle: 2 }, cancel(2, 2)]);
        records.extend(vec![Record::Take; PLACES]);
        scripts.push((format!("all places used, then {name} key is cancelled"), script_of(&records)));
    }
    scripts
}

/// One call from each start, for both kinds.
fn sequences() -> Vec<(String, Vec<u8>)> {
    let mut scripts = Vec::new();
    for kind in [0, 1] {
        for start in [Start::New, Start::Wrapped, Start::Full] {
            let sequences = Sequences::new(1, 3, kind, start);
            for number in 0..sequences.number() {
                let name = format!("one call {number} from {start:?}, kind {kind}");
                scripts.push((name, sequences.script(number)));
            }
        }
    }
    scripts
}
