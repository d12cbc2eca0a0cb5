//! All short sequences over a fixed list of calls, with a look at the pair
//! after each.

use crate::machine::BASE;
use crate::record::{script_of, Record, Transfer};

const ALL: u32 = u32::MAX;
/// The key of every wait for any signal, so that one cancel finds several.
const ANY: u64 = 77;

/// The key of the wait that an end with a full queue, or its writer, has.
fn of_full(handle: u32) -> u64 {
    900 + u64::from(handle)
}

/// The sequences of a length over the calls for a capacity and kind.
pub struct Sequences {
    depth: u32,
    capacity: u32,
    kind: u32,
    start: Start,
}

/// What is done to the new pair before a sequence.
#[derive(Clone, Copy, Debug, PartialEq)]
pub enum Start {
    /// Nothing.
    New,
    /// Bytes queued at both ends, past the ring's end where C allows it.
    Wrapped,
    /// End 2's queue is full, thresholds are set and waits registered.
    Full,
}

impl Start {
    pub fn named(name: &str) -> Option<Start> {
        match name {
            "new" => Some(Start::New),
            "wrapped" => Some(Start::Wrapped),
            "full" => Some(Start::Full),
            _ => None,
        }
    }
}

fn transfer(handle: u32, options: u32, address: u64, count: u64) -> Transfer {
    Transfer { handle, options, address, count, count_at: 0 }
}

impl Sequences {
    pub fn new(depth: u32, capacity: u32, kind: u32, start: Start) -> Self {
        Sequences { depth, capacity, kind, start }
    }

    /// How many sequences there are.
    pub fn number(&self) -> u64 {
        (self.calls(0).len() as u64).pow(self.depth)
    }

    /// The script of the sequence with a number.
    pub fn script(&self, mut number: u64) -> Vec<u8> {
        let mut records = self.beginning();
        for place in 0..self.depth {
            let mut calls = self.calls(place as u64);
            let choices = calls.len() as u64;
            records.push(calls.swap_remove((number % choices) as usize));
            number /= choices;
        }
        records.extend(self.last_look());
        script_of(&records)
    }

    /// The calls to choose from. The bytes written depend on the place in the
    /// sequence, so that none are taken for others.
    fn calls(&self, place: u64) -> Vec<Record> {
        let capacity = self.capacity as u64;
        let data = BASE + 16 * place;
        let mut calls = vec![Record::Take];
        for handle in [1, 2] {
            calls.push(Record::Close { handle });
            for count in [0, 1, capacity, capacity + 1] {
                calls.push(Record::Write(transfer(handle, 0, data, count)));
            }
            for (options, count) in [(0, 0), (0, 1), (0, capacity), (8, 1)] {
                calls.push(Record::Read(transfer(handle, options, BASE + 1024, count)));
            }
            for (own, peer) in [(1, 0), (2, 0), (0, 1), (0, 2), (2, 1)] {
                calls.push(Record::Disposition { handle, own, peer });
            }
            calls.extend((0..4).map(|options| Record::Shutdown { handle, options }));
            for threshold in [1, capacity] {
                calls.push(Record::ReadThreshold { handle, threshold });
                calls.push(Record::WriteThreshold { handle, threshold });
            }
            for (mask, edge) in [(ALL, 0), (ALL, 1), (1, 0)] {
                let key = if mask == ALL { ANY } else { 100 * place + calls.len() as u64 };
                calls.push(Record::Wait { handle, key, mask, edge });
            }
            calls.extend([ANY, of_full(handle)].map(|key| Record::Cancel { handle, key }));
        }
        calls
    }

    fn beginning(&self) -> Vec<Record> {
        let capacity = self.capacity as u64;
        let bytes = (0..=255).collect();
        let mut records = vec![
            Record::Create { kind: self.kind, capacity: self.capacity, rights: [7, 7] },
            Record::Fill { address: BASE, bytes },
        ];
        let write = |handle, count| Record::Write(transfer(handle, 0, BASE + 200, count));
        let read = |handle, count| Record::Read(transfer(handle, 0, BASE + 1024, count));
        match self.start {
            Start::New => {}
            Start::Wrapped => {
                let most = capacity.saturating_sub(1).max(1);
                for handle in [1, 2] {
                    records.extend([write(handle, most), read(3 - handle, capacity)]);
                    records.push(write(handle, 2.min(capacity)));
                }
            }
            Start::Full => {
                records.push(Record::WriteThreshold { handle: 1, threshold: 1 });
                records.push(Record::ReadThreshold { handle: 2, threshold: capacity });
                records.push(write(1, 1));
                records.push(write(1, capacity.saturating_sub(1).max(1)));
                records.push(Record::Wait { handle: 1, key: of_full(1), mask: 0x802, edge: 1 });
                records.push(Record::Wait { handle: 2, key: of_full(2), mask: 0x14, edge: 0 });
            }
        }
        records
    }

    fn last_look(&self) -> Vec<Record> {
        let mut records = vec![Record::Info { handle: 1 }, Record::Info { handle: 2 }];
        records.extend(vec![Record::Take; 4]);
        for handle in [1, 2, 1, 2] {
            records.push(Record::Read(transfer(handle, 0, BASE + 2048, self.capacity as u64)));
        }
        records
    }
}
