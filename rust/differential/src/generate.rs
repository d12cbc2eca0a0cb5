//! Random scripts that know the boundaries: small capacities, ranges at both
//! edges of memory, thresholds around the capacity, all 128 places, closed
//! ends, and damaged scripts.

use crate::draw::{Draw, ALL};
use crate::machine::{BASE, MEMORY, RING};
use crate::random::Random;
use crate::record::{script_of, Record, Transfer};
use script::record::{CREATE, FILL, HEAD, MOST_FILL};
use script::table::SHAPES;

const END: u64 = BASE + MEMORY as u64;

/// Kinds of calls, to choose among by weight.
#[derive(Clone, Copy)]
enum Call {
    Write,
    Read,
    Disposition,
    Shutdown,
    ReadThreshold,
    WriteThreshold,
    Info,
    Close,
    Wait,
    Take,
    Fill,
    Cancel,
    ManyWaits,
}

use Call::*;

/// Queues fill, run past the ring's end and empty.
#[rustfmt::skip]
const TRAFFIC: &[(Call, u64)] = &[
    (Write, 34), (Read, 32), (Fill, 8), (ReadThreshold, 5), (WriteThreshold, 5), (Info, 4),
    (Disposition, 3), (Wait, 6), (Take, 5), (Cancel, 1),
];
/// Waits fire, in order, and places run out.
#[rustfmt::skip]
const WAITS: &[(Call, u64)] = &[
    (Wait, 34), (Take, 18), (Write, 12), (Read, 12), (Disposition, 8), (ReadThreshold, 4),
    (WriteThreshold, 4), (Shutdown, 2), (Fill, 2), (Close, 1), (Cancel, 6), (ManyWaits, 1),
];
/// Writing is disabled and enabled, and ends close.
#[rustfmt::skip]
const ENDINGS: &[(Call, u64)] = &[
    (Disposition, 24), (Shutdown, 8), (Close, 2), (Write, 23), (Read, 18), (Wait, 10), (Take, 7),
    (Info, 4), (ReadThreshold, 4), (WriteThreshold, 4), (Fill, 2), (Cancel, 3),
];
/// Bytes and counts land over each other.
const MEMORY_USE: &[(Call, u64)] = &[(Write, 38), (Read, 36), (Fill, 16), (Info, 4), (Close, 1)];

struct Generator {
    draw: Draw,
    /// Where the memory begins that most calls of this script use.
    usual: u64,
}

/// The script with a number in the run of a seed.
pub fn script(seed: u64, number: u64) -> Vec<u8> {
    let mut random = Random::new(seed, number);
    if random.below(1000) == 0 {
        return Vec::new();
    }
    let capacity = capacity(&mut random);
    let usual = BASE + random.pick(&[0, 0, 0, 100, 4096 - 64, 4096 - 24]);
    let mut generator = Generator { draw: Draw::new(random, capacity), usual };
    let records = generator.records();
    let bytes = script_of(&records);
    generator.perhaps_damaged(bytes)
}

/// A capacity of the script program, mostly a small one.
pub fn capacity(random: &mut Random) -> u64 {
    match random.below(100) {
        0..70 => 1 + random.below(12),
        70..85 => 13 + random.below(300),
        85..95 => RING as u64 - random.below(2),
        _ => 1 + random.below(RING as u64),
    }
}

impl Generator {
    fn records(&mut self) -> Vec<Record> {
        let mut records = vec![self.create()];
        match self.draw.random.below(20) {
            0 => {}
            1..5 => records.push(Record::Fill { address: BASE, bytes: self.draw.random.bytes(MOST_FILL) }),
            _ => {
                let number = (END - self.usual).min(64) as usize;
                records.push(Record::Fill { address: self.usual, bytes: self.draw.random.bytes(number) });
            }
        }
        let weights = self.draw.random.pick(&[TRAFFIC, TRAFFIC, WAITS, ENDINGS, MEMORY_USE]);
        let most = self.draw.random.pick(&[6, 20, 40, 40, 160]);
        for _ in 0..self.draw.random.below(most) {
            let call = self.draw.random.choose(weights);
            self.put(call, &mut records);
        }
        if self.draw.random.percent(50) {
            self.put_last_look(&mut records);
        }
        records
    }

    fn create(&mut self) -> Record {
        let kind = self.draw.random.below(2) as u32;
        let mut rights = [7, 7];
        if self.draw.random.percent(15) {
            rights = [self.draw.random.below(8) as u8, self.draw.random.below(8) as u8];
        }
        if self.draw.random.percent(2) {
            return self.refused_create(kind, rights);
        }
        Record::Create { kind, capacity: self.draw.capacity as u32, rights }
    }

    /// A create of which one argument is refused.
    fn refused_create(&mut self, mut kind: u32, mut rights: [u8; 2]) -> Record {
        let mut capacity = self.draw.capacity as u32;
        match self.draw.random.below(4) {
            0 => kind = self.draw.random.pick(&[2, 3, 256, ALL]),
            1 => capacity = self.draw.random.pick(&[0, 4097, 262144, 262145, ALL]),
            2 => rights[0] = self.draw.random.pick(&[8, 15, 255]),
            _ => rights[1] = self.draw.random.pick(&[8, 15, 255]),
        }
        Record::Create { kind, capacity, rights }
    }

    fn put(&mut self, call: Call, records: &mut Vec<Record>) {
        let handle = self.draw.handle();
        records.push(match call {
            Write => Record::Write(self.transfer(handle, false)),
            Read => Record::Read(self.transfer(handle, true)),
            Disposition => Record::Disposition { handle, own: self.draw.target(), peer: self.draw.target() },
            Shutdown => Record::Shutdown { handle, options: self.draw.shutdown_options() },
            ReadThreshold => Record::ReadThreshold { handle, threshold: self.draw.threshold() },
            WriteThreshold => Record::WriteThreshold { handle, threshold: self.draw.threshold() },
            Info => Record::Info { handle },
            Close => Record::Close { handle },
            Wait => {
                let (key, mask, edge) = self.draw.wait();
                Record::Wait { handle, key, mask, edge }
            }
            Take => Record::Take,
            Fill => self.fill(),
            Cancel => Record::Cancel { handle, key: self.draw.cancel_key() },
            ManyWaits => {
                let waits = self.draw.many_waits().into_iter();
                return records.extend(waits.map(|(handle, key, mask)| Record::Wait {
                    handle,
                    key,
                    mask,
                    edge: 1,
                }));
            }
        });
    }

    /// Shows what is left: sizes, packets, and the bytes of the memory that most calls used.
    fn put_last_look(&mut self, records: &mut Vec<Record>) {
        records.extend([Record::Info { handle: 1 }, Record::Info { handle: 2 }]);
        records.extend(vec![Record::Take; self.draw.random.below(5) as usize]);
        let chunk = self.draw.capacity.min(64);
        let far = if self.usual > BASE + 2048 { BASE } else { BASE + 3000 };
        for at in (0..64.min(chunk * 6)).step_by(chunk as usize) {
            let (handle, options, count_at) = (1, 0, 0);
            let address = (self.usual + at).min(END - chunk);
            records.push(Record::Read(Transfer {
                handle: 2,
                options,
                address: far,
                count: MEMORY as u64 / 4,
                count_at,
            }));
            records.push(Record::Write(Transfer { handle, options, address, count: chunk, count_at }));
            records.push(Record::Read(Transfer { handle: 2, options, address: far, count: chunk, count_at }));
        }
    }

    fn transfer(&mut self, handle: u32, read: bool) -> Transfer {
        let options = if self.draw.is_odd() {
            self.draw.random.pick(&[1, 2, 4, 8, 9, 16, 0x1_0000, 0x8000_0000, ALL])
        } else if read && self.draw.random.percent(20) {
            8
        } else {
            0
        };
        let count = self.count();
        let address = self.address(count);
        let count_at = self.count_at(address);
        Transfer { handle, options, address, count, count_at }
    }

    fn count(&mut self) -> u64 {
        let capacity = self.draw.capacity;
        if self.draw.is_odd() {
            let huge = [1 << 31, ALL as u64, 1 << 32, (1 << 32) + 1, 1 << 63, u64::MAX];
            return self.draw.random.pick(&huge);
        }
        match self.draw.random.below(20) {
            0 => 0,
            1..4 => self.draw.random.pick(&[capacity - 1, capacity, capacity + 1]),
            4 => self.draw.random.below(2 * capacity + 2),
            5 => self.draw.random.pick(&[4095, 4096, 4097]),
            _ => 1 + self.draw.random.below(capacity.min(9)),
        }
    }

    fn address(&mut self, count: u64) -> u64 {
        if count == 0 && self.draw.random.percent(30) {
            return 0;
        }
        if !self.draw.is_odd() {
            return self.usual + self.draw.random.below(24);
        }
        match self.draw.random.below(8) {
            0 => 0,
            1 => END.wrapping_sub(count),
            2 => END.wrapping_sub(count).wrapping_add(1),
            3 => BASE - self.draw.random.below(2),
            4 => END - self.draw.random.below(3),
            5 => 0u64.wrapping_sub(count),
            6 => u64::MAX - self.draw.random.below(16),
            _ => self.draw.random.pick(&[1, 1 << 32, (1 << 32) + BASE, 1 << 63]),
        }
    }

    /// Where a count lands: nowhere, over the bytes, or at an edge of memory.
    fn count_at(&mut self, address: u64) -> u64 {
        if self.draw.is_odd() {
            let edges = [END - 8, END - 7, END - 1, END, BASE, BASE - 1, BASE - 8, 1, 1 << 32];
            return match self.draw.random.below(3) {
                0 => u64::MAX - self.draw.random.below(16),
                _ => self.draw.random.pick(&edges),
            };
        }
        match self.draw.random.below(10) {
            0..6 => 0,
            6..9 => address.wrapping_add(self.draw.random.below(16)).wrapping_sub(8),
            _ => self.usual + self.draw.random.below(16),
        }
    }

    fn fill(&mut self) -> Record {
        let number = match self.draw.random.below(20) {
            0 => MOST_FILL,
            1 => MOST_FILL - 1,
            _ => 1 + self.draw.random.below(24) as usize,
        };
        let address =
            if number > 24 { BASE + self.draw.random.below(3) } else { self.address(number as u64) };
        Record::Fill { address, bytes: self.draw.random.bytes(number) }
    }

    /// Four scripts in a hundred are damaged somewhere, or a refused create alone.
    fn perhaps_damaged(&mut self, mut script: Vec<u8>) -> Vec<u8> {
        if !self.draw.random.percent(4) {
            return script;
        }
        let offsets = offsets(&script);
        let at = self.draw.random.pick(&offsets);
        match self.draw.random.below(8) {
            0 => script[at] = self.draw.random.pick(&[13, 14, 128, 255]),
            1 => script[at + 1] = script[at + 1].wrapping_add(self.draw.random.pick(&[1, 255])),
            2 => script[at + 2] = self.draw.random.pick(&[1, 16, 255]),
            3 => script.truncate(at + self.draw.random.below(HEAD as u64 + 2) as usize),
            4 => drop(script.drain(..offsets[offsets.len() / 2].min(HEAD + 10))),
            5 => insert(&mut script, at, &script_of(&[self.create()])),
            6 => insert(&mut script, at, &self.wrong_head()),
            _ => script = script_of(&[self.refused_create(0, [7, 7])]),
        }
        script
    }

    /// A tag and a length that no record of the tag has. Tags are equally likely, so
    /// that those of rare calls occur too.
    fn wrong_head(&mut self) -> [u8; HEAD] {
        let tag = self.draw.random.below(SHAPES.len() as u64) as u8;
        let size = SHAPES[tag as usize].size() as u16;
        let length = if tag == FILL {
            self.draw.random.pick(&[0, size - 1, size, size + MOST_FILL as u16 + 1, u16::MAX])
        } else {
            self.draw.random.pick(&[size.wrapping_sub(1), size + 1, size ^ 0x100, size ^ 0x8000])
        };
        let [low, high] = length.to_le_bytes();
        [tag, low, high]
    }
}

fn insert(script: &mut Vec<u8>, at: usize, bytes: &[u8]) {
    script.splice(at..at, bytes.iter().copied());
}

/// Where the records of a whole script begin.
fn offsets(script: &[u8]) -> Vec<usize> {
    let mut offsets = Vec::new();
    let mut at = 0;
    while at < script.len() {
        offsets.push(at);
        at += HEAD + u16::from_le_bytes([script[at + 1], script[at + 2]]) as usize;
    }
    debug_assert_eq!(script[0], CREATE);
    offsets
}
