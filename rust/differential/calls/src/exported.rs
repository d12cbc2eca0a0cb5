//! The exported calls over rings and tables of exactly C entries. A stream pair
//! is lent no tables.

use crate::call::{bytes, Call, Shape};
use crate::side::{buffer, Answer, Look, Packet, Side};
use differential::record::Transfer;
use murgwethan::raw;

struct Exported {
    pair: raw::Pair,
    rings: [Vec<u8>; 2],
    tables: [Vec<u32>; 2],
    base: u64,
    memory: Vec<u8>,
}

/// A new exported pair.
pub fn exported(shape: &Shape) -> Box<dyn Side> {
    let Shape { kind, capacity, rights, memory } = *shape;
    let entries = capacity as usize;
    let rings = [vec![0xcc; entries], vec![0xcc; entries]];
    let lengths = if kind == 1 { entries } else { 0 };
    let tables = [vec![0xcccc_cccc; lengths], vec![0xcccc_cccc; lengths]];
    let mut pair = raw::Pair::UNMADE;
    let lent = ([&rings[0][..], &rings[1]], [&tables[0][..], &tables[1]]);
    let word = raw::create(&mut pair, kind, capacity, rights.map(u32::from), lent.0, lent.1);
    assert_eq!(word, 0, "a good create");
    let (base, memory) = memory.map_or((0, Vec::new()), |memory| (memory.base, memory.contents()));
    Box::new(Exported { pair, rings, tables, base, memory })
}

/// The end, 0 or 1, whose slices a call by a handle is lent as its own.
fn own(handle: u32) -> usize {
    usize::from(handle == 2)
}

impl Exported {
    fn write(&mut self, handle: u32, bytes: &[u8]) -> i64 {
        let peer = 1 - own(handle);
        raw::write(&mut self.pair, handle, &mut self.rings[peer], &mut self.tables[peer], bytes)
    }

    fn read(&mut self, handle: u32, peek: bool, count: u64) -> Answer {
        let mut buffer = buffer(count);
        let (ring, table) = (&self.rings[own(handle)], &self.tables[own(handle)]);
        let word = raw::read(&mut self.pair, handle, peek, ring, table, &mut buffer);
        Answer { buffer, ..Answer::word(word) }
    }

    fn user_write(&mut self, t: &Transfer) -> i64 {
        let (memory, peer) = (&mut self.memory, 1 - own(t.handle));
        let (ring, table) = (&mut self.rings[peer], &mut self.tables[peer]);
        raw::user_write(&mut self.pair, t.handle, self.base, memory, asked(t), ring, table)
    }

    fn user_read(&mut self, t: &Transfer) -> i64 {
        let memory = &mut self.memory;
        let (ring, table) = (&self.rings[own(t.handle)], &self.tables[own(t.handle)]);
        raw::user_read(&mut self.pair, t.handle, self.base, memory, asked(t), ring, table)
    }

    fn info(&mut self, handle: u32) -> (i64, [u64; 6]) {
        let mut out = [0; 6];
        (raw::info(&mut self.pair, handle, &self.tables[own(handle)], &mut out), out)
    }

    fn thresholds(&mut self, handle: u32) -> (i64, [u64; 2]) {
        let mut out = [0; 2];
        (raw::thresholds(&mut self.pair, handle, &mut out), out)
    }

    fn take(&mut self) -> (i64, [u64; 5]) {
        let mut out = [0; 5];
        (raw::take(&mut self.pair, &mut out), out)
    }

    /// The word of a call that puts out nothing else.
    fn word(&mut self, call: &Call) -> i64 {
        let pair = &mut self.pair;
        match *call {
            Call::Write { handle, count, seed } => self.write(handle, &bytes(count, seed)),
            Call::SetDisposition { handle, own, peer } => raw::set_disposition(pair, handle, own, peer),
            Call::Shutdown { handle, read, write } => raw::shutdown(pair, handle, read, write),
            Call::SetReadThreshold { handle, threshold } => raw::set_read_threshold(pair, handle, threshold),
            Call::SetWriteThreshold { handle, threshold } => {
                raw::set_write_threshold(pair, handle, threshold)
            }
            Call::Wait { handle, key, mask, edge } => raw::wait(pair, handle, key, mask, edge),
            Call::Cancel { handle, key } => raw::cancel(pair, handle, key),
            Call::Close { handle } => raw::close(pair, handle),
            Call::UserWrite(ref t) => self.user_write(t),
            Call::UserRead(ref t) => self.user_read(t),
            Call::UserSetDisposition { handle, own, peer } => {
                raw::user_set_disposition(pair, handle, own, peer)
            }
            Call::UserShutdown { handle, options } => raw::user_shutdown(pair, handle, options),
            _ => unreachable!("{call} puts out more than a word"),
        }
    }
}

fn asked(t: &Transfer) -> raw::Transfer {
    let Transfer { options, address, count, count_at, .. } = *t;
    raw::Transfer { options, address, count, count_at }
}

/// The answer of a call that puts out numbers.
fn numbers<const N: usize>((word, out): (i64, [u64; N])) -> Answer {
    Answer::numbers(word, &out)
}

/// What a call put out, if it is done.
fn done<T>((word, out): (i64, T)) -> Option<T> {
    (word >= 0).then_some(out)
}

impl Side for Exported {
    fn call(&mut self, call: &Call) -> Answer {
        match *call {
            Call::Read { handle, count } => self.read(handle, false, count),
            Call::Peek { handle, count } => self.read(handle, true, count),
            Call::Thresholds { handle } => numbers(self.thresholds(handle)),
            Call::Info { handle } => numbers(self.info(handle)),
            Call::Take => numbers(self.take()),
            _ => Answer::word(self.word(call)),
        }
    }

    fn look(&mut self) -> Look {
        let places = &self.pair.places;
        let source = |place: &raw::Place| (place.end as usize - 1, place.key);
        let packet = |place: &raw::Place| Packet {
            source: source(place),
            trigger: place.mask,
            observed: place.observed,
        };
        let (packets, rest) = places.table.split_at(places.packets);
        Look {
            packets: packets.iter().map(packet).collect(),
            waits: rest[..places.waits].iter().map(source).collect(),
            memory: self.memory.clone(),
            signals: [1, 2].map(|handle| u32::try_from(raw::signal(&mut self.pair, handle)).ok()),
            infos: [1, 2].map(|handle| done(self.info(handle))),
            thresholds: [1, 2].map(|handle| done(self.thresholds(handle))),
        }
    }
}
