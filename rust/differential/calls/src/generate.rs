//! Random lists of calls.

use crate::call::{Call, List, Memory, Shape};
use differential::draw::{Draw, ALL};
use differential::generate::capacity;
use differential::random::Random;
use differential::record::Transfer;

/// Kinds of calls, to choose among by weight.
#[derive(Clone, Copy)]
enum Kind {
    Write,
    Read,
    Peek,
    Disposition,
    Shutdown,
    ReadThreshold,
    WriteThreshold,
    Thresholds,
    Info,
    Close,
    Wait,
    Take,
    Cancel,
    ManyWaits,
}

use Kind::*;

/// Queues fill, run past the ring's end and empty.
#[rustfmt::skip]
const TRAFFIC: &[(Kind, u64)] = &[
    (Write, 36), (Read, 30), (Peek, 6), (ReadThreshold, 5), (WriteThreshold, 5), (Thresholds, 3), (Info, 3),
    (Disposition, 2), (Wait, 5), (Take, 5), (Cancel, 1),
];
/// Waits fire, in order, and places run out.
#[rustfmt::skip]
const WAITS: &[(Kind, u64)] = &[
    (Wait, 34), (Take, 18), (Write, 12), (Read, 12), (Disposition, 8), (ReadThreshold, 5), (WriteThreshold, 5),
    (Shutdown, 2), (Thresholds, 2), (Close, 1), (Cancel, 6), (ManyWaits, 1),
];
/// Writing is disabled and enabled, and ends close.
#[rustfmt::skip]
const ENDINGS: &[(Kind, u64)] = &[
    (Disposition, 24), (Shutdown, 8), (Close, 2), (Write, 23), (Read, 15), (Peek, 4), (Wait, 8), (Take, 6),
    (Info, 2), (ReadThreshold, 3), (WriteThreshold, 3), (Thresholds, 2), (Cancel, 3),
];

/// Where lists come from: a seed, the capacity of all pairs if it is not to be
/// drawn, and whether most calls that have a form over user memory take it.
#[derive(Clone, Copy)]
pub struct Source {
    pub seed: u64,
    pub capacity: Option<u32>,
    pub memory: bool,
}

impl Source {
    /// The list with a number, which depends on nothing else.
    pub fn list(&self, number: u64) -> List {
        let mut random = Random::new(self.seed, number);
        let capacity = self.capacity.unwrap_or_else(|| capacity(&mut random) as u32);
        let kind = random.below(2) as u32;
        let weights = random.pick(&[TRAFFIC, TRAFFIC, WAITS, ENDINGS]);
        let most = random.pick(&[6, 20, 40, 80, 160]);
        let mut draw = Draw::new(random, capacity.into());
        let memory = self.memory.then(|| memory(&mut draw));
        let rights = match memory {
            Some(_) if draw.random.percent(15) => [0, 1].map(|_| draw.random.below(8) as u8),
            _ => [7, 7],
        };
        let mut calls = Vec::new();
        for _ in 0..1 + draw.random.below(most) {
            let kind = draw.random.choose(weights);
            match memory.filter(|_| draw.random.percent(75)) {
                Some(memory) => put_over_memory(kind, memory, &mut draw, &mut calls),
                None => put(kind, &mut draw, &mut calls),
            }
        }
        List { shape: Shape { kind, capacity, rights, memory }, calls }
    }
}

/// Memory shorter and longer than a queue, also at both ends of all addresses.
fn memory(draw: &mut Draw) -> Memory {
    let capacity = draw.capacity as usize;
    let length = draw.random.pick(&[7, 8, 40, capacity, capacity + 64, 2 * capacity + 16, 2 * capacity + 16]);
    let last = 0u64.wrapping_sub(length as u64);
    Memory { base: draw.random.pick(&[65536, 65536, 4096, 0, 1, last, last - 1]), length }
}

fn put_over_memory(kind: Kind, memory: Memory, draw: &mut Draw, calls: &mut Vec<Call>) {
    let handle = draw.handle();
    calls.push(match kind {
        Write => Call::UserWrite(transfer(handle, &[0], memory, draw)),
        Read => Call::UserRead(transfer(handle, &[0], memory, draw)),
        Peek => Call::UserRead(transfer(handle, &[8], memory, draw)),
        Disposition => Call::UserSetDisposition { handle, own: draw.target(), peer: draw.target() },
        Shutdown => Call::UserShutdown { handle, options: draw.shutdown_options() },
        _ => return put(kind, draw, calls),
    });
}

fn transfer(handle: u32, options: &[u32], Memory { base, length }: Memory, draw: &mut Draw) -> Transfer {
    let (length, end) = (length as u64, base.wrapping_add(length as u64));
    let odd = |draw: &mut Draw, usual: u64, unusual: &[u64]| match draw.is_odd() {
        true => draw.random.pick(unusual),
        false => usual,
    };
    let options =
        if draw.is_odd() { draw.random.pick(&[1, 2, 8, 9, ALL]) } else { draw.random.pick(options) };
    let mut usual = count(draw);
    if draw.random.percent(75) {
        usual = usual.min(length);
    }
    let count = odd(draw, usual, &[length + 1, ALL.into(), 1 << 32, (1 << 32) + 1, 1 << 63, u64::MAX]);
    let last = end.wrapping_sub(count);
    let usual = match draw.random.below(8) {
        0 => last,
        1 if count == 0 => 0,
        _ => base.wrapping_add(draw.random.below(length.saturating_sub(count) + 1)),
    };
    let edges = [0, 1, last, last.wrapping_add(1), base.wrapping_sub(1), end, u64::MAX];
    let address = odd(draw, usual, &edges);
    let usual = match draw.random.below(10) {
        0..6 => 0,
        6..9 => address.wrapping_add(draw.random.below(16)).wrapping_sub(8),
        _ => base.wrapping_add(draw.random.below(length)),
    };
    let edges = [end.wrapping_sub(8), end.wrapping_sub(7), end, base, base.wrapping_sub(1), 1, u64::MAX];
    Transfer { handle, options, address, count, count_at: odd(draw, usual, &edges) }
}

fn put(kind: Kind, draw: &mut Draw, calls: &mut Vec<Call>) {
    let handle = draw.handle();
    calls.push(match kind {
        Write => Call::Write { handle, count: count(draw), seed: draw.random.below(1 << 16) },
        Read => Call::Read { handle, count: count(draw) },
        Peek => Call::Peek { handle, count: count(draw) },
        Disposition => {
            let [own, peer] = [0, 1].map(|_| draw.random.below(3) as u32);
            Call::SetDisposition { handle, own, peer }
        }
        Shutdown => {
            let [read, write] = [0, 1].map(|_| draw.random.percent(50));
            Call::Shutdown { handle, read, write }
        }
        ReadThreshold => Call::SetReadThreshold { handle, threshold: draw.threshold() },
        WriteThreshold => Call::SetWriteThreshold { handle, threshold: draw.threshold() },
        Thresholds => Call::Thresholds { handle },
        Info => Call::Info { handle },
        Close => Call::Close { handle },
        Wait => {
            let (key, mask, edge) = draw.wait();
            Call::Wait { handle, key, mask, edge }
        }
        Take => Call::Take,
        Cancel => Call::Cancel { handle, key: draw.cancel_key() },
        ManyWaits => {
            let waits = draw.many_waits().into_iter();
            return calls.extend(waits.map(|(handle, key, mask)| Call::Wait { handle, key, mask, edge: 1 }));
        }
    });
}

/// How many bytes are written, or asked for.
fn count(draw: &mut Draw) -> u64 {
    let capacity = draw.capacity;
    match draw.random.below(20) {
        0 => 0,
        1..4 => draw.random.pick(&[capacity - 1, capacity, capacity + 1]),
        4..7 => draw.random.below(capacity + 1),
        7 => draw.random.below(2 * capacity + 2),
        _ => 1 + draw.random.below(capacity.min(9)),
    }
}
