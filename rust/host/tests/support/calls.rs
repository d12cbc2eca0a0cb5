//! The calls of a sequence, drawn at random.

use super::numbers::Numbers;
use murgwethan::raw::Transfer;

/// What a call is asked, beside its handle.
#[derive(Clone, Debug)]
pub enum What {
    Write { n: usize },
    Read { peek: bool, n: usize },
    SetDisposition { own: u32, peer: u32 },
    Shutdown { read: bool, write: bool },
    SetReadThreshold { threshold: u64 },
    SetWriteThreshold { threshold: u64 },
    Thresholds,
    Info,
    Wait { key: u64, mask: u32, edge: u8 },
    Take,
    Cancel { key: u64 },
    Close,
    UserWrite(Transfer),
    UserRead(Transfer),
    UserSetDisposition { own: u32, peer: u32 },
    UserShutdown { options: u32 },
}

impl What {
    pub fn name(&self) -> &'static str {
        match self {
            What::Write { .. } => "write",
            What::Read { peek: false, .. } => "read",
            What::Read { peek: true, .. } => "peek",
            What::SetDisposition { .. } => "set_disposition",
            What::Shutdown { .. } => "shutdown",
            What::SetReadThreshold { .. } => "set_read_threshold",
            What::SetWriteThreshold { .. } => "set_write_threshold",
            What::Thresholds => "thresholds",
            What::Info => "info",
            What::Wait { .. } => "wait",
            What::Take => "take",
            What::Cancel { .. } => "cancel",
            What::Close => "close",
            What::UserWrite(_) => "user_write",
            What::UserRead(_) => "user_read",
            What::UserSetDisposition { .. } => "user_set_disposition",
            What::UserShutdown { .. } => "user_shutdown",
        }
    }
}

/// How much of the ring and the table a call is lent.
#[derive(Clone, Copy, Debug, PartialEq)]
pub enum Lend {
    Whole,
    ShortRing,
    ShortTable,
    Nothing,
}

#[derive(Clone, Debug)]
pub struct Call {
    pub handle: u32,
    pub lend: Lend,
    pub what: What,
}

/// A pair to draw calls for.
#[derive(Clone, Copy, Debug)]
pub struct Shape {
    pub kind: u32,
    pub capacity: u32,
    pub rights: [u32; 2],
    /// Entries of each ring and table beyond the capacity.
    pub beyond: usize,
    /// User memory: where it begins and how long it is.
    pub base: u64,
    pub memory: usize,
}

impl Shape {
    pub fn random(numbers: &mut Numbers) -> Shape {
        let memory = numbers.pick(&[0, 7, 8, 16, 40, 64]);
        let last = 0u64.wrapping_sub(memory as u64);
        let right = |numbers: &mut Numbers| if numbers.one_in(4) { numbers.below(8) as u32 } else { 7 };
        Shape {
            kind: numbers.below(2) as u32,
            capacity: numbers.pick(&[1, 2, 3, 4, 5, 8, 9, 17, 33]),
            rights: [right(numbers), right(numbers)],
            beyond: numbers.pick(&[0, 0, 1, 5]),
            base: numbers.pick(&[4096, 65_536, 0, 1, last, last.wrapping_sub(1)]),
            memory,
        }
    }

    fn size(&self, numbers: &mut Numbers) -> u64 {
        let capacity = u64::from(self.capacity);
        match numbers.below(8) {
            0 => 0,
            1 => 1,
            2 => capacity,
            3 => capacity - 1,
            4 => capacity + 1,
            _ => numbers.below(capacity + 2),
        }
    }

    fn transfer(&self, numbers: &mut Numbers, options: &[u32]) -> Transfer {
        let (base, memory) = (self.base, self.memory as u64);
        let end = base.wrapping_add(memory);
        let size = self.size(numbers);
        let count = match numbers.below(20) {
            0 => numbers.pick(&[0xffff_ffff, 0x1_0000_0000, u64::MAX, memory + 1]),
            1..=3 => size,
            _ => size.min(memory),
        };
        let address = match numbers.below(16) {
            0 => numbers.pick(&[0, 1, u64::MAX, u64::MAX - 3, base.wrapping_sub(1), end]),
            1 | 2 => end.wrapping_sub(count),
            3 => end.wrapping_sub(count).wrapping_add(1),
            4 => base,
            _ => base.wrapping_add(numbers.below(memory.saturating_sub(count) + 1)),
        };
        let count_at = match numbers.below(16) {
            0 => numbers.pick(&[1, u64::MAX, u64::MAX - 6, u64::MAX - 7, base, base.wrapping_sub(1)]),
            1 | 2 => end.wrapping_sub(8),
            3 => end.wrapping_sub(7),
            4 | 5 => address,
            6 | 7 => base.wrapping_add(numbers.below(memory + 1)),
            _ => 0,
        };
        Transfer { options: numbers.pick(options), address, count, count_at }
    }
}

/// Which calls a sequence has most of.
#[derive(Clone, Copy, Debug)]
pub enum Most {
    Bytes,
    Waits,
    Neither,
}

fn bytes(numbers: &mut Numbers, shape: &Shape) -> What {
    match numbers.below(8) {
        0..=2 => What::Write { n: shape.size(numbers) as usize },
        3 | 4 => What::Read { peek: numbers.one_in(3), n: shape.size(numbers) as usize },
        5 | 6 => What::UserWrite(shape.transfer(numbers, &[0, 0, 0, 0, 0, 0, 0, 0, 1, 8])),
        _ => What::UserRead(shape.transfer(numbers, &[0, 0, 0, 0, 0, 8, 8, 8, 1, 9])),
    }
}

/// The key of a wait or of a cancel: mostly one of few, of which two are alike in their lower 32 bits.
pub fn key(numbers: &mut Numbers) -> u64 {
    match numbers.below(4) {
        0 => numbers.next(),
        _ => numbers.pick(&[1, 2, 0x1_0000_0001, u64::MAX]),
    }
}

fn wait(numbers: &mut Numbers) -> What {
    let bits = [0x1, 0x2, 0x4, 0x10, 0x20, 0x400, 0x800, 0x400, 0x8000_0000, 0];
    let mask = numbers.pick(&bits) | if numbers.one_in(4) { numbers.pick(&bits) } else { 0 };
    let edge = numbers.pick(&[0, 0, 0, 0, 1, 1, 1, 1, 2, 255]);
    What::Wait { key: key(numbers), mask, edge }
}

fn other(numbers: &mut Numbers, shape: &Shape) -> What {
    let mut number = || numbers.pick(&[0, 0, 1, 1, 2, 2, 3, u32::MAX]);
    let (own, peer) = (number(), number());
    match numbers.below(12) {
        0 | 1 => What::SetDisposition { own, peer },
        2 | 3 => What::UserSetDisposition { own, peer },
        4 => What::Shutdown { read: numbers.one_in(2), write: numbers.one_in(2) },
        5 => What::UserShutdown { options: numbers.pick(&[0, 1, 2, 3, 4, 7, u32::MAX]) },
        6 | 7 => What::SetReadThreshold { threshold: shape.size(numbers) },
        8 | 9 => What::SetWriteThreshold { threshold: shape.size(numbers) },
        10 => What::Thresholds,
        _ => What::Info,
    }
}

impl Call {
    pub fn random(numbers: &mut Numbers, shape: &Shape, most: Most) -> Call {
        let draw = numbers.below(100);
        let (until_bytes, until_waits, until_takes, until_cancels) = match most {
            Most::Bytes => (75, 80, 83, 84),
            Most::Waits => (15, 76, 81, 83),
            Most::Neither => (40, 60, 70, 75),
        };
        let what = match draw {
            99 if numbers.one_in(3) => What::Close,
            _ if draw < until_bytes => bytes(numbers, shape),
            _ if draw < until_waits => wait(numbers),
            _ if draw < until_takes => What::Take,
            _ if draw < until_cancels => What::Cancel { key: key(numbers) },
            _ => other(numbers, shape),
        };
        let handle = if numbers.one_in(30) {
            numbers.pick(&[0, 3, 257, 0x1_0001, 0x8000_0001, u32::MAX])
        } else {
            1 + numbers.below(2) as u32
        };
        let lend = if numbers.one_in(30) {
            numbers.pick(&[Lend::ShortRing, Lend::ShortTable, Lend::Nothing])
        } else {
            Lend::Whole
        };
        Call { handle, lend, what }
    }
}
