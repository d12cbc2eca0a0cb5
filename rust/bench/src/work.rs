//! What is timed: the same calls with the same bytes on either side.

use crate::sides::{Mask, Side, BATCH};
use std::hint::black_box;
use std::time::{Duration, Instant};

/// The largest capacity, and the original's.
pub const MOST: usize = 262_144;

/// Which part of a pass is timed.
#[derive(Clone, Copy, PartialEq)]
pub enum Part {
    Both,
    Write,
    Read,
}

/// Where the bytes of a pass lie in the ring.
#[derive(Clone, Copy, PartialEq)]
pub enum Lie {
    /// In one piece.
    Straight,
    /// Across the ring's end in nearly every pass: one byte stays queued and the ring has two places more
    /// than a write. The largest write takes the whole ring, from its middle on.
    Wrapped,
}

#[derive(Clone, Copy)]
pub enum Work {
    /// A pair with a port, or what stands for it; then perhaps both ends closed.
    Create {
        capacity: u32,
        and_close: bool,
    },
    Pass {
        kind: u32,
        bytes: usize,
        lie: Lie,
        part: Part,
    },
    /// A write and a read of all of user memory, which has so many bytes.
    User(usize),
    /// Passes of 64 bytes, with waits at the reader that its two changes of a signal visit and do not fire.
    Waits(u64),
    WaitFireTake,
    /// So many waits at the reader; a pass cancels the oldest, by its key, and registers it again.
    Cancel(u64),
    Info,
    /// A pair whose memory is allocated for it and freed again, and its first write.
    FirstWrite {
        capacity: u32,
        bytes: usize,
    },
}

const SMALL: usize = 64;

impl Work {
    pub fn name(&self) -> String {
        match *self {
            Work::Create { capacity, and_close: false } => format!("create, C {capacity}"),
            Work::Create { capacity, and_close: true } => format!("create, close both ends, C {capacity}"),
            Work::Pass { kind, bytes, lie, part } => {
                let kind = if kind == 0 { "stream" } else { "datagram" };
                let lie = if lie == Lie::Straight { "straight" } else { "wrapped" };
                let part = match part {
                    Part::Both => "write+read",
                    Part::Write => "write",
                    Part::Read => "read",
                };
                format!("{kind} {part} {bytes} B, {lie}")
            }
            Work::User(bytes) => format!("user memory write+read {bytes} B"),
            Work::Waits(count) => format!("stream write+read 64 B, {count} waits"),
            Work::WaitFireTake => "wait, write that fires it, take, read".to_string(),
            Work::Cancel(count) => format!("cancel oldest of {count} waits, wait again"),
            Work::Info => "info".to_string(),
            Work::FirstWrite { capacity, bytes } => format!("C {capacity}, first write {bytes} B"),
        }
    }

    /// A pair in the state that the work begins with.
    fn prepare<S: Side>(&self) -> S {
        match *self {
            Work::Pass { kind, bytes, lie: Lie::Wrapped, .. } if bytes < MOST => {
                let mut side = S::new(kind, bytes as u32 + 2);
                side.write(&[1]);
                side
            }
            Work::Pass { kind, lie: Lie::Wrapped, .. } => {
                let mut side = S::new(kind, MOST as u32);
                side.write(&vec![1; MOST / 2]);
                side.read(&mut vec![0; MOST / 2]);
                side
            }
            Work::Pass { kind, .. } => S::new(kind, MOST as u32),
            Work::Create { capacity, .. } => S::new(0, capacity),
            Work::FirstWrite { .. } => S::new(0, 1),
            Work::User(bytes) => {
                let mut side = S::new(0, MOST as u32);
                side.map(bytes);
                side
            }
            Work::Waits(count) | Work::Cancel(count) => {
                let mut side = S::new(0, MOST as u32);
                (0..count).for_each(|key| side.wait(key, Mask::PeerClosed));
                side
            }
            _ => S::new(0, MOST as u32),
        }
    }

    /// The time of so many passes.
    fn time<S: Side>(&self, side: &mut S, passes: u32) -> Duration {
        match *self {
            Work::Create { and_close, .. } => batches(side, passes, and_close),
            Work::Pass { bytes, part, .. } => transfers(side, passes, bytes, part),
            Work::User(bytes) => elapsed(passes, || {
                assert_eq!(side.user_write(), bytes);
                assert_eq!(side.user_read(), bytes);
            }),
            Work::Waits(_) => transfers(side, passes, SMALL, Part::Both),
            Work::WaitFireTake => fired_waits(side, passes),
            Work::Cancel(count) => cancelled_waits(side, passes, count),
            Work::Info => elapsed(passes, || side.info()),
            Work::FirstWrite { capacity, bytes } => {
                let source = vec![7u8; bytes];
                elapsed(passes, || assert_eq!(S::first_write(capacity, black_box(&source)), bytes))
            }
        }
    }

    /// The time of so many passes on a new pair. The first passes, which meet memory that no cache holds,
    /// come before that.
    pub fn measure<S: Side>(&self, passes: u32) -> Duration {
        let mut side = self.prepare::<S>();
        self.time(&mut side, passes / 8 + 1);
        self.time(&mut side, passes)
    }
}

/// The time of a call made so many times.
pub fn elapsed(passes: u32, mut call: impl FnMut()) -> Duration {
    let start = Instant::now();
    (0..passes).for_each(|_| call());
    start.elapsed()
}

/// A pass is one pair of a batch.
fn batches<S: Side>(side: &mut S, passes: u32, and_close: bool) -> Duration {
    let mut total = Duration::ZERO;
    for _ in 0..passes.div_ceil(BATCH as u32) {
        let start = Instant::now();
        side.create_batch();
        let created = start.elapsed();
        side.close_batch();
        total += if and_close { start.elapsed() } else { created };
    }
    total
}

fn transfers<S: Side>(side: &mut S, passes: u32, bytes: usize, part: Part) -> Duration {
    let (source, mut target) = (vec![7u8; bytes], vec![0u8; bytes]);
    let mut total = Duration::ZERO;
    let start = Instant::now();
    for _ in 0..passes {
        let before = part_start(part, Part::Write);
        assert_eq!(side.write(black_box(&source)), bytes);
        total += before.map_or(Duration::ZERO, |start| start.elapsed());
        let before = part_start(part, Part::Read);
        assert_eq!(side.read(black_box(&mut target)), bytes);
        total += before.map_or(Duration::ZERO, |start| start.elapsed());
    }
    if part == Part::Both {
        return start.elapsed();
    }
    total
}

fn part_start(timed: Part, part: Part) -> Option<Instant> {
    (timed == part).then(Instant::now)
}

/// Each pass cancels the wait that is the oldest then. What comes behind the passes puts the waits back into
/// the order that they had.
fn cancelled_waits<S: Side>(side: &mut S, passes: u32, count: u64) -> Duration {
    let mut pass = |key| {
        side.cancel(black_box(key));
        side.wait(key, Mask::PeerClosed);
    };
    let start = Instant::now();
    (0..u64::from(passes)).for_each(|number| pass(number % count));
    let total = start.elapsed();
    (u64::from(passes) % count..count).for_each(pass);
    total
}

fn fired_waits<S: Side>(side: &mut S, passes: u32) -> Duration {
    let (source, mut target) = ([7u8; SMALL], [0u8; SMALL]);
    let start = Instant::now();
    for pass in 0..passes {
        side.wait(pass.into(), Mask::Readable);
        assert_eq!(side.write(black_box(&source)), SMALL);
        assert_eq!(side.take(), u64::from(pass));
        assert_eq!(side.read(black_box(&mut target)), SMALL);
    }
    start.elapsed()
}
