//! Times the exported calls and the original Rust in one run and prints tables.
//!
//! The original is built from its sources by the crate `zcore` of `rust/differential`. Byte for byte:
//! `ipc/socket.rs` with its constant 262144, `object/mod.rs`, `object/signal.rs`, `signal/port.rs`,
//! `signal/port_packet.rs` and `error.rs`. Of the stand-ins for the rest of the kernel one is timed with it:
//! the lock, which is the standard library's mutex, taken with `try_lock` since one thread runs; the kernel's
//! is not among the sources. Those for the clock, counters, rights, processes and user memory are not called.
//!
//! The lock is a part of the original's calls. The exported calls have none, since a lock is the host's, and
//! are timed twice: as they are, and behind one lock of the same kind, which each call takes once.
//!
//! `bitflags`, `downcast-rs` and `futures-channel` are Debian's; `VecDeque`, `BTreeMap` and `Arc` are the
//! standard library's. Both sides are built for release with one code generation unit and full link-time
//! optimization, and without checks of overflow.
//!
//! Every row has the capacity 262144 where its name has no other, but for the wrapped ones of 64 and 4096
//! bytes: there the exported pair has two places more than a write, so that its ring wraps in nearly every
//! pass (see `original::Original`). The original has one capacity, 262144.
//!
//! A create of the original makes a port as well, which stands for the places that an exported pair has.
//! Rings and tables are the host's and are made before; the original allocates its queues at their first
//! write, so that only the first passes of a row, which are not timed, pay for it. The table of first writes
//! has this part: there either side allocates all that a new pair needs in every pass. The rings are filled
//! with zeros then, as Rust's slices ask of a host; the pair does not ask for it.
//!
//! A pass of a cancel has the wait with it that registers again what was cancelled. The original's end keeps
//! what it calls for a cancelled wait until its word changes, so that there it has one more after each pass.
//!
//! Over user memory the original's side does what its system calls do behind the lookup of the handle, with
//! slices for its user pointers, whose type is not among the sources. A process' table of handles is looked
//! up on neither side; the exported calls test the handle and its right, and both ranges.

mod best;
mod exported;
mod original;
mod sides;
mod stack;
mod work;
mod wrapper;

use best::{best_call, best_times, Cell};
use exported::{Exported, Locked};
use murgwethan::raw::{Pair, Places};
use original::Original;
use sides::BATCH;
use std::hint::black_box;
use std::mem::{offset_of, size_of};
use std::process::ExitCode;
use work::{Lie, Part, Work, MOST};

const USAGE: &str = "usage: rust/bench/run [--rounds N]

Prints the time of each row for the original Rust, for the exported calls and for
the exported calls behind the original's lock; what allocating the rings adds; what
SocketPair adds to raw; the speed of large copies; the deepest stack of a call; and
the least ratio. The best of N rounds counts (default 40).";

const ROUNDS: u32 = 40;

const fn create(capacity: u32) -> Work {
    Work::Create { capacity, and_close: false }
}

const fn pass(kind: u32, bytes: usize, lie: Lie, part: Part) -> Work {
    Work::Pass { kind, bytes, lie, part }
}

const fn first_write(capacity: usize, bytes: usize) -> Work {
    Work::FirstWrite { capacity: capacity as u32, bytes }
}

/// The rows that the ratio is about.
const ROWS: [Work; 24] = [
    create(64),
    create(4096),
    create(MOST as u32),
    Work::Create { capacity: MOST as u32, and_close: true },
    pass(0, 64, Lie::Straight, Part::Both),
    pass(0, 64, Lie::Wrapped, Part::Both),
    pass(0, 4096, Lie::Straight, Part::Both),
    pass(0, 4096, Lie::Wrapped, Part::Both),
    pass(0, MOST, Lie::Straight, Part::Both),
    pass(0, MOST, Lie::Wrapped, Part::Both),
    pass(0, MOST, Lie::Straight, Part::Read),
    pass(0, MOST, Lie::Wrapped, Part::Read),
    pass(1, 64, Lie::Straight, Part::Both),
    Work::User(64),
    Work::User(4096),
    Work::User(MOST),
    Work::Waits(0),
    Work::Waits(8),
    Work::Waits(127),
    Work::WaitFireTake,
    Work::Cancel(8),
    Work::Cancel(16),
    Work::Cancel(127),
    Work::Info,
];

/// Writes alone: on either side a copy by the system's `memcpy`, so that no ratio is asked of them.
const WRITES: [Work; 2] =
    [pass(0, MOST, Lie::Straight, Part::Write), pass(0, MOST, Lie::Wrapped, Part::Write)];

/// Pairs that are made, written to once and freed. The allocator keeps what is freed and gives it again.
const FIRST_WRITES: [Work; 4] =
    [first_write(64, 64), first_write(4096, 4096), first_write(MOST, 64), first_write(MOST, MOST)];

/// The same with pages that are new to the process each time.
const NEW_PAGES: [Work; 2] = [first_write(MOST, 64), first_write(MOST, MOST)];

/// A row's best times of a pass in nanoseconds.
struct Best {
    original: f64,
    exported: f64,
    locked: f64,
}

impl Best {
    fn ratios(&self) -> [f64; 2] {
        [self.original / self.exported, self.original / self.locked]
    }
}

/// The best times of each row.
fn best_of(rounds: u32, works: &[Work]) -> Vec<Best> {
    let cells = |work: Work| -> [Cell; 3] {
        [
            Box::new(move |passes| work.measure::<Original>(passes)),
            Box::new(move |passes| work.measure::<Exported>(passes)),
            Box::new(move |passes| work.measure::<Locked>(passes)),
        ]
    };
    let cells: Vec<Cell> = works.iter().copied().flat_map(cells).collect();
    let times = best_times(rounds, &cells);
    let best = |row: &[f64]| Best { original: row[0], exported: row[1], locked: row[2] };
    times.chunks_exact(3).map(best).collect()
}

/// Memory that begins at a page.
#[derive(Clone, Copy)]
#[repr(align(4096))]
struct Page(#[expect(dead_code, reason = "copied as a whole")] [u8; 4096]);

/// The best time of a plain copy of the largest size, in nanoseconds. Source and target both begin at a page:
/// two vectors may lie 16 bytes apart in their pages, which some processors copy many times slower
/// (`rust/bench/copies/run` has such a row).
fn copy_time() -> f64 {
    let (source, mut target) = (vec![Page([7; 4096]); MOST / 4096], vec![Page([0; 4096]); MOST / 4096]);
    best_call(1, || black_box(&mut target[..]).copy_from_slice(black_box(&source[..])))
}

/// The best time to fill the places of one record with zeros, in nanoseconds, over as many records as a
/// batch of creates makes.
fn fill_time() -> f64 {
    let mut records = vec![[7u8; size_of::<Pair>()]; BATCH];
    let fill_all = || {
        for record in &mut records {
            black_box(&mut record[offset_of!(Pair, places)..]).fill(0);
        }
    };
    best_call(1000, fill_all) / BATCH as f64
}

/// Gigabytes a second of the largest copy.
fn speed(time: f64) -> f64 {
    MOST as f64 / time
}

/// A row of one of the tables: a name of 40 characters, then columns of 10.
fn print_row(name: &str, columns: &[String]) {
    let columns: String = columns.iter().map(|column| format!(" {column:>10}")).collect();
    println!("{name:<40}{columns}");
}

fn print_head(name: &str, columns: &[&str]) {
    print_row(name, &columns.iter().map(ToString::to_string).collect::<Vec<_>>());
}

fn print_rows(title: &str, works: &[Work], rows: &[Best]) {
    print_head(title, &["Rust", "exported", "ratio", "locked", "ratio"]);
    for (work, best) in works.iter().zip(rows) {
        let [ratio, locked_ratio] = best.ratios().map(|ratio| format!("{ratio:.2}"));
        let [original, exported, locked] =
            [best.original, best.exported, best.locked].map(|time| format!("{time:.1}"));
        print_row(&work.name(), &[original, exported, ratio, locked, locked_ratio]);
    }
    println!();
}

fn print_copies(rows: &[Best], writes: &[Best]) {
    print_head("copies, GB/s", &["Rust", "exported"]);
    let is_read = |work: &Work| matches!(work, Work::Pass { part: Part::Read, .. });
    let reads = ROWS.iter().zip(rows).filter(|(work, _)| is_read(work));
    for (work, best) in WRITES.iter().zip(writes).chain(reads) {
        print_row(&work.name(), &[best.original, best.exported].map(|time| format!("{:.1}", speed(time))));
    }
    print_row(&format!("memcpy {MOST} B"), &[format!("{:.1}", speed(copy_time()))]);
    println!();
}

fn print_wrapper(rounds: u32) {
    print_head("SocketPair beside raw, ns a pass", &["raw", "SocketPair"]);
    for (name, cells) in wrapper::rows() {
        let times = best_times(rounds, &cells);
        print_row(name, &[times[0], times[1]].map(|time| format!("{time:.1}")));
    }
    println!();
}

/// From now on the allocator asks the system for each large block, and gives it back when it is freed. Blocks
/// that were freed before are still given again, but not to a new thread.
fn ask_new_pages() {
    extern "C" {
        fn mallopt(parameter: i32, value: i32) -> i32;
    }
    const M_MMAP_THRESHOLD: i32 = -3;
    // SAFETY: changes nothing but where the allocator gets the blocks that are asked for from now on.
    assert_eq!(unsafe { mallopt(M_MMAP_THRESHOLD, 65536) }, 1, "an allocator that takes the threshold");
}

fn print_first_writes(rounds: u32) {
    let title = "with what a pair allocates, ns a pass";
    print_rows(title, &FIRST_WRITES, &best_of(rounds, &FIRST_WRITES));
    ask_new_pages();
    let rows = std::thread::spawn(move || best_of(rounds, &NEW_PAGES)).join().expect("its times");
    print_rows("the same, pages new to the process", &NEW_PAGES, &rows);
}

fn run(rounds: u32) {
    let works: Vec<Work> = ROWS.into_iter().chain(WRITES).collect();
    let times = best_of(rounds, &works);
    let (rows, writes) = times.split_at(ROWS.len());
    print_rows("row, ns a pass", &ROWS, rows);
    print_copies(rows, writes);
    print_wrapper(rounds);
    print_first_writes(rounds);
    println!("fill of a record's {} B of places: {:.1} ns", size_of::<Places>(), fill_time());
    let (bytes, call) = stack::deepest();
    println!("deepest stack {bytes} bytes, of {call}");
    let least = |at: usize| rows.iter().map(|best| best.ratios()[at]).fold(f64::INFINITY, f64::min);
    println!("least ratio {:.2}, behind the lock {:.2}", least(0), least(1));
}

/// The rounds that the words ask for, at least one.
fn rounds_of(words: &[String]) -> Option<u32> {
    match words {
        [] => Some(ROUNDS),
        [option, number] if option == "--rounds" => number.parse().ok().filter(|rounds| *rounds > 0),
        _ => None,
    }
}

fn main() -> ExitCode {
    let words: Vec<String> = std::env::args().skip(1).collect();
    if matches!(&words[..], [word] if word == "--help" || word == "-h") {
        println!("{USAGE}");
        return ExitCode::SUCCESS;
    }
    let Some(rounds) = rounds_of(&words) else {
        eprintln!("{USAGE}");
        return ExitCode::from(2);
    };
    run(rounds);
    ExitCode::SUCCESS
}
