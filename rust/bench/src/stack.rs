//! How deep a call's stack is: the stack below is painted, the call made, and the paint looked for.

use murgwethan::raw::{self, Pair, Transfer};
use std::arch::asm;
use std::hint::black_box;

/// How much of the stack is painted.
const PAINTED: usize = 256 * 1024;
/// What the compiler may use below the stack pointer without moving it, with room to spare.
const NEAR: usize = 256;
const PAINT: u64 = 0x5aa5_5aa5_5aa5_5aa5;

/// The bytes of stack that a call used, its caller's frame included.
#[inline(never)]
fn depth(call: &mut dyn FnMut()) -> usize {
    let here: usize;
    // SAFETY: reads the stack pointer and changes nothing.
    unsafe { asm!("mov {}, rsp", out(reg) here, options(nomem, nostack, preserves_flags)) };
    let top = (here - NEAR) & !7;
    let words = || (top - PAINTED..top).step_by(8).map(|address| address as *mut u64);
    // SAFETY: the thread's stack reaches far below `top`, and nothing is kept there now.
    words().for_each(|word| unsafe { word.write_volatile(PAINT) });
    call();
    // SAFETY: as before; these words were written above.
    let first = words().find(|word| unsafe { word.read_volatile() } != PAINT);
    first.map_or(0, |word| here - word as usize)
}

/// A pair of which every place is used, and what its calls are lent.
struct Lent {
    pair: Pair,
    ring: Vec<u8>,
    table: Vec<u32>,
    bytes: Vec<u8>,
}

const CAPACITY: usize = 8192;

impl Lent {
    fn new(kind: u32) -> Lent {
        let (ring, table) = (vec![0; CAPACITY], vec![0; CAPACITY]);
        let mut pair = Pair::UNMADE;
        let (rings, tables) = ([&ring[..]; 2], [&table[..]; 2]);
        assert_eq!(raw::create(&mut pair, kind, CAPACITY as u32, [7, 7], rings, tables), 0);
        for key in 0..raw::PLACES as u64 - 1 {
            let mask = if key % 2 == 0 { 0x4 } else { 0x31 };
            assert_eq!(raw::wait(&mut pair, 1 + (key % 2) as u32, key, mask, 1), 0);
        }
        Lent { pair, ring, table, bytes: vec![0; CAPACITY] }
    }
}

type Named = (&'static str, fn(&mut Lent) -> i64);

const TRANSFER: Transfer = Transfer { options: 0, address: 4096, count: 5000, count_at: 4096 };

/// Every exported call, on a pair whose waits fire where they can.
const CALLS: [Named; 18] = [
    ("create", |l| raw::create(&mut l.pair, 0, 8192, [7, 7], [&l.ring; 2], [&l.table; 2])),
    ("write", |l| raw::write(&mut l.pair, 1, &mut l.ring, &mut l.table, &l.bytes[..5000])),
    ("read", |l| raw::read(&mut l.pair, 2, false, &l.ring, &l.table, &mut l.bytes)),
    ("user_write", |l| {
        raw::user_write(&mut l.pair, 1, 4096, &mut l.bytes, TRANSFER, &mut l.ring, &mut l.table)
    }),
    ("user_read", |l| raw::user_read(&mut l.pair, 2, 4096, &mut l.bytes, TRANSFER, &l.ring, &l.table)),
    ("set_disposition", |l| raw::set_disposition(&mut l.pair, 1, 1, 1)),
    ("user_set_disposition", |l| raw::user_set_disposition(&mut l.pair, 1, 1, 1)),
    ("shutdown", |l| raw::shutdown(&mut l.pair, 1, true, false)),
    ("user_shutdown", |l| raw::user_shutdown(&mut l.pair, 1, 3)),
    ("set_read_threshold", |l| raw::set_read_threshold(&mut l.pair, 2, 1)),
    ("set_write_threshold", |l| raw::set_write_threshold(&mut l.pair, 1, 1)),
    ("thresholds", |l| raw::thresholds(&mut l.pair, 1, &mut [0; 2])),
    ("info", |l| raw::info(&mut l.pair, 1, &l.table, &mut [0; 6])),
    ("wait", |l| raw::wait(&mut l.pair, 1, 9, 0x2, 0)),
    ("take", |l| raw::take(&mut l.pair, &mut [0; 5])),
    ("cancel", |l| raw::cancel(&mut l.pair, 1, 0)),
    ("signal", |l| raw::signal(&mut l.pair, 1)),
    ("close", |l| raw::close(&mut l.pair, 1)),
];

fn deepest_here() -> (usize, &'static str) {
    let mut depths = Vec::new();
    for (name, call) in CALLS {
        for kind in [0, 1] {
            // On an empty queue, and on one from which reads get bytes.
            for queued in [0, 6000] {
                let mut lent = Lent::new(kind);
                let bytes = &lent.bytes[..queued];
                raw::write(&mut lent.pair, 1, &mut lent.ring, &mut lent.table, bytes);
                depths.push((
                    depth(&mut || {
                        black_box(call(&mut lent));
                    }),
                    name,
                ));
            }
        }
    }
    depths.into_iter().max().unwrap_or((0, "no call"))
}

/// The deepest stack of a call, and its name. It runs on a thread of its own, whose stack is large.
pub fn deepest() -> (usize, &'static str) {
    let thread = std::thread::Builder::new().stack_size(4 * PAINTED).spawn(deepest_here);
    thread.expect("a thread").join().expect("its answer")
}
