//! Times the ring's copies against memcpy (`copy_nonoverlapping`) and against copies that take the remainder at
//! every byte, and prints one table. A wrapped copy has one half at the ring's end and the other at its start.
//! Some processors copy many times slower to an address that lies a little further in its page than where the
//! bytes come from, by memcpy as by these copies: two rows, '16 B on', have such a copy.
//! Built with `--cfg before`, it times the copies of an earlier archive in the same run.
use std::hint::black_box;
use std::ptr::copy_nonoverlapping;
use std::time::Instant;

/// Declares the two copies of an archive. A slice is passed as its pointer and its length.
macro_rules! archive {
    ($library:literal, $module:ident, $copy_in:ident, $copy_out:ident) => {
        mod $module {
            #[link(name = $library, kind = "static")]
            extern "C" {
                fn $copy_in(
                    ring: *mut u8,
                    size: usize,
                    capacity: usize,
                    at: usize,
                    src: *const u8,
                    len: usize,
                    n: usize,
                );
                fn $copy_out(
                    ring: *const u8,
                    size: usize,
                    capacity: usize,
                    start: usize,
                    n: usize,
                    dst: *mut u8,
                    len: usize,
                );
            }

            pub fn copy_in(ring: &mut [u8], capacity: usize, at: usize, src: &[u8], n: usize) {
                unsafe { $copy_in(ring.as_mut_ptr(), ring.len(), capacity, at, src.as_ptr(), src.len(), n) }
            }

            pub fn copy_out(ring: &[u8], capacity: usize, start: usize, n: usize, dst: &mut [u8]) {
                unsafe {
                    $copy_out(ring.as_ptr(), ring.len(), capacity, start, n, dst.as_mut_ptr(), dst.len())
                }
            }
        }
    };
}

archive!("ring_copies", now, ring_copies_in, ring_copies_out);
#[cfg(before)]
archive!("ring_copies_before", before, ring_copies_before_in, ring_copies_before_out);

/// The definition, compiled: byte k goes to the remainder of at + k, or comes from there.
mod remainder {
    #[no_mangle]
    #[inline(never)]
    pub fn remainder_in(ring: &mut [u8], capacity: usize, at: usize, src: &[u8], n: usize) {
        for k in 0..n {
            ring[(at + k) % capacity] = src[k];
        }
    }

    #[no_mangle]
    #[inline(never)]
    pub fn remainder_out(ring: &[u8], capacity: usize, start: usize, n: usize, dst: &mut [u8]) {
        for k in 0..n {
            dst[k] = ring[(start + k) % capacity];
        }
    }
}

const CAPACITY: usize = 262_144;
const SIZES: [usize; 3] = [64, 4096, CAPACITY];
const ALIGN: usize = 4096;
const RUNS: usize = 40;
const BYTES_PER_RUN: usize = 1 << 23;
const MOST_CALLS: usize = 100_000;

type In = fn(&mut [u8], usize, usize, &[u8], usize);
type Out = fn(&[u8], usize, usize, usize, &mut [u8]);

#[derive(Clone, Copy)]
enum Copy {
    /// All bytes by one memcpy, so many bytes further in its page than where they come from.
    Memcpy(usize),
    In(In, usize),
    Out(Out, usize),
}

/// One pass of a copy.
fn pass(copy: Copy, n: usize, ring: &mut [u8], src: &[u8], dst: &mut [u8]) {
    let capacity = black_box(CAPACITY);
    match copy {
        Copy::Memcpy(at) => unsafe { copy_nonoverlapping(src.as_ptr(), ring[at..at + n].as_mut_ptr(), n) },
        Copy::In(copy_in, at) => copy_in(ring, capacity, at, src, n),
        Copy::Out(copy_out, start) => copy_out(ring, capacity, start, n, dst),
    }
}

/// The time of a pass in nanoseconds, over one run.
fn time(copy: Copy, n: usize, ring: &mut [u8], src: &[u8], dst: &mut [u8]) -> f64 {
    let calls = (BYTES_PER_RUN / n).min(MOST_CALLS);
    let begin = Instant::now();
    for _ in 0..calls {
        pass(black_box(copy), black_box(n), black_box(&mut *ring), black_box(src), black_box(&mut *dst));
    }
    begin.elapsed().as_nanos() as f64 / calls as f64
}

/// Puts n bytes into the ring and takes them out again; both have to be where they belong.
fn check((copy_in, copy_out): (In, Out), at: usize, n: usize, ring: &mut [u8], src: &[u8], dst: &mut [u8]) {
    ring.fill(0);
    dst.fill(0);
    copy_in(ring, CAPACITY, at, src, n);
    for (i, byte) in ring.iter().enumerate() {
        let k = (i + CAPACITY - at) % CAPACITY;
        assert_eq!(*byte, if i < CAPACITY && k < n { src[k] } else { 0 }, "ring at {i}");
    }
    copy_out(ring, CAPACITY, at, n, dst);
    assert_eq!(dst[..n], src[..n]);
    assert!(dst[n..].iter().all(|byte| *byte == 0));
}

/// A page more than CAPACITY bytes of the memory, from the start of a page on: a ring is shorter than its slice.
fn aligned(memory: &mut [u8]) -> &mut [u8] {
    let skip = memory.as_ptr().align_offset(ALIGN);
    &mut memory[skip..skip + CAPACITY + ALIGN]
}

/// The pairs of copies that are timed, with what their rows are called.
fn pairs() -> Vec<(&'static str, In, Out)> {
    vec![
        ("", now::copy_in as In, now::copy_out as Out),
        #[cfg(before)]
        (", before", before::copy_in, before::copy_out),
        (", remainder", remainder::remainder_in, remainder::remainder_out),
    ]
}

/// The rows for copies of n bytes.
fn rows(n: usize) -> Vec<(String, Copy)> {
    let middle = CAPACITY - n / 2;
    let mut rows = vec![
        ("memcpy".to_string(), Copy::Memcpy(0)),
        ("memcpy, 16 B on".to_string(), Copy::Memcpy(16)),
        ("in, 16 B on".to_string(), Copy::In(now::copy_in, 16)),
    ];
    for (suffix, copy_in, copy_out) in pairs() {
        for (lie, place) in [("straight", 0), ("wrapped", middle)] {
            rows.push((format!("in, {lie}{suffix}"), Copy::In(copy_in, place)));
            rows.push((format!("out, {lie}{suffix}"), Copy::Out(copy_out, place)));
        }
    }
    rows
}

fn main() {
    let mut memory = [(); 3].map(|()| vec![0u8; CAPACITY + 2 * ALIGN]);
    let [ring, src, dst] = memory.each_mut().map(|bytes| aligned(bytes));
    for (i, byte) in src.iter_mut().enumerate() {
        *byte = (i * 7 + i / 251 + 1) as u8;
    }
    println!("{:>8}  {:<26}{:>10}{:>8}{:>8}", "bytes", "copy", "ns", "GB/s", "ratio");
    for n in SIZES {
        for (_, copy_in, copy_out) in pairs() {
            for at in [0, CAPACITY - n / 2, CAPACITY - 1] {
                check((copy_in, copy_out), at, n, ring, src, dst);
            }
        }
        // The copies take turns, so that all of them meet the same state of the machine; the best run of each counts.
        let rows = rows(n);
        let mut best = vec![f64::INFINITY; rows.len()];
        for _ in 0..RUNS {
            for (ns, (_, copy)) in best.iter_mut().zip(&rows) {
                *ns = ns.min(time(*copy, n, ring, src, dst));
            }
        }
        for (ns, (name, _)) in best.iter().zip(&rows) {
            println!("{n:>8}  {name:<26}{ns:>10.1}{:>8.1}{:>8.2}", n as f64 / ns, best[0] / ns);
        }
    }
    println!("ratio: the speed over that of memcpy for as many bytes, where both sides begin at a page");
    println!("16 B on: to 16 bytes past a page's start, from a page's start");
}
