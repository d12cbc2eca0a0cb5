//! The record that a host keeps, whole and byte by byte: it has no padding, and no byte of it depends on
//! the bytes moved, on what the rings, the tables, the stack or the record itself held before.
#![allow(unsafe_code)] // A record is seen as its bytes.

mod support;

use murgwethan::raw::{self, Endpoint, Pair, Place, Places, Queue, Span, Thresholds};
use std::hint::black_box;
use std::mem::{offset_of, size_of};
use support::calls::{Call, Most, Shape};
use support::host::{lent_end, lent_lengths, Host};
use support::numbers::Numbers;
use support::sequences;

const SIZE: usize = size_of::<Pair>();
/// Sequences of calls that each test runs.
const SEQUENCES: u64 = 1000;
/// More than any call needs of the stack.
const STACK: usize = 65_536;
/// Where a record has its flags, which are bytes of 0 or 1 at all times.
const FLAGS: [usize; 5] = [
    offset_of!(Pair, one) + offset_of!(Endpoint, closed),
    offset_of!(Pair, one) + offset_of!(Endpoint, read_disabled),
    offset_of!(Pair, two) + offset_of!(Endpoint, closed),
    offset_of!(Pair, two) + offset_of!(Endpoint, read_disabled),
    offset_of!(Pair, datagram),
];

/// Where the host keeps a record.
#[repr(C)]
union Kept {
    pair: Pair,
    bytes: [u8; SIZE],
}

impl Kept {
    /// Memory that holds these bytes, but for the flags, which are 1 where the byte is odd.
    fn filled(mut byte: impl FnMut() -> u8) -> Kept {
        let mut bytes = [0; SIZE];
        bytes.iter_mut().for_each(|at| *at = byte());
        FLAGS.iter().for_each(|flag| bytes[*flag] &= 1);
        Kept { bytes }
    }

    fn pair(&mut self) -> &mut Pair {
        // SAFETY: every byte is set; the flags are 0 or 1, and any bytes are a number.
        unsafe { &mut self.pair }
    }

    fn bytes(&self) -> [u8; SIZE] {
        // SAFETY: every byte is set, by `filled` or as one of a field: a test below says that there is no
        // padding.
        unsafe { self.bytes }
    }
}

/// Leaves this byte all over the stack that the next call uses.
#[inline(never)]
fn fill_stack(byte: u8) {
    black_box(&mut [byte; STACK]);
}

/// A pair and what its calls are lent, over contents of its own.
struct Run {
    shape: Shape,
    kept: Kept,
    rings: [Vec<u8>; 2],
    tables: [Vec<u32>; 2],
    memory: Vec<u8>,
    plain: Vec<u8>,
    contents: Numbers,
}

impl Run {
    fn new(shape: Shape, seed: u64) -> Run {
        let mut contents = Numbers::new(seed);
        let entries = shape.capacity as usize + shape.beyond;
        let kept = Kept::filled(|| contents.next() as u8);
        let mut run = Run {
            shape,
            kept,
            rings: [vec![0; entries], vec![0; entries]],
            tables: [0, 1].map(|_| (0..entries).map(|_| contents.next() as u32).collect()),
            memory: vec![0; shape.memory],
            plain: vec![0; shape.capacity as usize + 2],
            contents,
        };
        let Run { rings, contents, .. } = &mut run;
        rings.iter_mut().for_each(|ring| contents.bytes(ring));
        run
    }

    fn create(&mut self) -> i64 {
        let Shape { kind, capacity, rights, .. } = self.shape;
        let (rings, tables) = (self.rings.each_ref(), self.tables.each_ref());
        fill_stack(self.contents.next() as u8);
        raw::create(self.kept.pair(), kind, capacity, rights, rings.map(|r| &r[..]), tables.map(|t| &t[..]))
    }

    /// Makes the call over new contents of user memory and over a stack of other bytes.
    fn call(&mut self, call: &Call) -> i64 {
        self.contents.bytes(&mut self.memory);
        self.contents.bytes(&mut self.plain);
        let end = lent_end(call);
        let (ring, table) = lent_lengths(call.lend, &self.shape);
        let stack = self.contents.next() as u8;
        let host = Host {
            pair: self.kept.pair(),
            ring: &mut self.rings[end][..ring],
            table: &mut self.tables[end][..table],
            base: self.shape.base,
            memory: &mut self.memory,
            plain: &mut self.plain,
            out: &mut [0; 6],
        };
        fill_stack(stack);
        host.call(call)
    }
}

/// Compares two records, and names the first byte that differs.
fn assert_same(one: &Kept, two: &Kept, context: &str) {
    let (one, two) = (one.bytes(), two.bytes());
    if let Some(at) = (0..SIZE).find(|at| one[*at] != two[*at]) {
        panic!(
            "byte {at} of the record is {:#04x} in one run, {:#04x} in the other: {context}",
            one[at], two[at]
        );
    }
}

/// The bytes of a record's fields, one after the other.
macro_rules! fields {
    ($name:ident { $($field:ident: $kind:ty),* }) => {{
        // The names and types are those of the record: this does not compile with others.
        let _ = |$name { $($field),* }: $name| -> ($($kind,)*) { ($($field,)*) };
        (stringify!($name), 0 $(+ size_of::<$kind>())*, size_of::<$name>())
    }};
}

#[test]
fn every_byte_is_one_of_a_field() {
    let records = [
        fields!(Span { start: u32, count: u32 }),
        fields!(Queue { bytes: Span, lengths: Span }),
        fields!(Thresholds { read: u64, write: u64 }),
        fields!(Endpoint {
            closed: bool,
            read_disabled: bool,
            rights: u16,
            signals: u32,
            thresholds: Thresholds,
            queue: Queue
        }),
        fields!(Place { key: u64, mask: u32, observed: u32, end: u64 }),
        fields!(Places { packets: usize, waits: usize, table: [Place; raw::PLACES] }),
        fields!(Pair {
            one: Endpoint,
            two: Endpoint,
            datagram: bool,
            spare1: u8,
            spare2: u16,
            capacity: u32,
            places: Places
        }),
    ];
    for (name, fields, size) in records {
        assert_eq!(fields, size, "bytes of the fields of {name}, and its size");
    }
}

#[test]
fn create_leaves_nothing_of_what_the_record_held() {
    for number in 0..sequences(SEQUENCES) {
        let shape = Shape::random(&mut Numbers::new(number));
        let mut runs = [1, 2].map(|seed| Run::new(shape, 2 * number + seed));
        assert_eq!(runs.each_mut().map(Run::create), [0; 2], "{shape:?}");
        assert_same(&runs[0].kept, &runs[1].kept, "create");
    }
}

#[test]
fn a_refused_create_leaves_the_record_as_it_is() {
    for number in 0..sequences(SEQUENCES) {
        let mut shape = Shape::random(&mut Numbers::new(number));
        match number % 4 {
            0 => shape.kind = 2,
            1 => shape.capacity += shape.beyond as u32 + 1,
            2 => shape.rights[0] = 8,
            _ => shape.rights[1] = 0x1_0007,
        }
        let mut run = Run::new(shape, number);
        if number % 4 == 1 {
            run.rings = [vec![], vec![]];
        }
        let before = run.kept.bytes();
        assert_eq!(run.create(), -10, "{shape:?}");
        assert_eq!(run.kept.bytes(), before, "{shape:?}");
    }
}

#[test]
fn two_runs_leave_the_same_record() {
    for number in 0..sequences(SEQUENCES) {
        let mut numbers = Numbers::new(number);
        let shape = Shape::random(&mut numbers);
        let mut runs = [1, 2].map(|seed| Run::new(shape, 2 * number + seed));
        assert_eq!(runs.each_mut().map(Run::create), [0; 2], "{shape:?}");
        for _ in 0..200 {
            let call = Call::random(&mut numbers, &shape, Most::Neither);
            let before = runs[0].kept.bytes();
            let words = runs.each_mut().map(|run| run.call(&call));
            assert_eq!(words[0], words[1], "{call:?}");
            assert_same(&runs[0].kept, &runs[1].kept, &format!("{call:?}"));
            if words[0] < 0 {
                assert_eq!(runs[0].kept.bytes(), before, "a refused call changed the record: {call:?}");
            }
        }
    }
}

/// Create sets the spare fields to 0; a call finds any number there and leaves it.
#[test]
fn spare_fields_are_kept() {
    for number in 0..sequences(SEQUENCES) {
        let mut numbers = Numbers::new(number);
        let shape = Shape::random(&mut numbers);
        let mut runs = [1, 2].map(|seed| Run::new(shape, 2 * number + seed));
        assert_eq!(runs.each_mut().map(Run::create), [0; 2], "{shape:?}");
        let spare = |run: &mut Run| (run.kept.pair().spare1, run.kept.pair().spare2);
        assert_eq!(runs.each_mut().map(spare), [(0, 0); 2], "after create");
        let held = (numbers.next() as u8, numbers.next() as u16);
        for _ in 0..200 {
            let call = Call::random(&mut numbers, &shape, Most::Neither);
            (runs[1].kept.pair().spare1, runs[1].kept.pair().spare2) = held;
            let words = runs.each_mut().map(|run| run.call(&call));
            assert_eq!(words[0], words[1], "{call:?}");
            assert_eq!(runs.each_mut().map(spare), [(0, 0), held], "after {call:?}");
            (runs[1].kept.pair().spare1, runs[1].kept.pair().spare2) = (0, 0);
            assert_same(&runs[0].kept, &runs[1].kept, &format!("{call:?}"));
        }
    }
}
