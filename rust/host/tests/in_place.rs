//! A pair is made where its record lies: no copy of the record is made on the stack, and what was lent comes
//! back. `rust/host/test` runs this without optimization and with it.
#![allow(unsafe_code)] // The stack below a call is painted and looked at.

use murgwethan::{raw, End, NotCreated, Parts, Record, Rights, SocketPair, Status};
use std::arch::asm;
use std::hint::black_box;
use std::mem::size_of;

const C: usize = 8;
/// How much of the stack is painted: more than any call here takes.
const PAINTED: usize = 128 * 1024;
/// What this code may use below the stack pointer without moving it, with room to spare.
const NEAR: usize = 256;
const PAINT: u64 = 0x5aa5_5aa5_5aa5_5aa5;

/// The bytes of stack that a call used.
#[inline(never)]
fn depth(call: &mut dyn FnMut()) -> usize {
    let (here, changed): (usize, usize);
    // SAFETY: reads the stack pointer and changes nothing.
    unsafe { asm!("mov {}, rsp", out(reg) here, options(nomem, nostack, preserves_flags)) };
    let bottom = ((here - NEAR) & !7) - PAINTED;
    // SAFETY: the thread's stack reaches far below `bottom`, and nothing is kept between it and `here`.
    unsafe { asm!("rep stosq", inout("rcx") PAINTED / 8 => _, inout("rdi") bottom => _, in("rax") PAINT) };
    call();
    // SAFETY: as before; these words were written above. It ends behind the first that has changed.
    unsafe {
        asm!("repe scasq", inout("rcx") PAINTED / 8 => _, inout("rdi") bottom => changed, in("rax") PAINT)
    };
    here - changed
}

/// What a pair is lent, and room for the answer of a create.
struct Memory {
    record: Record,
    rings: [[u8; C]; 2],
    tables: [[u32; C]; 2],
}

impl Memory {
    fn new() -> Memory {
        Memory { record: Record::UNMADE, rings: [[0; C]; 2], tables: [[0; C]; 2] }
    }

    fn rings(&mut self) -> (&mut Record, [&mut [u8]; 2]) {
        let [one, two] = &mut self.rings;
        (&mut self.record, [one, two])
    }
}

#[test]
fn no_create_has_a_record_on_the_stack() {
    let mut memory = Memory::new();
    let by_raw = depth(&mut || {
        let Memory { record, rings: [one, two], .. } = &mut memory;
        black_box(raw::create(record, 0, C as u32, [7; 2], [one, two], [&[]; 2]));
    });
    let by_stream = depth(&mut || {
        let (record, rings) = memory.rings();
        black_box(&SocketPair::stream(record, C, [Rights::ALL; 2], rings));
    });
    let by_datagram = depth(&mut || {
        let Memory { record, rings: [one, two], tables: [table_one, table_two] } = &mut memory;
        let (rings, tables) = ([&mut one[..], two], [&mut table_one[..], table_two]);
        black_box(&SocketPair::datagram(record, C, [Rights::ALL; 2], rings, tables));
    });
    println!("bytes of stack: raw {by_raw}, stream {by_stream}, datagram {by_datagram}");
    for bytes in [by_stream, by_datagram] {
        assert!(bytes < by_raw + size_of::<Record>(), "{bytes} bytes of stack, {by_raw} of raw::create");
    }
}

#[test]
fn a_place_is_filled_without_a_record_on_the_stack() {
    let mut place = Box::new_uninit();
    let bytes = depth(&mut || {
        black_box(Record::unmade_in(&mut place));
    });
    println!("bytes of stack: {bytes}");
    assert!(bytes < size_of::<Record>() / 2, "{bytes} bytes of stack");
    assert_eq!(*Record::unmade_in(&mut place), Record::UNMADE);
}

#[test]
fn a_pair_is_as_cheap_to_move_as_what_it_was_lent() {
    assert_eq!(size_of::<SocketPair<'_>>(), size_of::<Parts<'_>>());
    assert!(size_of::<Parts<'_>>() < 100);
}

/// Where what a pair is kept in lies.
fn addresses(parts: &Parts<'_>) -> [usize; 5] {
    let [one, two] = &parts.rings;
    let [table_one, table_two] = &parts.tables;
    let record: *const Record = &*parts.record;
    let rings = [one.as_ptr() as usize, two.as_ptr() as usize];
    [record as usize, rings[0], rings[1], table_one.as_ptr() as usize, table_two.as_ptr() as usize]
}

#[test]
fn what_was_lent_comes_back() {
    let mut memory = Memory::new();
    let Memory { record, rings: [one, two], tables: [table_one, table_two] } = &mut memory;
    let parts = Parts { record, rings: [one, two], tables: [table_one, table_two] };
    let lent = addresses(&parts);
    let Parts { record, rings, tables } = parts;
    let mut pair = SocketPair::datagram(record, C, [Rights::ALL; 2], rings, tables).expect("a pair");
    assert_eq!(pair.write(End::One, b"abc"), Ok(3));
    let parts = pair.into_parts();
    assert_eq!(addresses(&parts), lent);
    assert_eq!((parts.record.two.queue.bytes.count, &parts.rings[1][..3]), (3, &b"abc"[..]));
    assert_eq!((parts.tables[1][0], &parts.rings[0][..]), (3, &[0; C][..]));
    let refused = SocketPair::datagram(parts.record, C + 1, [Rights::ALL; 2], parts.rings, parts.tables);
    let NotCreated { status, parts } = refused.expect_err("rings that are too short");
    assert_eq!((status, addresses(&parts)), (Status::InvalidArgs, lent));
    assert_eq!(parts.record.two.queue.bytes.count, 3, "a refused create leaves the record as it was");
}

#[test]
fn a_pair_ends_with_what_it_was_lent() {
    let mut memory = Memory::new();
    for round in 0..3u8 {
        let (record, rings) = memory.rings();
        let mut pair = SocketPair::stream(record, C, [Rights::ALL; 2], rings).expect("a pair");
        assert_eq!(pair.peek(End::Two, &mut [0]), Err(Status::ShouldWait), "nothing is left of another pair");
        assert_eq!(pair.write(End::One, &[round]), Ok(1));
    }
}
