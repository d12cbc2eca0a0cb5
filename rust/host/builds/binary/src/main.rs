//! A program without the standard library. It passes datagrams through a pair and ends with the number of
//! those that arrived.
#![no_std]
#![no_main]

use core::ffi::c_int;
use core::panic::PanicInfo;
use murgwethan::{End, Record, Rights, SocketPair, Status};

const CAPACITY: usize = 64;
const ROWS: [&[u8]; 3] = [b"lead", b"tin", b"copper"];

// The C library starts the program and has `memcpy` and `memset`, which a kernel has itself.
#[link(name = "c")]
extern "C" {}

#[no_mangle]
extern "C" fn main() -> c_int {
    pass().unwrap_or(-1)
}

/// How many rows arrived as they were sent.
fn pass() -> Result<c_int, Status> {
    let (mut record, mut one, mut two) = (Record::UNMADE, [0; CAPACITY], [0; CAPACITY]);
    let (mut table_one, mut table_two) = ([0; CAPACITY], [0; CAPACITY]);
    let (rings, tables) = ([&mut one[..], &mut two], [&mut table_one[..], &mut table_two]);
    let mut pair = SocketPair::datagram(&mut record, CAPACITY, [Rights::ALL; 2], rings, tables)?;
    for row in ROWS {
        pair.write(End::One, row)?;
    }
    let (mut arrived, mut buffer) = (0, [0; CAPACITY]);
    for row in ROWS {
        let count = pair.read(End::Two, &mut buffer)?;
        arrived += c_int::from(buffer.get(..count) == Some(row));
    }
    Ok(arrived)
}

#[panic_handler]
fn panic(_: &PanicInfo<'_>) -> ! {
    loop {
        core::hint::spin_loop();
    }
}

// The prebuilt `core` names it, and nothing calls it: nothing unwinds.
#[no_mangle]
extern "C" fn rust_eh_personality() {}
