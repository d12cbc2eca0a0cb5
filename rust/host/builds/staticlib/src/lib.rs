//! A kernel as a static library, which a program in C calls.
#![no_std]

use core::panic::PanicInfo;
use core::slice;
use murgwethan::{End, Record, Rights, SocketPair, Status};

const CAPACITY: usize = 64;

/// Passes bytes through a new pair and back over them, and tells what was read: a count, or a status.
///
/// # Safety
///
/// The bytes may be read and written, and nobody else does meanwhile.
#[no_mangle]
pub unsafe extern "C" fn kernel_pass(bytes: *mut u8, len: usize) -> i64 {
    // SAFETY: as above.
    match pass(unsafe { slice::from_raw_parts_mut(bytes, len) }) {
        Ok(count) => count as i64,
        Err(status) => status.number(),
    }
}

fn pass(bytes: &mut [u8]) -> Result<usize, Status> {
    let (mut record, mut one, mut two) = (Record::UNMADE, [0; CAPACITY], [0; CAPACITY]);
    let mut pair = SocketPair::stream(&mut record, CAPACITY, [Rights::ALL; 2], [&mut one, &mut two])?;
    pair.write(End::One, bytes)?;
    bytes.fill(0);
    pair.read(End::Two, bytes)
}

#[panic_handler]
fn panic(_: &PanicInfo<'_>) -> ! {
    loop {
        core::hint::spin_loop();
    }
}

// The prebuilt `core` names it, and nothing calls it: nothing unwinds.
#[no_mangle]
extern "C" fn rust_eh_personality() {}
