//! The capacity of the pair that the running thread works on, in place of the
//! original's constant.

use std::cell::Cell;

/// The original's constant.
pub const ORIGINAL: usize = 128 * 2048;

thread_local! {
    static CAPACITY: Cell<usize> = const { Cell::new(ORIGINAL) };
}

/// The capacity, in each place where the original names its constant.
pub fn socket_size() -> usize {
    CAPACITY.get()
}

/// Sets the capacity for all sockets of this thread.
pub fn set_socket_size(capacity: usize) {
    CAPACITY.set(capacity);
}
