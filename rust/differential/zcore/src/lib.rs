//! The original socket pair, its signals, its port, its handle table and its
//! system calls, compiled from the sources that build.rs lays into target/,
//! over stand-ins for the rest of the kernel.

// The originals and the stand-ins hold more than this comparison uses.
#![allow(dead_code, unused_imports)]

// The originals stand in two crates and name others; here each of these names
// is this crate itself.
#[macro_use]
extern crate alloc;
extern crate self as futures;
extern crate self as hashbrown;
extern crate self as kernel_hal;
extern crate self as zircon_object;

/// The original's log lines are dropped.
macro_rules! info {
    ($($argument:tt)*) => {{}};
}

/// The original counts objects for its statistics; here nothing is counted.
#[macro_export]
macro_rules! kcounter {
    ($name:ident, $text:expr) => {
        static $name: $crate::Uncounted = $crate::Uncounted;
    };
}

/// Stands for a statistics counter.
pub struct Uncounted;

impl Uncounted {
    /// Does nothing.
    pub fn add(&self, _number: usize) {}
}

// Stand-ins for kernel_hal, hashbrown and futures.
pub mod capacity;
pub mod sync;
pub mod user;
pub mod vm;
pub use self::vm::MMUFlags;
pub use std::collections::HashMap;

/// The clock of kernel_hal, used only for packets that ask for the time.
pub mod timer {
    /// No wait here asks for the time.
    pub fn timer_now() -> core::time::Duration {
        unreachable!("no wait asks for the time")
    }
}

/// The part of `futures` that the originals use.
pub mod channel {
    pub use futures_channel::oneshot;
}

// The originals and the modules they stand in.
#[path = "../../target/zcore/error.rs"]
mod error;
pub use self::error::*;
#[macro_use]
#[path = "../../target/zcore/object/mod.rs"]
pub mod object;
pub mod ipc;
pub mod signal;
pub mod syscall;
pub mod task;
pub mod untouched;
#[path = "../../target/zcore/user_memory.rs"]
pub(crate) mod user_memory;
