//! The original's ports, and a name that its processes use.

#[path = "../../target/zcore/signal/port.rs"]
mod port;
pub use self::port::*;

use alloc::sync::Arc;
use core::sync::atomic::AtomicI32;

/// Stands for a futex, which no call here makes.
pub struct Futex;

impl Futex {
    pub fn new(_word: &'static AtomicI32) -> Arc<Self> {
        Arc::new(Futex)
    }
}
