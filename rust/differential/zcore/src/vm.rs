//! Stand-in for the process's address space: one mapped range.

use alloc::sync::Arc;
use bitflags::bitflags;
use std::sync::OnceLock;

bitflags! {
    /// How a call wants to use a range.
    pub struct MMUFlags: usize {
        const READ = 1 << 2;
        const WRITE = 1 << 3;
    }
}

/// An address space with one range of memory, readable and writable.
#[derive(Default)]
pub struct VmAddressRegion {
    mapped: OnceLock<(usize, usize)>,
}

impl VmAddressRegion {
    pub fn new_root() -> Arc<Self> {
        Arc::default()
    }

    /// Maps the one range, once.
    pub fn map_memory(&self, base: usize, length: usize) {
        self.mapped.set((base, length)).expect("memory is mapped once");
    }

    /// Document 01's rule: a range fits if its length is 0, or if it lies in
    /// memory by exact arithmetic. No alignment test.
    pub fn check_user_range(&self, address: usize, length: usize, _access: MMUFlags) -> Result<(), ()> {
        let (base, size) = *self.mapped.get().expect("memory is mapped");
        let fits =
            length == 0 || (address >= base && (address - base) as u128 + length as u128 <= size as u128);
        fits.then_some(()).ok_or(())
    }
}
