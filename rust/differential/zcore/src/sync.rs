//! Stand-in for kernel_hal's lock.

use std::sync::MutexGuard;

/// A lock used by one thread at a time. Taking it twice, which would hang the
/// kernel, panics.
#[derive(Debug, Default)]
pub struct Mutex<T>(std::sync::Mutex<T>);

impl<T> Mutex<T> {
    pub fn new(value: T) -> Self {
        Mutex(std::sync::Mutex::new(value))
    }

    pub fn lock(&self) -> MutexGuard<'_, T> {
        self.0.try_lock().expect("a lock was taken twice")
    }
}
