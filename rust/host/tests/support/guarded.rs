//! A slice with guard entries before and behind it, to show that nothing beside it is written.

/// The variable that sets the number of guard entries. With 0 each slice is an allocation of its own, so
/// that valgrind sees what is read or written beside it.
const VARIABLE: &str = "GUARD";

pub struct Guarded<T> {
    all: Vec<T>,
    guard: usize,
    pattern: T,
}

impl<T: Copy + PartialEq> Guarded<T> {
    pub fn new(len: usize, value: T, pattern: T) -> Self {
        let given = std::env::var(VARIABLE).ok().and_then(|text| text.parse().ok());
        let guard = given.unwrap_or(64);
        let mut all = vec![pattern; len + 2 * guard];
        all[guard..guard + len].fill(value);
        Guarded { all, guard, pattern }
    }

    pub fn slice(&self) -> &[T] {
        &self.all[self.guard..self.all.len() - self.guard]
    }

    pub fn slice_mut(&mut self) -> &mut [T] {
        let end = self.all.len() - self.guard;
        &mut self.all[self.guard..end]
    }

    /// Whether every guard entry is as it was.
    pub fn is_intact(&self) -> bool {
        let (before, rest) = self.all.split_at(self.guard);
        let behind = &rest[rest.len() - self.guard..];
        before.iter().chain(behind).all(|entry| *entry == self.pattern)
    }
}
