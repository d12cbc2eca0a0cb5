//! A pair on any side, with the same calls.

/// Pairs of one batch of creates: few enough that the records of each side stay in the nearest cache.
pub const BATCH: usize = 8;

/// Where user memory begins.
pub const BASE: u64 = 65536;
/// The bytes of a count in user memory.
pub const COUNT: usize = 8;

/// What a wait is for.
#[derive(Clone, Copy)]
pub enum Mask {
    Readable,
    PeerClosed,
}

/// One pair. End 1 writes; end 2 reads, waits and is asked.
pub trait Side: Sized {
    /// A new pair. The original has one capacity, the largest; see [`Original`](crate::original::Original).
    fn new(kind: u32, capacity: u32) -> Self;
    fn write(&mut self, bytes: &[u8]) -> usize;
    fn read(&mut self, buffer: &mut [u8]) -> usize;
    /// Gives the pair user memory: so many bytes at [`BASE`], and behind them the place of a count.
    fn map(&mut self, bytes: usize);
    /// Writes all of those bytes; the count lands behind them.
    fn user_write(&mut self) -> usize;
    /// Reads over all of those bytes; the count lands behind them.
    fn user_read(&mut self) -> usize;
    fn wait(&mut self, key: u64, mask: Mask);
    /// The key of the oldest packet.
    fn take(&mut self) -> u64;
    /// Cancels the wait with this key; there is one.
    fn cancel(&mut self, key: u64);
    fn info(&mut self);
    /// Makes a batch of further pairs, each with a port.
    fn create_batch(&mut self);
    /// Closes both ends of each.
    fn close_batch(&mut self);
    /// Allocates what a new stream pair needs, makes the pair, writes to it, and frees all of it.
    fn first_write(capacity: u32, bytes: &[u8]) -> usize;
}
