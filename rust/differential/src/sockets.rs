//! The original's sockets, of which there are two builds: with a capacity that
//! can be set, and untouched.

use std::sync::Arc;
use zcore::object::KernelObject;
use zcore::{ipc, untouched, ZxResult};

/// What a socket of either build does.
pub trait Sockets: KernelObject + Sized {
    fn create(kind: u32) -> ZxResult<(Arc<Self>, Arc<Self>)>;
    /// Document 01's write: the size first, then the bytes.
    fn write(&self, bytes: &[u8]) -> ZxResult<usize>;
    fn read(&self, peek: bool, buffer: &mut [u8]) -> ZxResult<usize>;
    fn set_disposition(&self, own: Option<bool>, peer: Option<bool>) -> ZxResult;
    fn shutdown(&self, read: bool, write: bool) -> ZxResult;
    fn set_read_threshold(&self, threshold: usize) -> ZxResult;
    fn set_write_threshold(&self, threshold: usize) -> ZxResult;
    fn thresholds(&self) -> [u64; 2];
    /// The six numbers of an info record.
    fn info(&self) -> [u64; 6];
}

// A method of the original goes before the trait's of the same name.
macro_rules! sockets {
    ($build:ident) => {
        impl Sockets for $build::Socket {
            fn create(kind: u32) -> ZxResult<(Arc<Self>, Arc<Self>)> {
                $build::Socket::create(kind)
            }
            fn write(&self, bytes: &[u8]) -> ZxResult<usize> {
                self.write_size(bytes.len())?;
                self.write(bytes)
            }
            fn read(&self, peek: bool, buffer: &mut [u8]) -> ZxResult<usize> {
                self.read(peek, buffer)
            }
            fn set_disposition(&self, own: Option<bool>, peer: Option<bool>) -> ZxResult {
                self.set_disposition(own, peer)
            }
            fn shutdown(&self, read: bool, write: bool) -> ZxResult {
                self.shutdown(read, write)
            }
            fn set_read_threshold(&self, threshold: usize) -> ZxResult {
                self.set_read_threshold(threshold)
            }
            fn set_write_threshold(&self, threshold: usize) -> ZxResult {
                self.set_write_threshold(threshold)
            }
            fn thresholds(&self) -> [u64; 2] {
                let (read, write) = self.get_rx_tx_threshold();
                [read as u64, write as u64]
            }
            #[allow(unsafe_code)]
            fn info(&self) -> [u64; 6] {
                // The record's fields are private to the original, so they are
                // read from its bytes, which is how a user sees them.
                // SAFETY: it is repr(C) of two 32-bit and five 64-bit numbers,
                // without padding, and the sizes are equal or this does not
                // compile.
                let words: [u64; 6] = unsafe { std::mem::transmute(self.get_info()) };
                // The first word holds the options and a zero.
                [words[0] & 0xffff_ffff, words[1], words[2], words[3], words[4], words[5]]
            }
        }
    };
}

sockets!(ipc);
sockets!(untouched);
