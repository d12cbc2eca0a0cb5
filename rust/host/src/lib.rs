//! The proved socket pair for a kernel in Rust.
//!
//! A [`SocketPair`] has two ends. What one end writes, the other reads: a stream of bytes, or datagrams.
//! An end shows a word of [`Signals`]; a wait on some of them becomes a [`Packet`] once one is there.
//! After zCore's `Socket`, but as one value over a record and rings that the kernel lends, without locks,
//! reference counts or allocation.
//!
//! The code is the static library of the crate `host`, in which every function is proved to do what
//! document 01 says, and cancel what request (i) of document 02 says, on every input. This crate declares its
//! calls ([`raw`]) and gives them Rust's types.
//!
//! The feature `std` adds views of an end that are `std::io::Read` and `std::io::Write`.
#![no_std]

#[cfg(feature = "std")]
extern crate std;

#[cfg(doctest)]
mod borrows;
mod flags;
#[cfg(feature = "std")]
mod io;
mod pair;
pub mod raw;
mod rights;
mod signals;
mod status;
mod values;

#[cfg(feature = "std")]
pub use io::EndIo;
pub use pair::SocketPair;
pub use raw::{Pair as Record, Transfer, PLACES};
pub use rights::Rights;
pub use signals::Signals;
pub use status::{Status, UnknownStatus};
pub use values::{
    Disposition, Dispositions, End, Info, NotCreated, Packet, Parts, Shutdown, Thresholds, UserMemory,
    WaitMode,
};

/// The largest capacity of a pair, in bytes for each end. It is zCore's only one.
pub const MOST_CAPACITY: usize = 262_144;
