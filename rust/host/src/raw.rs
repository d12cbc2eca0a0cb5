//! The records and calls of the static library, as the crate `host_c` declares them.
//!
//! A kernel that keeps a pair and its rings in a way of its own calls these; [`SocketPair`] is easier to
//! use. All of them are safe with any record, handle, number and slice: the library demands nothing of
//! its caller. Each answers one word: a count, 0 for a call without one, or a [`Status`] as a negative
//! number.
//!
//! A call is refused with the first status of its list that applies, and then changes nothing. Where a list
//! has "the record", it is one that no run leaves: a capacity of 0 or above 262144, more than 128 places
//! used, or at one end a start at or above the capacity, more bytes than the capacity, or on a datagram pair
//! more lengths than bytes or only one of the two.
//!
//! This module holds all the unsafe code of this crate.
//!
//! [`SocketPair`]: crate::SocketPair
//! [`Status`]: crate::Status
#![allow(unsafe_code)]

mod calls;
mod exports;

pub use calls::{
    cancel, close, create, info, read, set_disposition, set_read_threshold, set_write_threshold, shutdown,
    signal, take, thresholds, user_read, user_set_disposition, user_shutdown, user_write, wait, write,
};

use core::cell::UnsafeCell;
use core::mem::MaybeUninit;

/// The places of a pair, each for a wait or its packet.
pub const PLACES: usize = 128;

/// A queue's place in a ring: where it starts and how many entries it has.
#[repr(C)]
#[derive(Clone, Copy, Debug, Eq, PartialEq)]
pub struct Span {
    /// The index of the first entry, below the capacity.
    pub start: u32,
    /// The number of entries.
    pub count: u32,
}

/// The queued bytes in the ring, and on datagram pairs their lengths in the table.
#[repr(C)]
#[derive(Clone, Copy, Debug, Eq, PartialEq)]
pub struct Queue {
    /// The queued bytes.
    pub bytes: Span,
    /// The lengths of the queued datagrams.
    pub lengths: Span,
}

/// The read and the write threshold of an end; 0 is none.
#[repr(C)]
#[derive(Clone, Copy, Debug, Eq, PartialEq)]
pub struct Thresholds {
    /// The read threshold.
    pub read: u64,
    /// The write threshold.
    pub write: u64,
}

/// One end of a pair.
#[repr(C)]
#[derive(Clone, Copy, Debug, Eq, PartialEq)]
pub struct Endpoint {
    /// Whether the end is closed.
    pub closed: bool,
    /// Whether its reading is disabled.
    pub read_disabled: bool,
    /// Its rights word.
    pub rights: u16,
    /// Its signal word.
    pub signals: u32,
    /// Its thresholds.
    pub thresholds: Thresholds,
    /// What it can read.
    pub queue: Queue,
}

/// A wait or its packet.
#[repr(C)]
#[derive(Clone, Copy, Debug, Eq, PartialEq)]
pub struct Place {
    /// The key.
    pub key: u64,
    /// The mask, which is the packet's trigger.
    pub mask: u32,
    /// The word at which the wait fired, and 0 until then.
    pub observed: u32,
    /// The number of the wait's end, 1 or 2; 0 in a place that no wait has.
    pub end: u64,
}

/// The packets stand first, oldest first; behind them the waits, oldest first.
#[repr(C)]
#[derive(Clone, Copy, Debug, Eq, PartialEq)]
pub struct Places {
    /// How many packets there are.
    pub packets: usize,
    /// How many waits there are.
    pub waits: usize,
    /// The packets and waits; the other places are unused.
    pub table: [Place; 128],
}

/// Both ends of a pair, and the places of its waits and packets. It holds no byte that was written, and
/// no padding: every byte is one of a field.
#[repr(C)]
#[derive(Clone, Copy, Debug, Eq, PartialEq)]
pub struct Pair {
    /// End 1.
    pub one: Endpoint,
    /// End 2.
    pub two: Endpoint,
    /// Whether the pair carries datagrams or a stream.
    pub datagram: bool,
    /// One byte where the record would have a gap: 0 by [`create`], and kept by every other call.
    pub spare1: u8,
    /// Two bytes more of the same.
    pub spare2: u16,
    /// The bytes that each queue holds.
    pub capacity: u32,
    /// The waits and packets.
    pub places: Places,
}

// The archive is built for x86-64.
const _: () = assert!(size_of::<usize>() == 8);

impl Pair {
    /// A record for [`create`] to fill, all bytes 0. It is no pair: every other call on it answers
    /// [`Internal`](crate::Status::Internal). Statics of it take no room in a program's file.
    // SAFETY: every field is a number or a flag, for which bytes of 0 are a value.
    pub const UNMADE: Pair = unsafe { MaybeUninit::zeroed().assume_init() };

    /// Fills an uninitialised place with [`UNMADE`](Pair::UNMADE). Nothing is copied: a record can be made
    /// where it was allocated, whatever the size of the stack.
    ///
    /// ```
    /// use murgwethan::raw::Pair;
    ///
    /// let mut place = Box::new_uninit();
    /// assert_eq!(*Pair::unmade_in(&mut place), Pair::UNMADE);
    /// ```
    pub fn unmade_in(place: &mut MaybeUninit<Pair>) -> &mut Pair {
        // SAFETY: the place is borrowed mutably and as large as a record. Every field is a number or a flag,
        // for which bytes of 0 are a value.
        unsafe {
            core::ptr::write_bytes(place.as_mut_ptr(), 0, 1);
            place.assume_init_mut()
        }
    }
}

/// A record that is lent to one pair. The calls that leave it as it is are made over a shared reference as
/// well. It is not `Sync`, so that there is one caller at a time all the same.
pub(crate) struct Lent<'a>(UnsafeCell<&'a mut Pair>);

impl<'a> Lent<'a> {
    pub(crate) fn new(record: &'a mut Pair) -> Lent<'a> {
        Lent(UnsafeCell::new(record))
    }

    pub(crate) fn into_inner(self) -> &'a mut Pair {
        self.0.into_inner()
    }

    pub(crate) fn get_mut(&mut self) -> &mut Pair {
        self.0.get_mut()
    }

    pub(crate) fn is_datagram(&self) -> bool {
        self.ask(|pair| pair.datagram)
    }

    pub(crate) fn peek(&self, handle: u32, ring: &[u8], table: &[u32], buffer: &mut [u8]) -> i64 {
        self.ask(|pair| read(pair, handle, true, ring, table, buffer))
    }

    pub(crate) fn thresholds(&self, handle: u32, out: &mut [u64; 2]) -> i64 {
        self.ask(|pair| thresholds(pair, handle, out))
    }

    pub(crate) fn info(&self, handle: u32, table: &[u32], out: &mut [u64; 6]) -> i64 {
        self.ask(|pair| info(pair, handle, table, out))
    }

    pub(crate) fn signal(&self, handle: u32) -> i64 {
        self.ask(|pair| signal(pair, handle))
    }

    /// Lends the record to one of the calls above.
    fn ask<T>(&self, call: impl FnOnce(&mut Pair) -> T) -> T {
        // SAFETY: no other reference to the record is in use. Other threads have none, since this is not
        // `Sync`; in this one they end with the functions above, none of which calls another.
        call(unsafe { &mut **self.0.get() })
    }
}

/// What a write or read over user memory is asked to move.
#[derive(Clone, Copy, Debug, Default, Eq, PartialEq)]
pub struct Transfer {
    /// 0, or for a read 8 to peek.
    pub options: u32,
    /// Where the bytes begin.
    pub address: u64,
    /// How many bytes are asked for.
    pub count: u64,
    /// Where the number of bytes moved lands, 8 bytes with the lowest first; 0 for nowhere.
    pub count_at: u64,
}
