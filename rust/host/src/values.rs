//! What the methods of a pair take and answer.

use crate::{raw, Signals, Status};
use core::fmt;

/// One end of a pair. Its number is its handle.
#[derive(Clone, Copy, Debug, Eq, Hash, PartialEq)]
#[repr(u32)]
pub enum End {
    /// Handle 1.
    One = 1,
    /// Handle 2.
    Two = 2,
}

impl End {
    /// The handle.
    pub const fn handle(self) -> u32 {
        self as u32
    }

    /// The end of a handle, if it is 1 or 2.
    pub const fn from_handle(handle: u32) -> Option<End> {
        match handle {
            1 => Some(End::One),
            2 => Some(End::Two),
            _ => None,
        }
    }

    /// The other end.
    pub const fn peer(self) -> End {
        match self {
            End::One => End::Two,
            End::Two => End::One,
        }
    }
}

/// What is done to the writing of an end. Its number is that of the system call.
#[derive(Clone, Copy, Debug, Default, Eq, Hash, PartialEq)]
#[repr(u32)]
pub enum Disposition {
    /// It stays as it is.
    #[default]
    Unchanged = 0,
    /// It is disabled.
    Disable = 1,
    /// It is enabled.
    Enable = 2,
}

/// What is done to the writing of both ends.
#[derive(Clone, Copy, Debug, Default, Eq, Hash, PartialEq)]
pub struct Dispositions {
    /// To the end of the call.
    pub own: Disposition,
    /// To its peer.
    pub peer: Disposition,
}

/// What a shutdown ends. Its number is the options word of the system call.
#[derive(Clone, Copy, Debug, Eq, Hash, PartialEq)]
#[repr(u32)]
pub enum Shutdown {
    /// Nothing of the end; both of an open peer.
    Neither = 0,
    /// The writing of the end, and the reading of an open peer.
    Write = 1,
    /// The reading of the end, and the writing of an open peer.
    Read = 2,
    /// Both of the end; nothing of the peer.
    Both = 3,
}

impl Shutdown {
    pub(crate) const fn ends_reading(self) -> bool {
        matches!(self, Shutdown::Read | Shutdown::Both)
    }

    pub(crate) const fn ends_writing(self) -> bool {
        matches!(self, Shutdown::Write | Shutdown::Both)
    }
}

/// When a wait fires for the first time. Its number is the edge byte of the call.
#[derive(Clone, Copy, Debug, Eq, Hash, PartialEq)]
#[repr(u8)]
pub enum WaitMode {
    /// At once if one of its signals is there, else with the first change that brings one.
    Level = 0,
    /// With the first change of the word after which one of its signals is there.
    Edge = 1,
}

/// The thresholds of an end, in bytes; 0 is none.
#[derive(Clone, Copy, Debug, Eq, PartialEq)]
pub struct Thresholds {
    /// From how many queued bytes on the end shows [`Signals::READ_THRESHOLD`].
    pub read: usize,
    /// From how much space on the end shows [`Signals::WRITE_THRESHOLD`].
    pub write: usize,
}

/// What an end says of its queue and its peer's, in bytes.
#[derive(Clone, Copy, Debug, Eq, PartialEq)]
pub struct Info {
    /// The kind, as the option that created the pair: 0 stream, 1 datagram.
    pub options: u32,
    /// The capacity.
    pub capacity: usize,
    /// The bytes queued to be read.
    pub queued: usize,
    /// The bytes that one read can deliver: all those queued, or those of the first datagram.
    pub available: usize,
    /// The capacity of the peer's queue, or 0 if the peer is closed.
    pub peer_capacity: usize,
    /// The bytes queued at the peer, or 0 if it is closed.
    pub peer_queued: usize,
}

/// What a wait leaves once one of its signals is there.
#[derive(Clone, Copy, Debug, Eq, PartialEq)]
pub struct Packet {
    /// The wait's key.
    pub key: u64,
    /// The wait's mask.
    pub trigger: Signals,
    /// The end's word when the wait fired.
    pub observed: Signals,
    /// Always 1.
    pub count: u64,
    /// Always 0.
    pub timestamp: u64,
}

/// User memory: one slice at an address. It is mapped, and no other thread reads or writes it during the
/// call: that is what Rust asks of the reference.
#[derive(Debug)]
pub struct UserMemory<'m> {
    /// The address of the first byte.
    pub base: u64,
    /// The bytes.
    pub bytes: &'m mut [u8],
}

/// What a pair is kept in: handed back by [`SocketPair::into_parts`](crate::SocketPair::into_parts) and by a
/// refused create.
pub struct Parts<'a> {
    /// The record.
    pub record: &'a mut raw::Pair,
    /// The rings of end 1 and of end 2. They may hold bytes that were written.
    pub rings: [&'a mut [u8]; 2],
    /// The tables of end 1 and of end 2, empty for a stream.
    pub tables: [&'a mut [u32]; 2],
}

impl fmt::Debug for Parts<'_> {
    // The bytes in the rings are the users' and do not belong in a log.
    fn fmt(&self, formatter: &mut fmt::Formatter<'_>) -> fmt::Result {
        let rings = [self.rings[0].len(), self.rings[1].len()];
        let tables = [self.tables[0].len(), self.tables[1].len()];
        let mut shown = formatter.debug_struct("Parts");
        shown.field("rings", &rings).field("tables", &tables).finish_non_exhaustive()
    }
}

/// A refused create: why, and what was lent for the pair. It turns into its status where `?` asks for one.
#[derive(Debug)]
pub struct NotCreated<'a> {
    /// Why.
    pub status: Status,
    /// What was lent, as it was.
    pub parts: Parts<'a>,
}

impl From<NotCreated<'_>> for Status {
    fn from(refused: NotCreated<'_>) -> Status {
        refused.status
    }
}

impl fmt::Display for NotCreated<'_> {
    fn fmt(&self, formatter: &mut fmt::Formatter<'_>) -> fmt::Result {
        write!(formatter, "no pair: {}", self.status)
    }
}

impl core::error::Error for NotCreated<'_> {}
