//! A pair over a record, rings and tables that it borrows.

use crate::raw::{self, Lent, Transfer};
use crate::status::{answer, done};
use crate::values::{
    Dispositions, End, Info, NotCreated, Packet, Parts, Shutdown, Thresholds, UserMemory, WaitMode,
};
use crate::{Rights, Signals, Status};
use core::fmt;

/// The kinds of pairs, as the numbers of create.
const STREAM: u32 = 0;
const DATAGRAM: u32 = 1;

/// What one end's queue is kept in.
struct Storage<'a> {
    ring: &'a mut [u8],
    /// Empty on stream pairs.
    table: &'a mut [u32],
}

/// A pair of sockets.
///
/// It borrows its record, the rings and the tables for its whole life, so nobody else can write them: the
/// terms on which bytes arrive as they were sent hold by Rust's own rules. Because of that no method answers
/// [`Status::Internal`], or [`Status::InvalidArgs`] for a short slice. [`into_parts`](SocketPair::into_parts)
/// hands back what was lent. The value itself is a few words and cheap to move.
///
/// Methods that take an [`End`] are for the kernel itself and ask for no right; those that take a handle
/// are system calls, with the numbers that a user gave. One caller at a time: a kernel with several
/// processors puts a lock around the pair, which is `Send` and not `Sync`.
///
/// ```
/// use murgwethan::{End, Record, Rights, Signals, SocketPair, Status, WaitMode};
///
/// # fn main() -> Result<(), Status> {
/// let (mut record, mut ring_one, mut ring_two) = (Record::UNMADE, [0; 16], [0; 16]);
/// let rings = [&mut ring_one[..], &mut ring_two];
/// let mut pair = SocketPair::stream(&mut record, 16, [Rights::ALL; 2], rings)?;
/// pair.wait(End::Two, 7, Signals::READABLE, WaitMode::Level)?;
/// assert_eq!(pair.take(), Err(Status::ShouldWait));
/// assert_eq!(pair.write(End::One, b"abc"), Ok(3));
/// assert_eq!(pair.take()?.key, 7);
/// let mut buffer = [0; 16];
/// let count = pair.read(End::Two, &mut buffer)?;
/// assert_eq!(&buffer[..count], b"abc");
/// # Ok(())
/// # }
/// ```
pub struct SocketPair<'a> {
    record: Lent<'a>,
    one: Storage<'a>,
    two: Storage<'a>,
}

impl<'a> SocketPair<'a> {
    /// A new pair for streams of bytes: a read can take the bytes of several writes together, or a part
    /// of one write's bytes. It has two empty queues of `capacity` bytes; both ends are writable. The
    /// rights and the rings are those of end 1 and of end 2. A queue is kept in the first `capacity`
    /// entries of its end's ring; entries that hold no queued byte keep their values. The record is made
    /// where it lies, whatever it held.
    ///
    /// # Errors
    ///
    /// [`Status::InvalidArgs`] if the capacity is 0 or above [`MOST_CAPACITY`](crate::MOST_CAPACITY), or
    /// if a ring has fewer entries than that. Other kinds and other bits of a rights word cannot be given
    /// here; [`raw::create`] refuses them with the same status. What was lent is handed back as it was.
    pub fn stream(
        record: &'a mut raw::Pair,
        capacity: usize,
        rights: [Rights; 2],
        rings: [&'a mut [u8]; 2],
    ) -> Result<Self, NotCreated<'a>> {
        SocketPair::create(STREAM, capacity, rights, Parts { record, rings, tables: [&mut [], &mut []] })
    }

    /// A new pair for datagrams: a write is one, and a read takes one, whole or cut off at the buffer's
    /// end. Each end has a table beside its ring, in which the lengths of its queued datagrams are kept.
    /// The rest is as with [`stream`](SocketPair::stream).
    ///
    /// # Errors
    ///
    /// As with [`stream`](SocketPair::stream), and [`Status::InvalidArgs`] if a table has fewer entries than
    /// the capacity.
    pub fn datagram(
        record: &'a mut raw::Pair,
        capacity: usize,
        rights: [Rights; 2],
        rings: [&'a mut [u8]; 2],
        tables: [&'a mut [u32]; 2],
    ) -> Result<Self, NotCreated<'a>> {
        SocketPair::create(DATAGRAM, capacity, rights, Parts { record, rings, tables })
    }

    fn create(
        kind: u32,
        capacity: usize,
        rights: [Rights; 2],
        parts: Parts<'a>,
    ) -> Result<Self, NotCreated<'a>> {
        // A capacity of more than 32 bits is refused as every other that is too large.
        let capacity = u32::try_from(capacity).unwrap_or(u32::MAX);
        let Parts { record, rings: [ring_one, ring_two], tables: [table_one, table_two] } = parts;
        let (rings, tables) = ([&*ring_one, &*ring_two], [&*table_one, &*table_two]);
        let created = done(raw::create(record, kind, capacity, rights.map(Rights::bits), rings, tables));
        let one = Storage { ring: ring_one, table: table_one };
        let two = Storage { ring: ring_two, table: table_two };
        let pair = SocketPair { record: Lent::new(record), one, two };
        match created {
            Ok(()) => Ok(pair),
            Err(status) => Err(NotCreated { status, parts: pair.into_parts() }),
        }
    }

    /// Ends the pair and hands back what was lent for it.
    ///
    /// A kernel that keeps pairs in a table of handles lends them memory that it allocated, and frees that
    /// memory here:
    ///
    /// ```
    /// use murgwethan::{End, Parts, Record, Rights, SocketPair, Status};
    ///
    /// # fn main() -> Result<(), Status> {
    /// let record = Record::unmade_in(Box::leak(Box::new_uninit()));
    /// let rings = [vec![0; 16].leak(), vec![0; 16].leak()];
    /// let mut pair: SocketPair<'static> = SocketPair::stream(record, 16, [Rights::ALL; 2], rings)?;
    /// pair.close(End::One)?;
    /// pair.close(End::Two)?;
    /// let Parts { record, rings: [one, two], .. } = pair.into_parts();
    /// // Sound, as each was leaked above and is used no more.
    /// unsafe {
    ///     drop(Box::from_raw(record));
    ///     drop((Box::from_raw(one), Box::from_raw(two)));
    /// }
    /// # Ok(())
    /// # }
    /// ```
    pub fn into_parts(self) -> Parts<'a> {
        let SocketPair { record, one, two } = self;
        Parts { record: record.into_inner(), rings: [one.ring, two.ring], tables: [one.table, two.table] }
    }

    /// Writes bytes to the peer's queue and answers how many were taken: of a stream as many as there is
    /// space for, a datagram whole.
    ///
    /// # Errors
    ///
    /// In this order: [`BadHandle`](Status::BadHandle) if the end is closed;
    /// [`InvalidArgs`](Status::InvalidArgs) for more than 4294967295 bytes;
    /// [`BadState`](Status::BadState) if its writing is disabled; [`PeerClosed`](Status::PeerClosed);
    /// [`ShouldWait`](Status::ShouldWait) if the queue is full. For a datagram then
    /// [`OutOfRange`](Status::OutOfRange) if it is larger than the capacity, `ShouldWait` if it is larger
    /// than the space, `InvalidArgs` if it is empty.
    pub fn write(&mut self, end: End, bytes: &[u8]) -> Result<usize, Status> {
        let (record, to) = self.record_and(end.peer());
        answer(raw::write(record, end.handle(), to.ring, to.table, bytes))
    }

    /// Reads from the end's own queue and answers how many bytes were delivered. Of a datagram, what the
    /// buffer does not hold is dropped. An empty buffer consumes nothing.
    ///
    /// # Errors
    ///
    /// In this order: [`BadHandle`](Status::BadHandle) if the end is closed; and if nothing is queued
    /// [`PeerClosed`](Status::PeerClosed), [`BadState`](Status::BadState) if its reading is disabled, or
    /// [`ShouldWait`](Status::ShouldWait).
    pub fn read(&mut self, end: End, buffer: &mut [u8]) -> Result<usize, Status> {
        let (record, from) = self.record_and(end);
        answer(raw::read(record, end.handle(), false, from.ring, from.table, buffer))
    }

    /// Like [`read`](SocketPair::read), but the bytes stay queued and no signal changes.
    ///
    /// # Errors
    ///
    /// As with [`read`](SocketPair::read).
    pub fn peek(&self, end: End, buffer: &mut [u8]) -> Result<usize, Status> {
        let from = self.storage(end);
        answer(self.record.peek(end.handle(), from.ring, from.table, buffer))
    }

    /// Disables or enables the writing of an end and of its peer.
    ///
    /// # Errors
    ///
    /// In this order: [`BadHandle`](Status::BadHandle) if the end is closed;
    /// [`BadState`](Status::BadState) if writing would be enabled while bytes sent before it was disabled
    /// are still queued.
    pub fn set_disposition(&mut self, end: End, asked: Dispositions) -> Result<(), Status> {
        let Dispositions { own, peer } = asked;
        done(raw::set_disposition(self.record.get_mut(), end.handle(), own as u32, peer as u32))
    }

    /// Ends the reading or the writing of an end, and of an open peer what is not ended here.
    ///
    /// # Errors
    ///
    /// [`BadHandle`](Status::BadHandle) if the end is closed.
    pub fn shutdown(&mut self, end: End, what: Shutdown) -> Result<(), Status> {
        let (read, write) = (what.ends_reading(), what.ends_writing());
        done(raw::shutdown(self.record.get_mut(), end.handle(), read, write))
    }

    /// Sets from how many queued bytes on the end shows [`Signals::READ_THRESHOLD`]; 0 for never.
    ///
    /// # Errors
    ///
    /// In this order: [`BadHandle`](Status::BadHandle) if the end is closed;
    /// [`InvalidArgs`](Status::InvalidArgs) above the capacity.
    pub fn set_read_threshold(&mut self, end: End, threshold: usize) -> Result<(), Status> {
        done(raw::set_read_threshold(self.record.get_mut(), end.handle(), threshold as u64))
    }

    /// Sets from how much space on the end shows [`Signals::WRITE_THRESHOLD`]; 0 for never.
    ///
    /// # Errors
    ///
    /// In this order: [`BadHandle`](Status::BadHandle) if the end is closed;
    /// [`PeerClosed`](Status::PeerClosed); [`InvalidArgs`](Status::InvalidArgs) above the capacity.
    pub fn set_write_threshold(&mut self, end: End, threshold: usize) -> Result<(), Status> {
        done(raw::set_write_threshold(self.record.get_mut(), end.handle(), threshold as u64))
    }

    /// Both thresholds of an end.
    ///
    /// # Errors
    ///
    /// [`BadHandle`](Status::BadHandle) if the end is closed.
    pub fn thresholds(&self, end: End) -> Result<Thresholds, Status> {
        let mut out = [0; 2];
        done(self.record.thresholds(end.handle(), &mut out))?;
        let [read, write] = out.map(size);
        Ok(Thresholds { read, write })
    }

    /// The sizes of the end's queue and of its peer's.
    ///
    /// # Errors
    ///
    /// [`BadHandle`](Status::BadHandle) if the end is closed.
    pub fn info(&self, end: End) -> Result<Info, Status> {
        let mut out = [0; 6];
        done(self.record.info(end.handle(), self.storage(end).table, &mut out))?;
        let [options, capacity, queued, available, peer_capacity, peer_queued] = out.map(size);
        Ok(Info { options: options as u32, capacity, queued, available, peer_capacity, peer_queued })
    }

    /// Waits until one signal of the mask is there: then a [`Packet`] can be taken.
    ///
    /// # Errors
    ///
    /// In this order: [`BadHandle`](Status::BadHandle) if the end is closed;
    /// [`NoResources`](Status::NoResources) if all [`PLACES`](crate::PLACES) are used, by waits or by
    /// packets that were not taken.
    pub fn wait(&mut self, end: End, key: u64, mask: Signals, mode: WaitMode) -> Result<(), Status> {
        done(raw::wait(self.record.get_mut(), end.handle(), key, mask.bits(), mode as u8))
    }

    /// Takes the oldest packet of either end, also of one that is closed by now.
    ///
    /// # Errors
    ///
    /// [`ShouldWait`](Status::ShouldWait) if there is none.
    pub fn take(&mut self) -> Result<Packet, Status> {
        let mut out = [0; 5];
        done(raw::take(self.record.get_mut(), &mut out))?;
        let [key, trigger, observed, count, timestamp] = out;
        // Both words have 32 bits: they come from the record's 32-bit fields.
        let signals = |word: u64| Signals::from_bits(word as u32);
        Ok(Packet { key, trigger: signals(trigger), observed: signals(observed), count, timestamp })
    }

    /// Removes every wait of an end that has this key, and every packet that such a wait made and that was
    /// not taken; answers how many these were, at least 1. What is left keeps its order, and the places are
    /// free for new waits.
    ///
    /// ```
    /// use murgwethan::{End, Record, Rights, Signals, SocketPair, Status, WaitMode};
    ///
    /// # fn main() -> Result<(), Status> {
    /// # let (mut record, mut ring_one, mut ring_two) = (Record::UNMADE, [0; 16], [0; 16]);
    /// # let rings = [&mut ring_one[..], &mut ring_two];
    /// # let mut pair = SocketPair::stream(&mut record, 16, [Rights::ALL; 2], rings)?;
    /// pair.wait(End::Two, 7, Signals::READABLE, WaitMode::Level)?;
    /// pair.wait(End::Two, 7, Signals::WRITABLE, WaitMode::Level)?; // a packet at once
    /// assert_eq!(pair.cancel(End::Two, 7), Ok(2));
    /// assert_eq!(pair.cancel(End::Two, 7), Err(Status::NotFound));
    /// assert_eq!(pair.take(), Err(Status::ShouldWait));
    /// # Ok(())
    /// # }
    /// ```
    ///
    /// # Errors
    ///
    /// In this order: [`BadHandle`](Status::BadHandle) if the end is closed, also where packets of it are
    /// left; [`NotFound`](Status::NotFound) if the end has no wait and no packet with this key.
    pub fn cancel(&mut self, end: End, key: u64) -> Result<usize, Status> {
        answer(raw::cancel(self.record.get_mut(), end.handle(), key))
    }

    /// Closes an end: its queue and its waits are gone, and the peer is told by
    /// [`Signals::PEER_CLOSED`]. What it had sent can still be read.
    ///
    /// # Errors
    ///
    /// [`BadHandle`](Status::BadHandle) if it is closed already.
    pub fn close(&mut self, end: End) -> Result<(), Status> {
        done(raw::close(self.record.get_mut(), end.handle()))
    }

    /// The signals that an end shows, or nothing if it is closed.
    pub fn signals(&self, end: End) -> Option<Signals> {
        u32::try_from(self.record.signal(end.handle())).ok().map(Signals::from_bits)
    }

    /// Whether the pair carries datagrams; else it carries a stream.
    pub fn is_datagram(&self) -> bool {
        self.record.is_datagram()
    }

    /// The system call that writes bytes of user memory, and lands their count there.
    ///
    /// # Errors
    ///
    /// In this order: [`InvalidArgs`](Status::InvalidArgs) if the options are not 0, or the address is 0
    /// with a count above 0; [`BadHandle`](Status::BadHandle); [`AccessDenied`](Status::AccessDenied)
    /// without the right to write; the statuses of [`write`](SocketPair::write); `InvalidArgs` if the
    /// bytes that it would take, or the count's 8 bytes, do not lie in memory.
    pub fn user_write(
        &mut self,
        handle: u32,
        memory: UserMemory<'_>,
        transfer: Transfer,
    ) -> Result<usize, Status> {
        let (record, to) = self.record_and(peer_of(handle));
        answer(raw::user_write(record, handle, memory.base, memory.bytes, transfer, to.ring, to.table))
    }

    /// The system call that reads into user memory, and lands the count over the bytes. With options 8 it
    /// is a peek.
    ///
    /// # Errors
    ///
    /// In this order: [`InvalidArgs`](Status::InvalidArgs) if the address is 0 with a count above 0, or
    /// the options are neither 0 nor 8; [`BadHandle`](Status::BadHandle);
    /// [`AccessDenied`](Status::AccessDenied) without the right to read; `InvalidArgs` if the bytes asked
    /// for, or the count's 8 bytes, do not lie in memory; the statuses of [`read`](SocketPair::read).
    pub fn user_read(
        &mut self,
        handle: u32,
        memory: UserMemory<'_>,
        transfer: Transfer,
    ) -> Result<usize, Status> {
        let (record, from) = self.record_and(peer_of(handle).peer());
        answer(raw::user_read(record, handle, memory.base, memory.bytes, transfer, from.ring, from.table))
    }

    /// The system call that changes dispositions, by their numbers.
    ///
    /// # Errors
    ///
    /// In this order: [`InvalidArgs`](Status::InvalidArgs) for a number above 2;
    /// [`BadHandle`](Status::BadHandle); [`AccessDenied`](Status::AccessDenied) without the right to
    /// manage; the statuses of [`set_disposition`](SocketPair::set_disposition).
    pub fn user_set_disposition(&mut self, handle: u32, own: u32, peer: u32) -> Result<(), Status> {
        done(raw::user_set_disposition(self.record.get_mut(), handle, own, peer))
    }

    /// The system call that shuts down writing (0x1 of the options) or reading (0x2).
    ///
    /// # Errors
    ///
    /// In this order: [`BadHandle`](Status::BadHandle); [`AccessDenied`](Status::AccessDenied) without
    /// the right to write.
    pub fn user_shutdown(&mut self, handle: u32, options: u32) -> Result<(), Status> {
        done(raw::user_shutdown(self.record.get_mut(), handle, options))
    }

    fn storage(&self, end: End) -> &Storage<'a> {
        match end {
            End::One => &self.one,
            End::Two => &self.two,
        }
    }

    fn record_and(&mut self, end: End) -> (&mut raw::Pair, &mut Storage<'a>) {
        match end {
            End::One => (self.record.get_mut(), &mut self.one),
            End::Two => (self.record.get_mut(), &mut self.two),
        }
    }
}

/// A number of the library as a size: both have 64 bits.
fn size(number: u64) -> usize {
    number as usize
}

/// The peer of a handle's end. With a handle that is neither 1 nor 2 no slice is looked at, so that any
/// will do.
fn peer_of(handle: u32) -> End {
    match End::from_handle(handle) {
        Some(end) => end.peer(),
        None => End::One,
    }
}

impl fmt::Debug for SocketPair<'_> {
    // Queued bytes are the users' and do not belong in a log.
    fn fmt(&self, formatter: &mut fmt::Formatter<'_>) -> fmt::Result {
        let mut shown = formatter.debug_struct("SocketPair");
        for (name, end) in [("one", End::One), ("two", End::Two)] {
            shown.field(name, &self.signals(end).zip(self.info(end).ok()));
        }
        shown.finish_non_exhaustive()
    }
}
