//! The calls, with slices in place of pointers and lengths.

use super::exports;
use super::{Pair, Transfer};

/// Makes a new pair of a kind (0 stream, 1 datagram) and a capacity, with a rights word for each end. Of the
/// rings and tables it looks at the lengths only. What the record held before does not matter.
///
/// Answers 0.
///
/// # Errors
///
/// [`InvalidArgs`](crate::Status::InvalidArgs) for another kind, a capacity of 0 or above 262144, a rights
/// word above 7, a ring with fewer entries than the capacity, or on a datagram pair such a table. The record
/// is then as it was.
#[inline]
pub fn create(
    pair: &mut Pair,
    kind: u32,
    capacity: u32,
    rights: [u32; 2],
    rings: [&[u8]; 2],
    tables: [&[u32]; 2],
) -> i64 {
    let ([ring_one, ring_two], [table_one, table_two]) = (rings, tables);
    // SAFETY: each pointer comes with the length of its own slice, which is borrowed for the call.
    unsafe {
        exports::murgwethan_create(
            pair,
            kind,
            capacity,
            rights[0],
            rights[1],
            ring_one.as_ptr(),
            ring_one.len(),
            table_one.as_ptr(),
            table_one.len(),
            ring_two.as_ptr(),
            ring_two.len(),
            table_two.as_ptr(),
            table_two.len(),
        )
    }
}

/// Writes bytes to the queue of the peer, whose ring and table are lent.
///
/// Answers how many bytes were taken: of a stream as many as there is space for, a datagram whole.
///
/// # Errors
///
/// 1. [`Internal`](crate::Status::Internal): the record.
/// 2. [`InvalidArgs`](crate::Status::InvalidArgs): the ring has fewer entries than the capacity, or on a
///    datagram pair the table has.
/// 3. [`Internal`](crate::Status::Internal): the first length queued in the table is 0 or above the bytes
///    queued there.
/// 4. [`BadHandle`](crate::Status::BadHandle): the handle is neither 1 nor 2, or its end is closed. With a
///    handle that is neither, 2 and 3 are not tested.
/// 5. [`InvalidArgs`](crate::Status::InvalidArgs): more than 4294967295 bytes.
/// 6. [`BadState`](crate::Status::BadState): the end's writing is disabled.
/// 7. [`PeerClosed`](crate::Status::PeerClosed): the peer is closed.
/// 8. [`ShouldWait`](crate::Status::ShouldWait): the queue is full.
/// 9. [`OutOfRange`](crate::Status::OutOfRange): a datagram larger than the capacity.
/// 10. [`ShouldWait`](crate::Status::ShouldWait): a datagram larger than the space.
/// 11. [`InvalidArgs`](crate::Status::InvalidArgs): an empty datagram.
#[inline]
pub fn write(pair: &mut Pair, handle: u32, ring: &mut [u8], table: &mut [u32], bytes: &[u8]) -> i64 {
    // SAFETY: each pointer comes with the length of its own slice; no other reference reaches what the
    // library writes, since the slices are borrowed mutably for the call.
    unsafe {
        exports::murgwethan_write(
            pair,
            handle,
            ring.as_mut_ptr(),
            ring.len(),
            table.as_mut_ptr(),
            table.len(),
            bytes.as_ptr(),
            bytes.len(),
        )
    }
}

/// Reads from the end's own queue; with `peek` the bytes stay queued. The ring and the table are its own.
///
/// Answers how many bytes were delivered: of a stream as many as the buffer holds, of a datagram pair those
/// of the first datagram, of which what the buffer does not hold is dropped. An empty buffer consumes
/// nothing.
///
/// # Errors
///
/// 1. [`Internal`](crate::Status::Internal): the record.
/// 2. [`InvalidArgs`](crate::Status::InvalidArgs): the ring has fewer entries than the capacity, or on a
///    datagram pair the table has.
/// 3. [`Internal`](crate::Status::Internal): the first length queued in the table is 0 or above the bytes
///    queued there.
/// 4. [`BadHandle`](crate::Status::BadHandle): the handle is neither 1 nor 2, or its end is closed. With a
///    handle that is neither, 2 and 3 are not tested.
/// 5. Where nothing is queued: [`PeerClosed`](crate::Status::PeerClosed) if the peer is closed, else
///    [`BadState`](crate::Status::BadState) if the end's reading is disabled, else
///    [`ShouldWait`](crate::Status::ShouldWait).
#[inline]
pub fn read(pair: &mut Pair, handle: u32, peek: bool, ring: &[u8], table: &[u32], buffer: &mut [u8]) -> i64 {
    // SAFETY: each pointer comes with the length of its own slice; only the buffer is written, which is
    // borrowed mutably for the call.
    unsafe {
        exports::murgwethan_read(
            pair,
            handle,
            peek,
            ring.as_ptr(),
            ring.len(),
            table.as_ptr(),
            table.len(),
            buffer.as_mut_ptr(),
            buffer.len(),
        )
    }
}

/// Disables (1), enables (2) or leaves (0) the writing of an end and of its peer. No right is asked for.
///
/// Answers 0.
///
/// # Errors
///
/// 1. [`Internal`](crate::Status::Internal): the record.
/// 2. [`BadHandle`](crate::Status::BadHandle): the handle is neither 1 nor 2, or its end is closed.
/// 3. [`InvalidArgs`](crate::Status::InvalidArgs): a number above 2.
/// 4. [`BadState`](crate::Status::BadState): writing would be enabled while bytes are queued that were sent
///    before it was disabled.
#[inline]
pub fn set_disposition(pair: &mut Pair, handle: u32, own: u32, peer: u32) -> i64 {
    exports::murgwethan_set_disposition(pair, handle, own, peer)
}

/// Ends the reading or the writing of an end; an open peer gets the same with both flags negated.
///
/// Answers 0.
///
/// # Errors
///
/// 1. [`Internal`](crate::Status::Internal): the record.
/// 2. [`BadHandle`](crate::Status::BadHandle): the handle is neither 1 nor 2, or its end is closed.
#[inline]
pub fn shutdown(pair: &mut Pair, handle: u32, read: bool, write: bool) -> i64 {
    exports::murgwethan_shutdown(pair, handle, read, write)
}

/// Sets from how many queued bytes on the end shows READ_THRESHOLD; 0 for never.
///
/// Answers 0.
///
/// # Errors
///
/// 1. [`Internal`](crate::Status::Internal): the record.
/// 2. [`BadHandle`](crate::Status::BadHandle): the handle is neither 1 nor 2, or its end is closed.
/// 3. [`InvalidArgs`](crate::Status::InvalidArgs): a threshold above the capacity.
#[inline]
pub fn set_read_threshold(pair: &mut Pair, handle: u32, threshold: u64) -> i64 {
    exports::murgwethan_set_read_threshold(pair, handle, threshold)
}

/// Sets from how much space on the end shows WRITE_THRESHOLD; 0 for never.
///
/// Answers 0.
///
/// # Errors
///
/// 1. [`Internal`](crate::Status::Internal): the record.
/// 2. [`BadHandle`](crate::Status::BadHandle): the handle is neither 1 nor 2, or its end is closed.
/// 3. [`PeerClosed`](crate::Status::PeerClosed): the peer is closed.
/// 4. [`InvalidArgs`](crate::Status::InvalidArgs): a threshold above the capacity.
#[inline]
pub fn set_write_threshold(pair: &mut Pair, handle: u32, threshold: u64) -> i64 {
    exports::murgwethan_set_write_threshold(pair, handle, threshold)
}

/// Puts out the read and the write threshold of an end.
///
/// Answers 0.
///
/// # Errors
///
/// 1. [`Internal`](crate::Status::Internal): the record.
/// 2. [`BadHandle`](crate::Status::BadHandle): the handle is neither 1 nor 2, or its end is closed.
#[inline]
pub fn thresholds(pair: &mut Pair, handle: u32, out: &mut [u64; 2]) -> i64 {
    exports::murgwethan_thresholds(pair, handle, out)
}

/// Puts out what an end says of its queue and its peer's: options, capacity, queued, available, the peer's
/// capacity, the peer's queued; the last two are 0 if the peer is closed. The table is the end's own.
///
/// Answers 0.
///
/// # Errors
///
/// 1. [`Internal`](crate::Status::Internal): the record.
/// 2. [`InvalidArgs`](crate::Status::InvalidArgs): on a datagram pair the table has fewer entries than the
///    capacity.
/// 3. [`Internal`](crate::Status::Internal): the first length queued in the table is 0 or above the bytes
///    queued there.
/// 4. [`BadHandle`](crate::Status::BadHandle): the handle is neither 1 nor 2, or its end is closed. With a
///    handle that is neither, 2 and 3 are not tested.
#[inline]
pub fn info(pair: &mut Pair, handle: u32, table: &[u32], out: &mut [u64; 6]) -> i64 {
    // SAFETY: the pointer comes with the length of its own slice, which is borrowed for the call.
    unsafe { exports::murgwethan_info(pair, handle, table.as_ptr(), table.len(), out) }
}

/// Registers a wait for one signal of a mask. If one is there it becomes a packet at once; with edge 1 only
/// after the word has changed.
///
/// Answers 0.
///
/// # Errors
///
/// 1. [`Internal`](crate::Status::Internal): the record.
/// 2. [`BadHandle`](crate::Status::BadHandle): the handle is neither 1 nor 2, or its end is closed.
/// 3. [`InvalidArgs`](crate::Status::InvalidArgs): an edge that is neither 0 nor 1.
/// 4. [`NoResources`](crate::Status::NoResources): all 128 places are used.
#[inline]
pub fn wait(pair: &mut Pair, handle: u32, key: u64, mask: u32, edge: u8) -> i64 {
    exports::murgwethan_wait(pair, handle, key, mask, edge)
}

/// Takes the oldest packet of either end and puts it out: key, trigger, observed, count, timestamp.
///
/// Answers 0.
///
/// # Errors
///
/// 1. [`Internal`](crate::Status::Internal): the record.
/// 2. [`ShouldWait`](crate::Status::ShouldWait): there is no packet.
#[inline]
pub fn take(pair: &mut Pair, out: &mut [u64; 5]) -> i64 {
    exports::murgwethan_take(pair, out)
}

/// Removes every wait of an end that has this key, all 64 bits of it, and every packet that such a wait made
/// and that was not taken. What is left keeps its order. No signal word changes, and no right is asked for.
///
/// Answers how many waits and packets it removed, at least 1: as many places are free again.
///
/// # Errors
///
/// 1. [`Internal`](crate::Status::Internal): the record.
/// 2. [`BadHandle`](crate::Status::BadHandle): the handle is neither 1 nor 2, or its end is closed. Packets of
///    a closed end can be taken, but not cancelled.
/// 3. [`NotFound`](crate::Status::NotFound): the end has no wait and no packet with this key.
#[inline]
pub fn cancel(pair: &mut Pair, handle: u32, key: u64) -> i64 {
    exports::murgwethan_cancel(pair, handle, key)
}

/// Closes an end: its queue and its waits are gone, and an open peer is told by its signal word.
///
/// Answers 0.
///
/// # Errors
///
/// 1. [`Internal`](crate::Status::Internal): the record.
/// 2. [`BadHandle`](crate::Status::BadHandle): the handle is neither 1 nor 2, or its end is closed.
#[inline]
pub fn close(pair: &mut Pair, handle: u32) -> i64 {
    exports::murgwethan_close(pair, handle)
}

/// Answers the signal word that an end shows.
///
/// # Errors
///
/// 1. [`Internal`](crate::Status::Internal): the record.
/// 2. [`BadHandle`](crate::Status::BadHandle): the handle is neither 1 nor 2, or its end is closed.
#[inline]
pub fn signal(pair: &mut Pair, handle: u32) -> i64 {
    exports::murgwethan_signal(pair, handle)
}

/// Writes bytes of user memory, a slice at a base address, to the queue of the peer, whose ring and table are
/// lent. Then lands the count of the bytes taken in user memory.
///
/// Answers how many bytes were taken, as [`write()`] does.
///
/// # Errors
///
/// 1. [`Internal`](crate::Status::Internal): the record.
/// 2. [`InvalidArgs`](crate::Status::InvalidArgs): the ring has fewer entries than the capacity, or on a
///    datagram pair the table has.
/// 3. [`Internal`](crate::Status::Internal): the first length queued in the table is 0 or above the bytes
///    queued there. With a handle that is neither 1 nor 2, 2 and 3 are not tested.
/// 4. [`InvalidArgs`](crate::Status::InvalidArgs): options other than 0, or the address 0 with a count above
///    0.
/// 5. [`BadHandle`](crate::Status::BadHandle): the handle is neither 1 nor 2, or its end is closed.
/// 6. [`AccessDenied`](crate::Status::AccessDenied): the end lacks the right to write.
/// 7. [`InvalidArgs`](crate::Status::InvalidArgs): a count above 4294967295.
/// 8. [`BadState`](crate::Status::BadState), [`PeerClosed`](crate::Status::PeerClosed),
///    [`ShouldWait`](crate::Status::ShouldWait), [`OutOfRange`](crate::Status::OutOfRange) and again
///    `ShouldWait`: as 6 to 10 of [`write()`].
/// 9. [`InvalidArgs`](crate::Status::InvalidArgs): the bytes that it would take, or the 8 bytes of the count,
///    do not lie in user memory.
/// 10. [`InvalidArgs`](crate::Status::InvalidArgs): an empty datagram.
#[inline]
pub fn user_write(
    pair: &mut Pair,
    handle: u32,
    base: u64,
    memory: &mut [u8],
    transfer: Transfer,
    ring: &mut [u8],
    table: &mut [u32],
) -> i64 {
    // SAFETY: each pointer comes with the length of its own slice; no other reference reaches what the
    // library writes, since the slices are borrowed mutably for the call.
    unsafe {
        exports::murgwethan_user_write(
            pair,
            handle,
            transfer.options,
            base,
            memory.as_mut_ptr(),
            memory.len(),
            transfer.address,
            transfer.count,
            transfer.count_at,
            ring.as_mut_ptr(),
            ring.len(),
            table.as_mut_ptr(),
            table.len(),
        )
    }
}

/// Reads from the end's own queue into user memory, a slice at a base address; with options 8 the bytes stay
/// queued. Then lands the count of the bytes delivered, over them where the two overlap. The ring and the
/// table are the end's own.
///
/// Answers how many bytes were delivered, as [`read()`] does.
///
/// # Errors
///
/// 1. [`Internal`](crate::Status::Internal): the record.
/// 2. [`InvalidArgs`](crate::Status::InvalidArgs): the ring has fewer entries than the capacity, or on a
///    datagram pair the table has.
/// 3. [`Internal`](crate::Status::Internal): the first length queued in the table is 0 or above the bytes
///    queued there. With a handle that is neither 1 nor 2, 2 and 3 are not tested.
/// 4. [`InvalidArgs`](crate::Status::InvalidArgs): the address 0 with a count above 0, or options that are
///    neither 0 nor 8.
/// 5. [`BadHandle`](crate::Status::BadHandle): the handle is neither 1 nor 2, or its end is closed.
/// 6. [`AccessDenied`](crate::Status::AccessDenied): the end lacks the right to read.
/// 7. [`InvalidArgs`](crate::Status::InvalidArgs): as many bytes as the count asks for, or the 8 bytes of the
///    count, do not lie in user memory.
/// 8. Where nothing is queued: [`PeerClosed`](crate::Status::PeerClosed) if the peer is closed, else
///    [`BadState`](crate::Status::BadState) if the end's reading is disabled, else
///    [`ShouldWait`](crate::Status::ShouldWait).
#[inline]
pub fn user_read(
    pair: &mut Pair,
    handle: u32,
    base: u64,
    memory: &mut [u8],
    transfer: Transfer,
    ring: &[u8],
    table: &[u32],
) -> i64 {
    // SAFETY: each pointer comes with the length of its own slice; only user memory is written, which is
    // borrowed mutably for the call.
    unsafe {
        exports::murgwethan_user_read(
            pair,
            handle,
            transfer.options,
            base,
            memory.as_mut_ptr(),
            memory.len(),
            transfer.address,
            transfer.count,
            transfer.count_at,
            ring.as_ptr(),
            ring.len(),
            table.as_ptr(),
            table.len(),
        )
    }
}

/// Disables (1), enables (2) or leaves (0) the writing of an end and of its peer.
///
/// Answers 0.
///
/// # Errors
///
/// 1. [`Internal`](crate::Status::Internal): the record.
/// 2. [`InvalidArgs`](crate::Status::InvalidArgs): a number above 2.
/// 3. [`BadHandle`](crate::Status::BadHandle): the handle is neither 1 nor 2, or its end is closed.
/// 4. [`AccessDenied`](crate::Status::AccessDenied): the end lacks the right to manage.
/// 5. [`BadState`](crate::Status::BadState): as 4 of [`set_disposition`].
#[inline]
pub fn user_set_disposition(pair: &mut Pair, handle: u32, own: u32, peer: u32) -> i64 {
    exports::murgwethan_user_set_disposition(pair, handle, own, peer)
}

/// Ends the writing (0x1 of the options) or the reading (0x2) of an end; an open peer gets the same with both
/// negated. Other bits are ignored.
///
/// Answers 0.
///
/// # Errors
///
/// 1. [`Internal`](crate::Status::Internal): the record.
/// 2. [`BadHandle`](crate::Status::BadHandle): the handle is neither 1 nor 2, or its end is closed.
/// 3. [`AccessDenied`](crate::Status::AccessDenied): the end lacks the right to write.
#[inline]
pub fn user_shutdown(pair: &mut Pair, handle: u32, options: u32) -> i64 {
    exports::murgwethan_user_shutdown(pair, handle, options)
}
