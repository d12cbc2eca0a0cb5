//! A call made by the host's calls.

use super::calls::{Call, Lend, Shape, What};
use murgwethan::raw;

/// A pair as its host keeps it, with all that the host may lend to a call.
pub struct Host<'a> {
    pub pair: &'a mut raw::Pair,
    pub ring: &'a mut [u8],
    pub table: &'a mut [u32],
    /// User memory begins here.
    pub base: u64,
    pub memory: &'a mut [u8],
    /// The bytes of a plain write, the buffer of a plain read.
    pub plain: &'a mut [u8],
    pub out: &'a mut [u64; 6],
}

/// The end whose ring and table a call is lent; end 1's with a handle that is none.
pub fn lent_end(call: &Call) -> usize {
    let own = usize::from(call.handle == 2);
    match call.what {
        What::Write { .. } | What::UserWrite(_) => 1 - own,
        _ => own,
    }
}

/// How many entries of a ring and of a table are lent.
pub fn lent_lengths(lend: Lend, shape: &Shape) -> (usize, usize) {
    let whole = shape.capacity as usize + shape.beyond;
    let short = shape.capacity as usize - 1;
    match lend {
        Lend::Whole => (whole, whole),
        Lend::ShortRing => (short, whole),
        Lend::ShortTable => (whole, short),
        Lend::Nothing => (0, 0),
    }
}

/// The front of what a call puts its record into.
pub fn array<const N: usize>(out: &mut [u64; 6]) -> &mut [u64; N] {
    out.first_chunk_mut().expect("at most six numbers")
}

impl Host<'_> {
    /// Makes the call.
    pub fn call(self, call: &Call) -> i64 {
        let Host { pair, ring, table, base, memory, plain, out } = self;
        let handle = call.handle;
        match call.what {
            What::Write { n } => raw::write(pair, handle, ring, table, &plain[..n]),
            What::Read { peek, n } => raw::read(pair, handle, peek, ring, table, &mut plain[..n]),
            What::UserWrite(transfer) => raw::user_write(pair, handle, base, memory, transfer, ring, table),
            What::UserRead(transfer) => raw::user_read(pair, handle, base, memory, transfer, ring, table),
            What::Info => raw::info(pair, handle, table, out),
            What::Thresholds => raw::thresholds(pair, handle, array(out)),
            What::Take => raw::take(pair, array(out)),
            What::SetDisposition { own, peer } => raw::set_disposition(pair, handle, own, peer),
            What::UserSetDisposition { own, peer } => raw::user_set_disposition(pair, handle, own, peer),
            What::Shutdown { read, write } => raw::shutdown(pair, handle, read, write),
            What::UserShutdown { options } => raw::user_shutdown(pair, handle, options),
            What::SetReadThreshold { threshold } => raw::set_read_threshold(pair, handle, threshold),
            What::SetWriteThreshold { threshold } => raw::set_write_threshold(pair, handle, threshold),
            What::Wait { key, mask, edge } => raw::wait(pair, handle, key, mask, edge),
            What::Cancel { key } => raw::cancel(pair, handle, key),
            What::Close => raw::close(pair, handle),
        }
    }
}
