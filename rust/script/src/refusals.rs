//! The reasons to refuse a call, judged from the pair before it.

use crate::names::{
    DATAGRAM, ENABLE, MANAGE_RIGHT, PEEK, PEER_WRITE_DISABLED, READ_RIGHT, WRITE_DISABLED, WRITE_RIGHT,
};
use crate::pair::{fits, End, Packet, Pair, Wait, COUNT, PLACES, RING};
use crate::record::{Record, Refusal};

/// The handle names no open end. The reasons behind this one may look at both ends.
pub const NO_END: Refusal = Refusal {
    status: -11,
    reason: "the handle is neither end1 nor end2, or its end is closed",
    holds: |pair, record| pair.open(record).is_none(),
};

fn own<'a>(pair: &'a Pair, record: &Record) -> &'a End {
    &pair.ends[pair.open(record).unwrap_or(0)]
}

fn peer<'a>(pair: &'a Pair, record: &Record) -> &'a End {
    &pair.ends[1 - pair.open(record).unwrap_or(0)]
}

fn has(end: &End, bit: u32) -> bool {
    end.word.is_some_and(|word| word & bit != 0)
}

pub(crate) fn odd_kind(_: &Pair, record: &Record) -> bool {
    record.value("kind") > DATAGRAM
}

pub(crate) fn odd_capacity(_: &Pair, record: &Record) -> bool {
    !(1..=RING).contains(&record.value("capacity"))
}

pub(crate) fn odd_rights(_: &Pair, record: &Record) -> bool {
    record.value("rights1").max(record.value("rights2")) > (READ_RIGHT | WRITE_RIGHT | MANAGE_RIGHT)
}

pub(crate) fn any_options(_: &Pair, record: &Record) -> bool {
    record.value("options") != 0
}

pub(crate) fn odd_read_options(_: &Pair, record: &Record) -> bool {
    ![0, PEEK].contains(&record.value("options"))
}

pub(crate) fn null_address(_: &Pair, record: &Record) -> bool {
    record.value("address") == 0 && record.value("count") > 0
}

pub(crate) fn no_right_to_read(pair: &Pair, record: &Record) -> bool {
    own(pair, record).rights & READ_RIGHT == 0
}

pub(crate) fn no_right_to_write(pair: &Pair, record: &Record) -> bool {
    own(pair, record).rights & WRITE_RIGHT == 0
}

pub(crate) fn no_right_to_manage(pair: &Pair, record: &Record) -> bool {
    own(pair, record).rights & MANAGE_RIGHT == 0
}

pub(crate) fn count_above_32_bits(_: &Pair, record: &Record) -> bool {
    record.value("count") > u64::from(u32::MAX)
}

pub(crate) fn write_disabled(pair: &Pair, record: &Record) -> bool {
    has(own(pair, record), WRITE_DISABLED)
}

pub(crate) fn peer_closed(pair: &Pair, record: &Record) -> bool {
    peer(pair, record).word.is_none()
}

pub(crate) fn peer_full(pair: &Pair, record: &Record) -> bool {
    pair.space(peer(pair, record)) == 0
}

pub(crate) fn datagram_above_capacity(pair: &Pair, record: &Record) -> bool {
    pair.kind == DATAGRAM && record.value("count") > pair.capacity
}

pub(crate) fn datagram_above_space(pair: &Pair, record: &Record) -> bool {
    pair.kind == DATAGRAM && record.value("count") > pair.space(peer(pair, record))
}

pub(crate) fn empty_datagram(pair: &Pair, record: &Record) -> bool {
    pair.kind == DATAGRAM && record.value("count") == 0
}

/// The range of the bytes that the write takes, not of all its count.
pub(crate) fn write_outside_memory(pair: &Pair, record: &Record) -> bool {
    let taken = record.value("count").min(pair.space(peer(pair, record)));
    !fits(record.value("address"), taken)
}

pub(crate) fn read_outside_memory(_: &Pair, record: &Record) -> bool {
    !fits(record.value("address"), record.value("count"))
}

pub(crate) fn count_outside_memory(_: &Pair, record: &Record) -> bool {
    record.value("count_at") != 0 && !fits(record.value("count_at"), COUNT)
}

pub(crate) fn fill_outside_memory(_: &Pair, record: &Record) -> bool {
    !fits(record.value("address"), record.bytes.len() as u64)
}

pub(crate) fn empty(pair: &Pair, record: &Record) -> bool {
    own(pair, record).queue.bytes.is_empty()
}

pub(crate) fn empty_and_peer_closed(pair: &Pair, record: &Record) -> bool {
    empty(pair, record) && peer_closed(pair, record)
}

/// With an open peer, reading is disabled exactly where PEER_WRITE_DISABLED is set.
pub(crate) fn empty_and_disabled(pair: &Pair, record: &Record) -> bool {
    empty(pair, record) && has(own(pair, record), PEER_WRITE_DISABLED)
}

pub(crate) fn odd_disposition(_: &Pair, record: &Record) -> bool {
    record.value("own").max(record.value("peer")) > ENABLE
}

/// Bytes are queued at an open end whose peer may not write.
fn has_backlog(end: &End) -> bool {
    has(end, PEER_WRITE_DISABLED) && !end.queue.bytes.is_empty()
}

pub(crate) fn own_backlog(pair: &Pair, record: &Record) -> bool {
    record.value("own") == ENABLE && has_backlog(peer(pair, record))
}

pub(crate) fn peer_backlog(pair: &Pair, record: &Record) -> bool {
    record.value("peer") == ENABLE && has_backlog(own(pair, record))
}

pub(crate) fn threshold_above_capacity(pair: &Pair, record: &Record) -> bool {
    record.value("threshold") > pair.capacity
}

pub(crate) fn odd_edge(_: &Pair, record: &Record) -> bool {
    record.value("edge") > 1
}

pub(crate) fn no_place(pair: &Pair, _: &Record) -> bool {
    pair.waits.len() + pair.packets.len() >= PLACES
}

pub(crate) fn no_packet(pair: &Pair, _: &Record) -> bool {
    pair.packets.is_empty()
}

pub(crate) fn nothing_to_cancel(pair: &Pair, record: &Record) -> bool {
    let asked = (pair.open(record).unwrap_or(0), record.value("key"));
    let mut sources = pair.waits.iter().map(Wait::source).chain(pair.packets.iter().map(Packet::source));
    sources.all(|source| source != asked)
}
