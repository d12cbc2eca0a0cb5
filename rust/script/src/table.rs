//! The table of records: a row for each tag. A row is all that the text form, the explanation and the page
//! know of a record; a record that changes queues, thresholds, waits, packets or memory names the function
//! that follows it.

use crate::names::{
    Values, DISPOSITION, HANDLE, KIND, PEER_CLOSED, PEER_WRITE_DISABLED, READABLE, READ_OPTIONS,
    READ_THRESHOLD, RIGHTS, SHUTDOWN_OPTIONS, SIGNAL_WORD, WRITABLE, WRITE_DISABLED, WRITE_THRESHOLD,
};
use crate::pair;
use crate::record::{Adds, Field, Part, Record, Refusal, Shape, Side, MOST_FILL};
use crate::refusals::{self as when, NO_END};
use Side::{Own, Peer};

const fn field(name: &'static str, size: usize, values: Values) -> Field {
    Field { name, size, values }
}

const fn number(name: &'static str, size: usize) -> Field {
    field(name, size, Values::Number)
}

const fn refusal(status: i64, reason: &'static str, holds: fn(&pair::Pair, &Record) -> bool) -> Refusal {
    Refusal { status, reason, holds }
}

const fn decimal(name: &'static str, values: Values) -> Part {
    Part { name, digits: 0, values }
}

const ENDS_HANDLE: Field = field("handle", 4, HANDLE);
const THRESHOLD: &[Field] = &[ENDS_HANDLE, number("threshold", 8)];
/// Bits of an end that the bytes of its own queue decide.
const OF_QUEUE: u32 = READABLE | READ_THRESHOLD;
/// Bits of an end that the space at its peer decides.
const OF_SPACE: u32 = WRITABLE | WRITE_THRESHOLD;
/// Bits of an end that enabling and disabling its writing changes.
const OF_WRITING: u32 = WRITABLE | WRITE_DISABLED;

/// The records by tag.
pub const SHAPES: &[Shape] = &[
    Shape {
        name: "create",
        fields: &[
            field("kind", 4, KIND),
            number("capacity", 4),
            field("rights1", 1, RIGHTS),
            field("rights2", 1, RIGHTS),
        ],
        bytes: None,
        says: &["create a {kind} pair, capacity {capacity}, rights {rights1} and {rights2}"],
        done: "the pair is made",
        adds: Adds::Nothing,
        refusals: &[
            refusal(-10, "the kind is neither stream nor datagram", when::odd_kind),
            refusal(
                -10,
                "the capacity is not from 1 to 4096, the entries of the program's rings",
                when::odd_capacity,
            ),
            refusal(-10, "a rights word is above 7", when::odd_rights),
        ],
        changes: &[],
        follow: pair::created,
    },
    Shape {
        name: "write",
        fields: &[
            ENDS_HANDLE,
            number("options", 4),
            number("address", 8),
            number("count", 8),
            number("count_at", 8),
        ],
        bytes: None,
        says: &[
            "write {count} bytes of memory at {address} through {handle}",
            "options {options}",
            "the count to {count_at}",
        ],
        done: "{} bytes taken",
        adds: Adds::Nothing,
        refusals: &[
            refusal(-10, "the options are not 0", when::any_options),
            refusal(-10, "the address is 0 with a count above 0", when::null_address),
            NO_END,
            refusal(-30, "the end lacks the right to write", when::no_right_to_write),
            refusal(-10, "the count is above 4294967295", when::count_above_32_bits),
            refusal(-20, "writing is disabled at this end", when::write_disabled),
            refusal(-24, "the other end is closed", when::peer_closed),
            refusal(-22, "the queue of the other end is full", when::peer_full),
            refusal(-14, "the datagram is longer than the capacity", when::datagram_above_capacity),
            refusal(
                -22,
                "the space at the other end is too small for the datagram",
                when::datagram_above_space,
            ),
            refusal(-10, "the bytes do not all lie in memory", when::write_outside_memory),
            refusal(-10, "the count's 8 bytes do not all lie in memory", when::count_outside_memory),
            refusal(-10, "the datagram is empty", when::empty_datagram),
        ],
        changes: &[(Peer, OF_QUEUE), (Own, OF_SPACE)],
        follow: pair::written,
    },
    Shape {
        name: "read",
        fields: &[
            ENDS_HANDLE,
            field("options", 4, READ_OPTIONS),
            number("address", 8),
            number("count", 8),
            number("count_at", 8),
        ],
        bytes: None,
        says: &[
            "read up to {count} bytes of {handle} to memory at {address}",
            "options {options}",
            "the count to {count_at}",
        ],
        done: "{} bytes delivered",
        adds: Adds::Bytes,
        refusals: &[
            refusal(-10, "the address is 0 with a count above 0", when::null_address),
            refusal(-10, "the options are neither 0 nor peek", when::odd_read_options),
            NO_END,
            refusal(-30, "the end lacks the right to read", when::no_right_to_read),
            refusal(-10, "the range of the whole count does not lie in memory", when::read_outside_memory),
            refusal(-10, "the count's 8 bytes do not all lie in memory", when::count_outside_memory),
            refusal(-24, "the queue is empty and the other end is closed", when::empty_and_peer_closed),
            refusal(-20, "the queue is empty and reading is disabled", when::empty_and_disabled),
            refusal(-22, "the queue is empty", when::empty),
        ],
        changes: &[(Own, OF_QUEUE), (Peer, OF_SPACE)],
        follow: pair::read,
    },
    Shape {
        name: "disposition",
        fields: &[ENDS_HANDLE, field("own", 4, DISPOSITION), field("peer", 4, DISPOSITION)],
        bytes: None,
        says: &["set the disposition of {handle}: own writing {own}, the peer's {peer}"],
        done: "",
        adds: Adds::Nothing,
        refusals: &[
            refusal(-10, "a disposition is none of none, disable and enable", when::odd_disposition),
            NO_END,
            refusal(-30, "the end lacks the right to manage", when::no_right_to_manage),
            refusal(
                -20,
                "own writing cannot be enabled while the peer has bytes queued from before",
                when::own_backlog,
            ),
            refusal(
                -20,
                "the peer's writing cannot be enabled while bytes are queued here from before",
                when::peer_backlog,
            ),
        ],
        changes: &[
            (Own, OF_WRITING),
            (Peer, PEER_WRITE_DISABLED),
            (Peer, OF_WRITING),
            (Own, PEER_WRITE_DISABLED),
        ],
        follow: pair::disposed,
    },
    Shape {
        name: "shutdown",
        fields: &[ENDS_HANDLE, field("options", 4, SHUTDOWN_OPTIONS)],
        bytes: None,
        says: &["shut down {handle}: {options}"],
        done: "",
        adds: Adds::Nothing,
        refusals: &[NO_END, refusal(-30, "the end lacks the right to write", when::no_right_to_write)],
        changes: &[(Own, OF_WRITING | PEER_WRITE_DISABLED), (Peer, OF_WRITING | PEER_WRITE_DISABLED)],
        follow: pair::shut_down,
    },
    Shape {
        name: "read_threshold",
        fields: THRESHOLD,
        bytes: None,
        says: &["set the read threshold of {handle} to {threshold}"],
        done: "",
        adds: Adds::Nothing,
        refusals: &[
            NO_END,
            refusal(-10, "the threshold is above the capacity", when::threshold_above_capacity),
        ],
        changes: &[(Own, READ_THRESHOLD)],
        follow: pair::read_threshold_set,
    },
    Shape {
        name: "write_threshold",
        fields: THRESHOLD,
        bytes: None,
        says: &["set the write threshold of {handle} to {threshold}"],
        done: "",
        adds: Adds::Nothing,
        refusals: &[
            NO_END,
            refusal(-24, "the other end is closed", when::peer_closed),
            refusal(-10, "the threshold is above the capacity", when::threshold_above_capacity),
        ],
        changes: &[(Own, WRITE_THRESHOLD)],
        follow: pair::write_threshold_set,
    },
    Shape {
        name: "info",
        fields: &[ENDS_HANDLE],
        bytes: None,
        says: &["ask for the info record of {handle}"],
        done: "",
        adds: Adds::Numbers(&[
            decimal("kind", KIND),
            decimal("capacity", Values::Number),
            decimal("queued", Values::Number),
            decimal("available", Values::Number),
            decimal("peer's capacity", Values::Number),
            decimal("peer's queued", Values::Number),
        ]),
        refusals: &[NO_END],
        changes: &[],
        follow: pair::asked_for_info,
    },
    Shape {
        name: "close",
        fields: &[ENDS_HANDLE],
        bytes: None,
        says: &["close {handle}"],
        done: "its queue and its waits are gone",
        adds: Adds::Nothing,
        refusals: &[NO_END],
        changes: &[(Peer, WRITABLE | PEER_CLOSED)],
        follow: pair::closed,
    },
    Shape {
        name: "wait",
        fields: &[ENDS_HANDLE, number("key", 8), field("mask", 4, SIGNAL_WORD), number("edge", 1)],
        bytes: None,
        says: &["wait at {handle} for {mask}, key {key}", "from the next change on (edge {edge})"],
        done: "the wait is registered",
        adds: Adds::Nothing,
        refusals: &[
            NO_END,
            refusal(-10, "the edge byte is neither 0 nor 1", when::odd_edge),
            refusal(-3, "all 128 places are used by waits and packets", when::no_place),
        ],
        changes: &[],
        follow: pair::wait_registered,
    },
    Shape {
        name: "take",
        fields: &[],
        bytes: None,
        says: &["take the oldest packet"],
        done: "",
        adds: Adds::Numbers(&[
            Part { name: "key", digits: 16, values: Values::Number },
            Part { name: "trigger", digits: 8, values: SIGNAL_WORD },
            Part { name: "observed", digits: 8, values: SIGNAL_WORD },
        ]),
        refusals: &[refusal(-22, "there is no packet", when::no_packet)],
        changes: &[],
        follow: pair::packet_taken,
    },
    Shape {
        name: "fill",
        fields: &[number("address", 8)],
        bytes: Some((1, MOST_FILL)),
        says: &["fill memory at {address} with {bytes}"],
        done: "{} bytes put",
        adds: Adds::Nothing,
        refusals: &[refusal(-10, "the bytes do not all lie in memory", when::fill_outside_memory)],
        changes: &[],
        follow: pair::filled,
    },
    Shape {
        name: "cancel",
        fields: &[ENDS_HANDLE, number("key", 8)],
        bytes: None,
        says: &["cancel the waits and packets of {handle} with key {key}"],
        done: "{} of its waits and packets removed",
        adds: Adds::Nothing,
        refusals: &[
            NO_END,
            refusal(-25, "the end has no wait and no packet with this key", when::nothing_to_cancel),
        ],
        changes: &[],
        follow: pair::cancelled,
    },
];
