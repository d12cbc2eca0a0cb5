//! Why a call is refused.

use core::fmt;

/// Why a call is refused. A refused call changes nothing. The numbers are Zircon's.
///
/// ```
/// use murgwethan::Status;
///
/// assert_eq!(i64::from(Status::ShouldWait), -22);
/// assert_eq!(Status::try_from(-22), Ok(Status::ShouldWait));
/// assert_eq!(Status::ShouldWait.to_string(), "SHOULD_WAIT (-22)");
/// ```
#[derive(Clone, Copy, Debug, Eq, Hash, PartialEq)]
#[repr(i64)]
pub enum Status {
    /// The record is one that no run leaves. A [`SocketPair`](crate::SocketPair) never answers it.
    Internal = -1,
    /// All places for waits and packets are used.
    NoResources = -3,
    /// An argument is not one of those allowed, or a range does not lie in user memory.
    InvalidArgs = -10,
    /// The end is closed, or the handle is neither 1 nor 2.
    BadHandle = -11,
    /// The datagram is larger than the capacity.
    OutOfRange = -14,
    /// Writing or reading is disabled, or bytes are still queued.
    BadState = -20,
    /// There is nothing to take, or no space to write to, at present.
    ShouldWait = -22,
    /// The other end is closed.
    PeerClosed = -24,
    /// Nothing of the end has the key.
    NotFound = -25,
    /// The end lacks the right.
    AccessDenied = -30,
}

impl Status {
    /// Every status.
    pub const ALL: [Status; 10] = [
        Status::Internal,
        Status::NoResources,
        Status::InvalidArgs,
        Status::BadHandle,
        Status::OutOfRange,
        Status::BadState,
        Status::ShouldWait,
        Status::PeerClosed,
        Status::NotFound,
        Status::AccessDenied,
    ];

    /// The status of a number, if it is one's. An answer's word is a status if it is negative.
    pub fn from_number(number: i64) -> Option<Status> {
        Status::ALL.into_iter().find(|status| status.number() == number)
    }

    /// The status as a negative number.
    pub const fn number(self) -> i64 {
        self as i64
    }

    /// The name in document 01 or 02, and in Zircon.
    pub const fn name(self) -> &'static str {
        match self {
            Status::Internal => "INTERNAL",
            Status::NoResources => "NO_RESOURCES",
            Status::InvalidArgs => "INVALID_ARGS",
            Status::BadHandle => "BAD_HANDLE",
            Status::OutOfRange => "OUT_OF_RANGE",
            Status::BadState => "BAD_STATE",
            Status::ShouldWait => "SHOULD_WAIT",
            Status::PeerClosed => "PEER_CLOSED",
            Status::NotFound => "NOT_FOUND",
            Status::AccessDenied => "ACCESS_DENIED",
        }
    }
}

impl fmt::Display for Status {
    fn fmt(&self, formatter: &mut fmt::Formatter<'_>) -> fmt::Result {
        write!(formatter, "{} ({})", self.name(), self.number())
    }
}

impl core::error::Error for Status {}

impl From<Status> for i64 {
    fn from(status: Status) -> i64 {
        status.number()
    }
}

/// A number that is no status.
#[derive(Clone, Copy, Debug, Eq, Hash, PartialEq)]
pub struct UnknownStatus(pub i64);

impl fmt::Display for UnknownStatus {
    fn fmt(&self, formatter: &mut fmt::Formatter<'_>) -> fmt::Result {
        write!(formatter, "{} is no status", self.0)
    }
}

impl core::error::Error for UnknownStatus {}

impl TryFrom<i64> for Status {
    type Error = UnknownStatus;

    fn try_from(number: i64) -> Result<Status, UnknownStatus> {
        Status::from_number(number).ok_or(UnknownStatus(number))
    }
}

/// The count of an answer's word, or its status. The library answers no other negative number than a
/// status; one would be taken for `Internal`.
pub(crate) fn answer(word: i64) -> Result<usize, Status> {
    match usize::try_from(word) {
        Ok(count) => Ok(count),
        Err(_) => Err(Status::from_number(word).unwrap_or(Status::Internal)),
    }
}

/// The answer of a call without a count.
pub(crate) fn done(word: i64) -> Result<(), Status> {
    answer(word).map(|_| ())
}
