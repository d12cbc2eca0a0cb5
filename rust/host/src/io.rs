//! Ends as readers and writers of the standard library.

use crate::{End, SocketPair, Status};
use std::io::{Error, ErrorKind, Read, Result, Write};

/// A view of one end of a stream pair that is a reader and a writer. Nothing blocks.
///
/// | Call | Status | Answer |
/// |---|---|---|
/// | `read` | `PeerClosed`: nothing is queued, and the peer is closed | `Ok(0)`, the end of the file |
/// | `read` | `BadState`: nothing is queued, and reading is disabled | `Ok(0)`, the end of the file |
/// | `read` | `ShouldWait`: nothing is queued | `WouldBlock` |
/// | `write` | `PeerClosed`: the peer is closed | `BrokenPipe` |
/// | `write` | `BadState`: writing is disabled | `BrokenPipe` |
/// | `write` | `ShouldWait`: there is no space | `WouldBlock` |
/// | `write` | `InvalidArgs`: more than 4294967295 bytes | `InvalidInput` |
/// | both | `BadHandle`: the end itself is closed | `NotConnected` |
///
/// After a `BadState` more can follow: a disposition can enable the peer's writing again. An empty buffer
/// gets `WouldBlock` where nothing is queued, or no space. `flush` does nothing, since nothing is held back.
/// The [`Status`] is the source of each error: [`Error::get_ref`] has it.
///
/// ```
/// use murgwethan::{End, Record, Rights, SocketPair};
/// use std::io::{BufRead, BufReader, Write};
///
/// # fn main() -> Result<(), Box<dyn std::error::Error>> {
/// let (mut record, mut ring_one, mut ring_two) = (Record::UNMADE, [0; 64], [0; 64]);
/// let rings = [&mut ring_one[..], &mut ring_two];
/// let mut pair = SocketPair::stream(&mut record, 64, [Rights::ALL; 2], rings).expect("a pair");
/// writeln!(pair.io(End::One).expect("a stream"), "lead {}", 11.34)?;
/// let mut line = String::new();
/// BufReader::new(pair.io(End::Two).expect("a stream")).read_line(&mut line)?;
/// assert_eq!(line, "lead 11.34\n");
/// # Ok(())
/// # }
/// ```
#[derive(Debug)]
pub struct EndIo<'p, 'a> {
    pair: &'p mut SocketPair<'a>,
    end: End,
}

impl<'a> SocketPair<'a> {
    /// An end as a reader and a writer. Nothing on a datagram pair: a reader with a short buffer would lose
    /// the rest of a datagram. The standard library's datagram sockets are no readers either.
    pub fn io(&mut self, end: End) -> Option<EndIo<'_, 'a>> {
        if self.is_datagram() {
            return None;
        }
        Some(EndIo { pair: self, end })
    }
}

impl Read for EndIo<'_, '_> {
    fn read(&mut self, buffer: &mut [u8]) -> Result<usize> {
        match self.pair.read(self.end, buffer) {
            Err(Status::PeerClosed | Status::BadState) => Ok(0),
            answer => Ok(answer?),
        }
    }
}

impl Write for EndIo<'_, '_> {
    fn write(&mut self, bytes: &[u8]) -> Result<usize> {
        Ok(self.pair.write(self.end, bytes)?)
    }

    fn flush(&mut self) -> Result<()> {
        Ok(())
    }
}

impl From<Status> for Error {
    fn from(status: Status) -> Error {
        let kind = match status {
            Status::ShouldWait => ErrorKind::WouldBlock,
            Status::PeerClosed | Status::BadState => ErrorKind::BrokenPipe,
            Status::BadHandle => ErrorKind::NotConnected,
            Status::InvalidArgs | Status::OutOfRange => ErrorKind::InvalidInput,
            Status::AccessDenied => ErrorKind::PermissionDenied,
            Status::NotFound => ErrorKind::NotFound,
            Status::NoResources | Status::Internal => ErrorKind::Other,
        };
        Error::new(kind, status)
    }
}
