//! The original's port, with the 128 places that document 01 adds, the edge
//! byte, taking without blocking, and how many a cancel removes.

use crate::values::{signal_of, status, word_of};
use std::collections::{BTreeMap, VecDeque};
use std::future::Future;
use std::sync::Arc;
use std::task::{Context, Poll, Waker};
use zcore::object::{HandleValue, KernelObject, KoID};
use zcore::signal::{PacketSignal, PayloadRepr, Port, PortPacketRepr, WaitAsyncOptions};
use zcore::ZxError;

/// Places for waits and packets of a pair.
pub const PLACES: usize = 128;

/// An end, 0 or 1, and the handle that names it.
pub type NamedEnd = (usize, HandleValue);

/// An end, 0 or 1, and a key: what a wait is cancelled by.
pub type Source = (usize, u64);

/// A packet, and where it comes from.
#[derive(Clone, Copy, Debug, PartialEq)]
pub struct Fired {
    /// The end and the key of the wait.
    pub source: Source,
    /// The number of the wait, in the order of registration.
    pub wait: u64,
    /// The number of the call that fired it.
    pub call: u64,
    pub trigger: u32,
    pub observed: u32,
}

/// The waits and packets of a pair.
pub struct Waits {
    port: Arc<Port>,
    /// Gets the same waits as `port`, with a wait's number as the key, and is
    /// emptied after every call: so the harness knows which waits have fired
    /// without looking into the port.
    second: Arc<Port>,
    /// The waits that have not fired, by their numbers.
    waiting: BTreeMap<u64, Source>,
    fired: VecDeque<Fired>,
    registered: u64,
    calls: u64,
}

impl Default for Waits {
    fn default() -> Self {
        Waits::new()
    }
}

impl Waits {
    pub fn new() -> Waits {
        let port = || Port::new(0).expect("a port without options");
        Waits {
            port: port(),
            second: port(),
            waiting: BTreeMap::new(),
            fired: VecDeque::new(),
            registered: 0,
            calls: 0,
        }
    }

    /// Registers a wait at an end.
    pub fn register(
        &mut self,
        (end, handle): NamedEnd,
        object: &Arc<dyn KernelObject>,
        key: u64,
        mask: u32,
        edge: u8,
    ) -> Result<(), i64> {
        let options = match edge {
            0 => WaitAsyncOptions::empty(),
            1 => WaitAsyncOptions::EDGE,
            _ => return Err(status(ZxError::INVALID_ARGS)),
        };
        if self.used() >= PLACES {
            return Err(status(ZxError::NO_RESOURCES));
        }
        let object_and_handle = (object.id(), handle);
        self.port.wait_async(object, object_and_handle, key, signal_of(mask), options, None);
        self.second.wait_async(object, object_and_handle, self.registered, signal_of(mask), options, None);
        self.waiting.insert(self.registered, (end, key));
        self.registered += 1;
        Ok(())
    }

    /// Cancels the waits of an end with a key, and the packets that
    /// such waits made. The original answers no number: it is counted here.
    pub fn cancel(&mut self, (end, handle): NamedEnd, object: KoID, key: u64) -> Result<u64, i64> {
        let before = self.used();
        let done = self.port.cancel(Some((object, handle)), key);
        self.waiting.retain(|number, wait| {
            let goes = *wait == (end, key);
            if goes {
                let second = self.second.cancel(Some((object, handle)), *number);
                assert_eq!(second, Ok(()), "both ports have the same waits");
            }
            !goes
        });
        self.fired.retain(|packet| packet.source != (end, key));
        let removed = before - self.used();
        assert_eq!(done.is_ok(), removed > 0, "the port finds what was counted");
        done.map(|()| removed as u64).map_err(status)
    }

    /// The oldest packet and its key.
    pub fn take(&mut self) -> Result<(u64, Fired), i64> {
        let (key, signal) = take_from(&self.port).ok_or(status(ZxError::SHOULD_WAIT))?;
        assert_eq!((signal.count, signal.timestamp), (1, 0), "packets count 1 at time 0");
        let oldest = self.fired.pop_front().expect("a packet of a wait that fired");
        let taken = (key, word_of(signal.trigger), word_of(signal.observed));
        let expected = (oldest.source.1, oldest.trigger, oldest.observed);
        assert_eq!(taken, expected, "both ports have the same packets");
        Ok((key, oldest))
    }

    /// Drops the waits of an end, 0 or 1, that was closed.
    pub fn end_closed(&mut self, end: usize) {
        self.waiting.retain(|_, wait| wait.0 != end);
    }

    /// Moves the waits that fired during a call from waiting to fired.
    pub fn count_fired(&mut self) {
        self.calls += 1;
        while !self.waiting.is_empty() {
            let Some((wait, signal)) = take_from(&self.second) else { break };
            let source = self.waiting.remove(&wait).expect("a wait that has not fired");
            self.fired.push_back(Fired {
                source,
                wait,
                call: self.calls,
                trigger: word_of(signal.trigger),
                observed: word_of(signal.observed),
            });
        }
    }

    /// Waits that have not fired, oldest first.
    pub fn waiting(&self) -> impl ExactSizeIterator<Item = Source> + '_ {
        self.waiting.values().copied()
    }

    /// Packets that have not been taken, oldest first.
    pub fn fired(&self) -> impl ExactSizeIterator<Item = Fired> + '_ {
        self.fired.iter().copied()
    }

    /// The places in use.
    fn used(&self) -> usize {
        self.waiting.len() + self.fired.len()
    }
}

/// The oldest packet of a port, if it has one.
fn take_from(port: &Arc<Port>) -> Option<(u64, PacketSignal)> {
    let mut future = Box::pin(port.wait());
    let mut context = Context::from_waker(Waker::noop());
    match future.as_mut().poll(&mut context) {
        Poll::Pending => None,
        Poll::Ready(packet) => {
            let packet = PortPacketRepr::from(&packet);
            match packet.data {
                PayloadRepr::Signal(signal) => Some((packet.key, signal)),
                other => panic!("a packet that no wait makes: {other:?}"),
            }
        }
    }
}
