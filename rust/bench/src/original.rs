//! The original's objects.

use crate::sides::{Mask, Side, BATCH, COUNT};
use std::future::Future;
use std::hint::black_box;
use std::pin::pin;
use std::sync::Arc;
use std::task::{Context, Poll, Waker};
use zcore::object::{HandleValue, KernelObject, KoID, Signal};
use zcore::signal::{PayloadRepr, Port, PortPacketRepr, WaitAsyncOptions};
use zcore::untouched::Socket;

/// Both ends of a pair.
type Ends = (Arc<Socket>, Arc<Socket>);

/// The original's objects, with its own capacity of 262144. A port is one of its own there; it stands for
/// the places of an exported pair.
///
/// A row that asks for a smaller capacity does so for the exported pair's ring, which is to wrap. The
/// original's queue has a buffer that grows to what is queued, so that the same bytes wrap in it too;
/// neither side gets full in such a row, so that the capacity shows in nothing else. In the wrapped rows of
/// the largest size each read empties the queue, whose buffer then begins anew: there the original's bytes
/// lie in one piece.
pub struct Original {
    kind: u32,
    ends: Ends,
    reader: Arc<dyn KernelObject>,
    port: Arc<Port>,
    batch: Vec<(Ends, Arc<Port>)>,
    memory: Vec<u8>,
}

const DONE: &str = "a call that is done";

/// The bytes of user memory, and the place of the count behind them.
fn split(memory: &mut [u8]) -> (&mut [u8], &mut [u8]) {
    memory.split_at_mut(memory.len() - COUNT)
}

impl Original {
    /// What the waits at the reader are known by.
    fn source(&self) -> (KoID, HandleValue) {
        (self.reader.id(), 2)
    }
}

impl Side for Original {
    fn new(kind: u32, _capacity: u32) -> Self {
        let ends = Socket::create(kind).expect("a good kind");
        let reader = ends.1.clone();
        let port = Port::new(0).expect("a port");
        Original { kind, ends, reader, port, batch: Vec::with_capacity(BATCH), memory: Vec::new() }
    }

    fn write(&mut self, bytes: &[u8]) -> usize {
        self.ends.0.write(bytes).expect(DONE)
    }

    fn read(&mut self, buffer: &mut [u8]) -> usize {
        self.ends.1.read(false, buffer).expect(DONE)
    }

    fn map(&mut self, bytes: usize) {
        self.memory = vec![7; bytes + COUNT];
    }

    /// After `sys_socket_write`, from its lookup of the handle on, with slices for the user pointers.
    fn user_write(&mut self) -> usize {
        let (data, count_at) = split(&mut self.memory);
        let size = self.ends.0.write_size(data.len()).expect(DONE);
        let count = self.ends.0.write(&data[..size]).expect(DONE);
        count_at.copy_from_slice(&count.to_le_bytes());
        count
    }

    /// After `sys_socket_read`, in the same way. It reads into a vector of its own first.
    fn user_read(&mut self) -> usize {
        let (data, count_at) = split(&mut self.memory);
        let mut read = vec![0; data.len()];
        let count = self.ends.1.read(false, &mut read).expect(DONE);
        data[..count].copy_from_slice(&read[..count]);
        count_at.copy_from_slice(&count.to_le_bytes());
        count
    }

    fn wait(&mut self, key: u64, mask: Mask) {
        let signal = match mask {
            Mask::Readable => Signal::READABLE,
            Mask::PeerClosed => Signal::PEER_CLOSED,
        };
        let source = self.source();
        self.port.wait_async(&self.reader, source, key, signal, WaitAsyncOptions::empty(), None);
    }

    fn cancel(&mut self, key: u64) {
        self.port.cancel(Some(self.source()), key).expect(DONE);
    }

    fn take(&mut self) -> u64 {
        let future = pin!(self.port.wait());
        match future.poll(&mut Context::from_waker(Waker::noop())) {
            Poll::Ready(packet) => match PortPacketRepr::from(&packet) {
                PortPacketRepr { key, data: PayloadRepr::Signal(_), .. } => key,
                _ => panic!("a packet that no wait makes"),
            },
            Poll::Pending => panic!("no packet"),
        }
    }

    fn info(&mut self) {
        black_box(&self.ends.1.get_info());
    }

    fn create_batch(&mut self) {
        for _ in 0..BATCH {
            let ends = Socket::create(self.kind).expect("a good kind");
            self.batch.push((ends, Port::new(0).expect("a port")));
        }
    }

    fn close_batch(&mut self) {
        self.batch.clear();
    }

    fn first_write(_capacity: u32, bytes: &[u8]) -> usize {
        let ends = Socket::create(0).expect("a good kind");
        let port = Port::new(0).expect("a port");
        let count = ends.0.write(bytes).expect(DONE);
        black_box((ends, port));
        count
    }
}
