//! Where the original, called directly, does other than documents 01 and 02 (i).
//! The harness stands between in each of these, so no script shows them.

use std::future::Future;
use std::sync::Arc;
use std::task::{Context, Poll, Waker};
use zcore::capacity::set_socket_size;
use zcore::ipc::Socket;
use zcore::object::{Handle, KernelObject, Rights, Signal};
use zcore::signal::{Port, WaitAsyncOptions};
use zcore::task::{Job, Process};
use zcore::ZxError;

/// The key of the oldest packet, or nothing where the original would block.
fn taken_key(port: &Arc<Port>) -> Option<u64> {
    let mut future = Box::pin(port.wait());
    match future.as_mut().poll(&mut Context::from_waker(Waker::noop())) {
        Poll::Ready(packet) => Some(packet.key),
        Poll::Pending => None,
    }
}

fn register(port: &Arc<Port>, object: &Arc<dyn KernelObject>, key: u64, signals: Signal) {
    port.wait_async(object, (object.id(), 0), key, signals, WaitAsyncOptions::empty(), None);
}

/// Document 01: packets outlive the end. The original drops them at the take
/// if the wait was made with the handle's cancel token.
#[test]
fn a_closed_handles_packets_are_dropped_with_its_token() {
    set_socket_size(8);
    let (end, _peer) = Socket::create(0).unwrap();
    let process = Process::create(&Job::root(), "test").unwrap();
    let handle = process.add_handle(Handle::new(end.clone(), Rights::WAIT));
    let token = process.get_cancel_token(handle).unwrap();
    let object: Arc<dyn KernelObject> = end;
    let port = Port::new(0).unwrap();
    let options = WaitAsyncOptions::empty();
    port.wait_async(&object, (object.id(), handle), 1, Signal::WRITABLE, options, Some(token));
    register(&port, &object, 2, Signal::WRITABLE);
    drop(process.remove_handle(handle));
    assert_eq!(taken_key(&port), Some(2));
}

/// Document 01: 128 places, then −3. The original has no limit.
#[test]
fn the_port_takes_any_number_of_waits() {
    let (end, _peer) = Socket::create(0).unwrap();
    let object: Arc<dyn KernelObject> = end;
    let port = Port::new(0).unwrap();
    for key in 0..1000 {
        register(&port, &object, key, Signal::WRITABLE);
    }
    assert!((0..1000).all(|key| taken_key(&port) == Some(key)));
}

/// Document 01: taking from an empty queue is −22. The original blocks.
#[test]
fn an_empty_port_blocks() {
    assert_eq!(taken_key(&Port::new(0).unwrap()), None);
}

/// 02 (i): −11 for a closed end, and else the number removed. The original
/// cancels waits and packets of a closed end too, and answers no number.
#[test]
fn cancel_finds_waits_and_packets_of_a_closed_end() {
    for signal in [Signal::READABLE, Signal::WRITABLE] {
        let (end, _peer) = Socket::create(0).unwrap();
        let object: Arc<dyn KernelObject> = end;
        let source = (object.id(), 0);
        let port = Port::new(0).unwrap();
        register(&port, &object, 1, signal);
        register(&port, &object, 1, signal);
        drop(object);
        assert_eq!(port.cancel(Some(source), 1), Ok(()));
        assert_eq!(port.cancel(Some(source), 1), Err(ZxError::NOT_FOUND));
        assert_eq!(taken_key(&port), None);
    }
}

/// 02 (i): the end counts. The original can be asked for a key alone.
#[test]
fn cancel_without_a_source_is_for_both_ends() {
    let (one, two) = Socket::create(0).unwrap();
    let port = Port::new(0).unwrap();
    let ends: [Arc<dyn KernelObject>; 2] = [one, two];
    ends.iter().for_each(|end| register(&port, end, 1, Signal::WRITABLE));
    assert_eq!(port.cancel(None, 1), Ok(()));
    assert_eq!(taken_key(&port), None);
}
