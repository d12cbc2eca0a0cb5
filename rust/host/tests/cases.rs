//! Document 01's cases at the edges, and cancel (02 (i)), through the types of this crate. C is 8.

mod support;

use murgwethan::Status::{
    AccessDenied, BadHandle, BadState, InvalidArgs, NoResources, NotFound, OutOfRange, PeerClosed, ShouldWait,
};
use murgwethan::{
    Disposition, Dispositions, End, Info, Record, Rights, Shutdown, Signals, SocketPair, Status, Transfer,
    UserMemory, WaitMode, MOST_CAPACITY,
};
use support::pairs::{datagram, stream, stream_with, C};

fn words(pair: &SocketPair<'_>) -> [Option<u32>; 2] {
    [End::One, End::Two].map(|end| pair.signals(end).map(Signals::bits))
}

/// What is done to the writing of the end of the call alone.
fn own(own: Disposition) -> Dispositions {
    Dispositions { own, ..Dispositions::default() }
}

fn read(pair: &mut SocketPair<'_>, end: End, n: usize) -> Result<Vec<u8>, Status> {
    let mut buffer = vec![0; n];
    let count = pair.read(end, &mut buffer)?;
    buffer.truncate(count);
    Ok(buffer)
}

#[test]
fn p1_to_p3_stream_sizes() {
    stream(|pair| assert_eq!(pair.write(End::One, b""), Ok(0)));
    stream(|pair| {
        assert_eq!(pair.write(End::One, &[1; 10]), Ok(8));
        assert_eq!(words(pair), [Some(0), Some(3)]);
        assert_eq!(pair.write(End::One, b""), Err(ShouldWait));
    });
}

#[test]
fn p4_to_p7_datagrams() {
    datagram(|pair| assert_eq!(pair.write(End::One, b""), Err(InvalidArgs)));
    datagram(|pair| {
        assert_eq!(pair.write(End::One, &[1; 9]), Err(OutOfRange));
        assert_eq!(pair.write(End::One, &[1; 8]), Ok(8));
        assert_eq!(pair.write(End::One, &[1; 9]), Err(ShouldWait));
    });
    datagram(|pair| {
        assert_eq!((pair.write(End::One, b"abc"), pair.write(End::One, b"de")), (Ok(3), Ok(2)));
        assert_eq!(read(pair, End::Two, 0), Ok(vec![]));
        assert_eq!(read(pair, End::Two, 2), Ok(b"ab".to_vec()));
        assert_eq!(pair.peek(End::Two, &mut [0; 5]), Ok(2));
        assert_eq!(read(pair, End::Two, 2), Ok(b"de".to_vec()));
    });
}

#[test]
fn p8_and_p9_empty_queue_and_threshold() {
    stream(|pair| {
        assert_eq!(pair.shutdown(End::Two, Shutdown::Read), Ok(()));
        assert_eq!(read(pair, End::Two, 1), Err(BadState));
        assert_eq!(pair.close(End::One), Ok(()));
        assert_eq!(read(pair, End::Two, 1), Err(PeerClosed));
        assert_eq!(pair.set_write_threshold(End::Two, 9), Err(PeerClosed));
        assert_eq!(pair.close(End::One), Err(BadHandle));
    });
    stream(|pair| {
        assert_eq!(pair.set_write_threshold(End::One, 9), Err(InvalidArgs));
        assert_eq!(pair.set_write_threshold(End::One, 8), Ok(()));
        assert_eq!(pair.thresholds(End::One).map(|set| (set.read, set.write)), Ok((0, 8)));
    });
}

#[test]
fn p10_shutdown_of_both() {
    stream(|pair| {
        assert_eq!(pair.user_shutdown(1, 3), Ok(()));
        assert_eq!(words(pair), [Some(0x30), Some(0x2)]);
    });
    stream(|pair| {
        assert_eq!(pair.user_shutdown(1, 0), Ok(()));
        assert_eq!(words(pair), [Some(0x2), Some(0x30)]);
    });
}

#[test]
fn p11_enable_over_queued_bytes() {
    stream(|pair| {
        assert_eq!(pair.write(End::One, b"a"), Ok(1));
        assert_eq!(pair.set_disposition(End::One, own(Disposition::Disable)), Ok(()));
        assert_eq!(pair.set_disposition(End::One, own(Disposition::Enable)), Err(BadState));
        assert_eq!(pair.user_set_disposition(1, 3, 0), Err(InvalidArgs));
    });
}

#[test]
fn p12_newest_wait_first() {
    stream(|pair| {
        for key in [1, 2] {
            assert_eq!(pair.wait(End::Two, key, Signals::READABLE, WaitMode::Level), Ok(()));
        }
        assert_eq!(pair.write(End::One, b"a"), Ok(1));
        let newest = pair.take().expect("a packet");
        assert_eq!((newest.key, newest.trigger), (2, Signals::READABLE));
        assert_eq!(newest.observed, Signals::READABLE | Signals::WRITABLE);
        assert_eq!((newest.count, newest.timestamp), (1, 0));
        let keys = [pair.take(), pair.take()].map(|taken| taken.map(|packet| packet.key));
        assert_eq!(keys, [Ok(1), Err(ShouldWait)]);
    });
}

#[test]
fn p13_disabled_writer_of_a_full_queue() {
    stream(|pair| {
        assert_eq!(pair.write(End::One, &[1; 8]), Ok(8));
        assert_eq!(pair.set_disposition(End::One, own(Disposition::Disable)), Ok(()));
        assert_eq!(read(pair, End::Two, 1), Ok(vec![1]));
        assert_eq!(words(pair)[0], Some(0x22));
    });
}

#[test]
fn p14_range_of_what_a_write_takes() {
    let asked = |address| Transfer { options: 0, address, count: 100, count_at: 0 };
    for (address, answer) in [(4104, Ok(8)), (4105, Err(InvalidArgs))] {
        stream(|pair| {
            let memory = UserMemory { base: 4096, bytes: &mut [0; 16] };
            assert_eq!(pair.user_write(1, memory, asked(address)), answer);
        });
    }
}

#[test]
fn rights_are_asked_of_system_calls_only() {
    stream_with(Rights::NONE, |pair| {
        let asked = Transfer { options: 0, address: 4096, count: 4, count_at: 0 };
        let bytes = &mut [0; 16];
        assert_eq!(pair.user_write(1, UserMemory { base: 4096, bytes }, asked), Err(AccessDenied));
        assert_eq!(pair.user_read(1, UserMemory { base: 4096, bytes }, asked), Err(AccessDenied));
        assert_eq!(pair.user_shutdown(1, 0), Err(AccessDenied));
        assert_eq!(pair.user_set_disposition(1, 0, 0), Err(AccessDenied));
        assert_eq!(pair.user_shutdown(3, 0), Err(BadHandle));
        assert_eq!(pair.write(End::One, b"a"), Ok(1));
    });
}

#[test]
fn user_memory_gets_bytes_and_then_their_count() {
    stream(|pair| {
        let bytes = &mut [9; 16];
        assert_eq!(pair.write(End::One, b"abcd"), Ok(4));
        let asked = Transfer { options: 8, address: 65_536, count: 16, count_at: 65_538 };
        assert_eq!(pair.user_read(2, UserMemory { base: 65_536, bytes }, asked), Ok(4));
        assert_eq!(bytes, b"ab\x04\0\0\0\0\0\0\0\x09\x09\x09\x09\x09\x09");
        let info = pair.info(End::Two).expect("an open end");
        assert_eq!((info.queued, info.available, info.peer_queued), (4, 4, 0));
    });
}

#[test]
fn info_tells_the_sizes_of_both_queues() {
    datagram(|pair| {
        assert_eq!((pair.write(End::One, b"abc"), pair.write(End::One, b"de")), (Ok(3), Ok(2)));
        assert_eq!(pair.write(End::Two, b"f"), Ok(1));
        let expected =
            Info { options: 1, capacity: C, queued: 5, available: 3, peer_capacity: C, peer_queued: 1 };
        assert_eq!(pair.info(End::Two), Ok(expected));
        assert_eq!(pair.close(End::One), Ok(()));
        assert_eq!(pair.info(End::Two), Ok(Info { peer_capacity: 0, peer_queued: 0, ..expected }));
        assert_eq!(pair.info(End::One), Err(BadHandle));
    });
}

#[test]
fn all_places_used() {
    stream(|pair| {
        for key in 0..128 {
            assert_eq!(pair.wait(End::One, key, Signals::PEER_CLOSED, WaitMode::Level), Ok(()));
        }
        assert_eq!(pair.wait(End::One, 0, Signals::PEER_CLOSED, WaitMode::Level), Err(NoResources));
        assert_eq!(pair.close(End::Two), Ok(()));
        let packet = pair.take().expect("a packet");
        assert_eq!((packet.key, packet.observed, packet.count), (127, Signals::PEER_CLOSED, 1));
        assert_eq!(pair.wait(End::One, 0, Signals::PEER_CLOSED, WaitMode::Edge), Ok(()));
    });
}

#[test]
fn cancelled_waits_do_not_fire_and_their_places_are_free() {
    stream_with(Rights::NONE, |pair| {
        for key in 0..128 {
            assert_eq!(pair.wait(End::Two, key / 2, Signals::READABLE, WaitMode::Level), Ok(()));
        }
        assert_eq!((pair.cancel(End::One, 7), pair.cancel(End::Two, 64)), (Err(NotFound), Err(NotFound)));
        assert_eq!((pair.cancel(End::Two, 7), pair.cancel(End::Two, 7)), (Ok(2), Err(NotFound)));
        assert_eq!(words(pair), [Some(2); 2]);
        for answer in [Ok(()), Ok(()), Err(NoResources)] {
            assert_eq!(pair.wait(End::One, 7, Signals::WRITABLE, WaitMode::Level), answer);
        }
        assert_eq!(pair.write(End::One, b"a"), Ok(1));
        assert_eq!((pair.cancel(End::Two, 8), pair.close(End::Two)), (Ok(2), Ok(())));
        assert_eq!(pair.cancel(End::Two, 9), Err(BadHandle));
        let taken = std::iter::from_fn(|| pair.take().ok()).map(|packet| packet.key);
        let due = [7, 7]
            .into_iter()
            .chain((0..64).rev().filter(|key| ![7, 8].contains(key)).flat_map(|key| [key; 2]));
        assert!(taken.eq(due));
    });
}

/// Creates a stream pair over rings of these lengths.
fn create_stream(capacity: usize, rings: [usize; 2]) -> Result<(), Status> {
    let (mut record, [mut one, mut two]) = (Record::UNMADE, rings.map(|len| vec![0; len]));
    SocketPair::stream(&mut record, capacity, [Rights::ALL; 2], [&mut one, &mut two])?;
    Ok(())
}

/// Creates a datagram pair over rings and tables of these lengths.
fn create_datagram(capacity: usize, rings: [usize; 2], tables: [usize; 2]) -> Result<(), Status> {
    let (mut record, [mut ring_one, mut ring_two]) = (Record::UNMADE, rings.map(|len| vec![0; len]));
    let [mut table_one, mut table_two] = tables.map(|len| vec![0; len]);
    let (rings, tables) = ([&mut ring_one[..], &mut ring_two], [&mut table_one[..], &mut table_two]);
    SocketPair::datagram(&mut record, capacity, [Rights::ALL; 2], rings, tables)?;
    Ok(())
}

#[test]
fn create_refuses_what_it_cannot_keep() {
    assert_eq!(create_stream(8, [8, 9]), Ok(()));
    assert_eq!(create_datagram(8, [8, 9], [9, 8]), Ok(()));
    for capacity in [0, MOST_CAPACITY + 1, u32::MAX as usize, (1 << 32) + 8] {
        assert_eq!(create_stream(capacity, [8, 8]), Err(InvalidArgs));
        assert_eq!(create_datagram(capacity, [8, 8], [8, 8]), Err(InvalidArgs));
    }
    for short in [[7, 8], [8, 7]] {
        assert_eq!(create_stream(8, short), Err(InvalidArgs));
        assert_eq!(create_datagram(8, short, [8, 8]), Err(InvalidArgs));
        assert_eq!(create_datagram(8, [8, 8], short), Err(InvalidArgs));
    }
}
