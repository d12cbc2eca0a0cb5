//! Statuses, words of bits and options: their numbers, their names, and what they ask of the library.

mod support;

use murgwethan::{
    Disposition, Dispositions, End, Parts, Record, Rights, Shutdown, Signals, SocketPair, Status,
    UnknownStatus, WaitMode,
};
use support::pairs::{datagram, stream};

#[test]
fn statuses_have_numbers_and_names() {
    for status in Status::ALL {
        assert_eq!(Status::from_number(status.number()), Some(status));
        assert_eq!(Status::try_from(i64::from(status)), Ok(status));
    }
    assert_eq!((Status::from_number(0), Status::try_from(-2)), (None, Err(UnknownStatus(-2))));
    assert_eq!(Status::PeerClosed.to_string(), "PEER_CLOSED (-24)");
}

#[test]
fn words_show_names_and_other_bits_in_hex() {
    let word = Signals::READABLE | Signals::WRITABLE;
    assert_eq!(format!("{word:?}"), "Signals(READABLE | WRITABLE)");
    assert_eq!(
        format!("{:?}", word | Signals::from_bits(0x8000_0100)),
        "Signals(READABLE | WRITABLE | 0x80000100)"
    );
    assert_eq!(format!("{:?}", Signals::from_bits(0x8)), "Signals(0x8)");
    assert_eq!(format!("{:?} {:?}", Signals::NONE, Rights::NONE), "Signals(NONE) Rights(NONE)");
    assert_eq!(format!("{:?} {:#x}", Rights::ALL, Rights::ALL), "Rights(READ | WRITE | MANAGE) 0x7");
}

#[test]
fn words_join_meet_and_negate() {
    let word = Signals::READABLE | Signals::READ_THRESHOLD;
    assert!(word.contains(Signals::READABLE) && word.contains(word) && word.contains(Signals::NONE));
    assert!(!word.contains(Signals::READABLE | Signals::WRITABLE));
    assert!(word.intersects(Signals::READABLE | Signals::WRITABLE) && !word.intersects(Signals::WRITABLE));
    assert_eq!((word & !Signals::READABLE, !!word), (Signals::READ_THRESHOLD, word));
    assert_eq!((!Signals::NONE).bits(), u32::MAX);
    let mut rights = Rights::READ;
    rights |= Rights::MANAGE;
    assert_eq!(!rights, Rights::WRITE);
    rights &= !Rights::READ;
    assert_eq!((rights, rights.is_empty()), (Rights::MANAGE, false));
    assert_eq!((Rights::from_bits(7), Rights::from_bits(8)), (Some(Rights::ALL), None));
}

/// What one call on a new pair leaves: its answer, the words of both ends, what a read of each answers.
type Left = (Result<(), Status>, [Option<Signals>; 2], [Result<usize, Status>; 2]);

fn after(call: impl FnOnce(&mut SocketPair<'_>) -> Result<(), Status>) -> Option<Left> {
    let (mut left, ends) = (None, [End::One, End::Two]);
    stream(|pair| {
        let answer = call(pair);
        left = Some((answer, ends.map(|end| pair.signals(end)), ends.map(|end| pair.read(end, &mut [0]))));
    });
    left
}

#[test]
fn a_shutdown_does_what_its_number_says() {
    let ways = [Shutdown::Neither, Shutdown::Write, Shutdown::Read, Shutdown::Both];
    for (options, what) in (0..).zip(ways) {
        assert_eq!(what as u32, options);
        let by_option = after(|pair| pair.shutdown(End::One, what));
        assert_eq!(by_option, after(|pair| pair.user_shutdown(1, options)), "{what:?}");
    }
}

#[test]
fn dispositions_do_what_their_numbers_say() {
    let ways = [Disposition::Unchanged, Disposition::Disable, Disposition::Enable];
    for (own, peer) in ways.into_iter().flat_map(|own| ways.map(|peer| (own, peer))) {
        let by_name = after(|pair| pair.set_disposition(End::Two, Dispositions { own, peer }));
        let by_number = after(|pair| pair.user_set_disposition(2, own as u32, peer as u32));
        assert_eq!(by_name, by_number, "{own:?} {peer:?}");
    }
}

#[test]
fn a_wait_for_an_edge_does_not_count_what_is_there() {
    for (mode, packet) in [(WaitMode::Level, Ok(3)), (WaitMode::Edge, Err(Status::ShouldWait))] {
        stream(|pair| {
            assert_eq!(pair.wait(End::One, 3, Signals::WRITABLE, mode), Ok(()));
            assert_eq!(pair.take().map(|packet| packet.key), packet, "{mode:?}");
        });
    }
}

#[test]
fn what_is_shown_of_a_pair_has_no_bytes() {
    datagram(|pair| {
        assert_eq!(pair.write(End::One, &[217; 3]), Ok(3));
        assert_eq!(pair.close(End::One), Ok(()));
        let shown = format!("{pair:?}");
        assert!(
            shown.contains("one: None") && shown.contains("PEER_CLOSED") && shown.contains("queued: 3"),
            "{shown}"
        );
        assert!(!shown.contains("217"), "{shown}");
    });
    let (mut record, mut ring) = (Record::UNMADE, [217; 4]);
    let (rings, tables) = ([&mut ring[..], &mut []], [&mut [][..], &mut []]);
    let shown = format!("{:?}", Parts { record: &mut record, rings, tables });
    assert_eq!(shown, "Parts { rings: [4, 0], tables: [0, 0], .. }");
}
