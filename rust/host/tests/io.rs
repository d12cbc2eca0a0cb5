//! Ends as readers and writers of the standard library.

mod support;

use murgwethan::{Disposition, Dispositions, End, EndIo, Shutdown, SocketPair, Status};
use std::io::{self, BufRead, BufReader, ErrorKind, Read, Write};
use support::pairs::{datagram, stream, C};

fn io<'p, 'a>(pair: &'p mut SocketPair<'a>, end: End) -> EndIo<'p, 'a> {
    pair.io(end).expect("a stream")
}

/// The kind of an error, and the status that it comes from.
fn refused<T: std::fmt::Debug>(answer: io::Result<T>) -> (ErrorKind, Option<Status>) {
    let error = answer.expect_err("an error");
    (error.kind(), error.get_ref().and_then(|source| source.downcast_ref()).copied())
}

#[test]
fn bytes_pass_in_order_and_end_with_the_file() {
    stream(|pair| {
        assert_eq!(io(pair, End::One).write(b"one\ntwo\nthree").expect("space"), C);
        assert_eq!(pair.close(End::One), Ok(()));
        let mut lines = BufReader::with_capacity(3, io(pair, End::Two)).lines();
        let line = |lines: &mut io::Lines<_>| lines.next().map(|line| line.expect("a line"));
        assert_eq!(line(&mut lines), Some("one".to_string()));
        assert_eq!(line(&mut lines), Some("two".to_string()));
        assert_eq!(line(&mut lines), None);
    });
}

#[test]
fn all_is_read_before_the_end_of_the_file() {
    for way in [Shutdown::Write, Shutdown::Both] {
        stream(|pair| {
            io(pair, End::One).write_all(b"abc").expect("space");
            io(pair, End::One).flush().expect("nothing to do");
            assert_eq!(pair.shutdown(End::One, way), Ok(()));
            let mut all = Vec::new();
            let read = io(pair, End::Two).read_to_end(&mut all);
            match way {
                Shutdown::Write => assert_eq!(read.expect("an end of the file"), 3),
                _ => assert_eq!(refused(read).0, ErrorKind::WouldBlock, "the peer's reading goes on"),
            }
            assert_eq!(all, b"abc");
        });
    }
}

#[test]
fn nothing_queued_and_no_space_would_block() {
    stream(|pair| {
        let would_block = (ErrorKind::WouldBlock, Some(Status::ShouldWait));
        assert_eq!(refused(io(pair, End::Two).read(&mut [0; 4])), would_block);
        assert_eq!(refused(io(pair, End::Two).read(&mut [])), would_block);
        assert_eq!(refused(io(pair, End::One).write_all(&[1; C + 1])), would_block);
        assert_eq!(refused(io(pair, End::One).write(&[])), would_block);
        let mut all = Vec::new();
        assert_eq!(refused(io(pair, End::Two).read_to_end(&mut all)), would_block);
        assert_eq!(all, [1; C], "what was taken before is there");
    });
}

#[test]
fn a_closed_peer_breaks_the_pipe() {
    stream(|pair| {
        assert_eq!(pair.close(End::Two), Ok(()));
        let broken = (ErrorKind::BrokenPipe, Some(Status::PeerClosed));
        assert_eq!(refused(io(pair, End::One).write(b"a")), broken);
        assert_eq!(io(pair, End::One).read(&mut [0]).expect("an end of the file"), 0);
        let closed = (ErrorKind::NotConnected, Some(Status::BadHandle));
        assert_eq!(refused(io(pair, End::Two).write(b"a")), closed);
        assert_eq!(refused(io(pair, End::Two).read(&mut [0])), closed);
    });
}

#[test]
fn disabled_writing_breaks_the_pipe_until_it_is_enabled() {
    stream(|pair| {
        let asked = |own| Dispositions { own, ..Dispositions::default() };
        assert_eq!(pair.set_disposition(End::One, asked(Disposition::Disable)), Ok(()));
        let broken = (ErrorKind::BrokenPipe, Some(Status::BadState));
        assert_eq!(refused(io(pair, End::One).write(b"a")), broken);
        assert_eq!(io(pair, End::Two).read(&mut [0]).expect("an end of the file"), 0);
        assert_eq!(pair.set_disposition(End::One, asked(Disposition::Enable)), Ok(()));
        io(pair, End::One).write_all(b"a").expect("space");
        assert_eq!(io(pair, End::Two).read(&mut [0; 4]).expect("a byte"), 1);
    });
}

#[test]
fn every_status_has_a_kind() {
    let kinds = Status::ALL.map(|status| io::Error::from(status).kind());
    use ErrorKind::{BrokenPipe, InvalidInput, NotConnected, NotFound, Other, PermissionDenied, WouldBlock};
    let expected = [
        Other,
        Other,
        InvalidInput,
        NotConnected,
        InvalidInput,
        BrokenPipe,
        WouldBlock,
        BrokenPipe,
        NotFound,
        PermissionDenied,
    ];
    assert_eq!(kinds, expected);
}

#[test]
fn a_datagram_pair_has_no_readers() {
    datagram(|pair| assert!(pair.io(End::One).is_none()));
}
