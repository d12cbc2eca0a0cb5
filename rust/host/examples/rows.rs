//! A writer passes rows to a reader, each as one datagram. The reader waits for them; the writer waits
//! for space. Nothing blocks: a wait leaves a packet, and a loop takes packets.

use murgwethan::{
    Disposition, Dispositions, End, Packet, Record, Rights, Signals, SocketPair, Status, WaitMode,
};
use std::io::{self, Write};

const CAPACITY: usize = 32;
const WRITER: End = End::One;
const READER: End = End::Two;
/// The keys of the waits say what a packet is about.
const SPACE: u64 = 1;
const ROWS: u64 = 2;

const LIST: [&str; 7] = [
    "1 lead 11.34",
    "2 tin 7.31",
    "3 copper 8.96",
    "4 zinc 7.14",
    "5 iron 7.87",
    "6 nickel 8.91",
    "7 gold 19.32",
];

/// Writes rows while there is space; the number of those written by then.
fn send(pair: &mut SocketPair<'_>, sent: usize, out: &mut impl Write) -> io::Result<usize> {
    for (at, row) in LIST.iter().enumerate().skip(sent) {
        match pair.write(WRITER, row.as_bytes()) {
            Ok(count) => writeln!(out, "sent row of {count} bytes")?,
            Err(Status::ShouldWait) => {
                writeln!(out, "no space for a row of {} bytes", row.len())?;
                return Ok(at);
            }
            Err(status) => {
                writeln!(out, "writer stopped: {status}")?;
                return Ok(LIST.len());
            }
        }
    }
    Ok(LIST.len())
}

/// Reads all rows that are queued.
fn receive(pair: &mut SocketPair<'_>, out: &mut impl Write) -> io::Result<Status> {
    let mut buffer = [0; CAPACITY];
    loop {
        match pair.read(READER, &mut buffer) {
            Ok(count) => writeln!(out, "received {}", String::from_utf8_lossy(&buffer[..count]))?,
            Err(status) => return Ok(status),
        }
    }
}

/// Takes packets until there is none, and lets writer and reader act on them.
fn serve(pair: &mut SocketPair<'_>, sent: &mut usize, out: &mut impl Write) -> io::Result<()> {
    while let Ok(Packet { key, observed, .. }) = pair.take() {
        writeln!(out, "packet {key}, observed {observed:?}")?;
        if key == SPACE {
            *sent = send(pair, *sent, out)?;
            continue;
        }
        let status = receive(pair, out)?;
        writeln!(out, "nothing more to read: {status}")?;
        if *sent < LIST.len() {
            report(out, pair.wait(READER, ROWS, Signals::READABLE, WaitMode::Level))?;
            report(out, pair.wait(WRITER, SPACE, Signals::WRITE_THRESHOLD, WaitMode::Level))?;
        }
    }
    Ok(())
}

fn report(out: &mut impl Write, done: Result<(), Status>) -> io::Result<()> {
    match done {
        Ok(()) => Ok(()),
        Err(status) => writeln!(out, "refused: {status}"),
    }
}

fn show(pair: &SocketPair<'_>, out: &mut impl Write) -> io::Result<()> {
    for (name, end) in [("writer", WRITER), ("reader", READER)] {
        match pair.signals(end) {
            Some(signals) => writeln!(out, "{name} shows {signals:?}")?,
            None => writeln!(out, "{name} is closed")?,
        }
    }
    match pair.info(READER) {
        Ok(info) => writeln!(out, "reader has {} of {} bytes queued", info.queued, info.capacity),
        Err(status) => writeln!(out, "reader has no info: {status}"),
    }
}

/// Passes the list through a pair and says what happened.
pub fn run(out: &mut impl Write) -> io::Result<()> {
    let (mut record, mut ring_one, mut ring_two) = (Record::UNMADE, [0; CAPACITY], [0; CAPACITY]);
    let (mut table_one, mut table_two) = ([0; CAPACITY], [0; CAPACITY]);
    let (rings, tables) = ([&mut ring_one[..], &mut ring_two], [&mut table_one[..], &mut table_two]);
    let rights = [Rights::WRITE | Rights::MANAGE, Rights::READ];
    let mut pair = match SocketPair::datagram(&mut record, CAPACITY, rights, rings, tables) {
        Ok(pair) => pair,
        Err(refused) => return writeln!(out, "{refused}"),
    };
    report(out, pair.set_write_threshold(WRITER, CAPACITY / 2))?;
    report(out, pair.wait(READER, ROWS, Signals::READABLE, WaitMode::Level))?;
    let mut sent = send(&mut pair, 0, out)?;
    serve(&mut pair, &mut sent, out)?;
    show(&pair, out)?;
    let disabled = Dispositions { own: Disposition::Disable, peer: Disposition::Unchanged };
    report(out, pair.set_disposition(WRITER, disabled))?;
    writeln!(out, "a write now: {:?}", pair.write(WRITER, b"8 silver"))?;
    let status = receive(&mut pair, out)?;
    writeln!(out, "a read now: {status}")?;
    report(out, pair.close(WRITER))?;
    let status = receive(&mut pair, out)?;
    writeln!(out, "a read after the writer closed: {status}")?;
    show(&pair, out)
}

fn main() -> io::Result<()> {
    run(&mut io::stdout().lock())
}
