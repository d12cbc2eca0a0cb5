//! Document 01's numbers beside the original's values.

use zcore::object::{Rights, Signal};
use zcore::ZxError;

/// Document 01's signal bits beside the original's of the same name.
const SIGNALS: [(u32, Signal); 7] = [
    (0x1, Signal::READABLE),
    (0x2, Signal::WRITABLE),
    (0x4, Signal::PEER_CLOSED),
    (0x10, Signal::SOCKET_PEER_WRITE_DISABLED),
    (0x20, Signal::SOCKET_WRITE_DISABLED),
    (0x400, Signal::SOCKET_READ_THRESHOLD),
    (0x800, Signal::SOCKET_WRITE_THRESHOLD),
];

/// The rights word's bits beside the original's rights.
const RIGHTS: [(u8, Rights); 3] = [(1, Rights::READ), (2, Rights::WRITE), (4, Rights::MANAGE_SOCKET)];

pub fn status(error: ZxError) -> i64 {
    error as i32 as i64
}

pub fn signal_of(mask: u32) -> Signal {
    let named = SIGNALS.iter().fold(0, |bits, (bit, _)| bits | bit);
    let mut signal = Signal::from_bits(mask & !named).expect("the original names all bits");
    for (bit, name) in SIGNALS {
        signal.set(name, mask & bit != 0);
    }
    signal
}

pub fn word_of(signal: Signal) -> u32 {
    let named = SIGNALS.iter().fold(Signal::empty(), |signals, (_, name)| signals | *name);
    let rest = (signal - named).bits();
    let present = SIGNALS.iter().filter(|(_, name)| signal.contains(*name));
    present.fold(rest, |word, (bit, _)| word | bit)
}

pub fn rights_of(word: u8) -> Rights {
    let present = RIGHTS.iter().filter(|(bit, _)| word & bit != 0);
    present.fold(Rights::empty(), |rights, (_, right)| rights | *right)
}
