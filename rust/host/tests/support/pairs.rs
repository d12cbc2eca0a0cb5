//! New pairs of the crate's types, for one case each.

use murgwethan::{Record, Rights, SocketPair};

/// The capacity of these pairs, that of document 01's cases.
pub const C: usize = 8;

/// Runs a case on a new stream pair with these rights at both ends.
pub fn stream_with(rights: Rights, case: impl FnOnce(&mut SocketPair<'_>)) {
    let (mut record, mut one, mut two) = (Record::UNMADE, [0; C], [0; C]);
    let pair = SocketPair::stream(&mut record, C, [rights; 2], [&mut one, &mut two]);
    case(&mut pair.expect("a new pair"));
}

/// Runs a case on a new stream pair with all rights.
pub fn stream(case: impl FnOnce(&mut SocketPair<'_>)) {
    stream_with(Rights::ALL, case);
}

/// Runs a case on a new datagram pair with all rights.
pub fn datagram(case: impl FnOnce(&mut SocketPair<'_>)) {
    let (mut record, mut ring_one, mut ring_two) = (Record::UNMADE, [0; C], [0; C]);
    let (mut table_one, mut table_two) = ([0; C], [0; C]);
    let (rings, tables) = ([&mut ring_one[..], &mut ring_two], [&mut table_one[..], &mut table_two]);
    let pair = SocketPair::datagram(&mut record, C, [Rights::ALL; 2], rings, tables);
    case(&mut pair.expect("a new pair"));
}
