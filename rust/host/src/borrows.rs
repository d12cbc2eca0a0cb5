//! What a pair's borrows refuse: tests of the documentation that must not compile, but for the first.
//!
//! As long as a pair is used, what it was lent can be read and written by nobody else:
//! ```
//! # use murgwethan::{End, Record, Rights, SocketPair};
//! let (mut record, mut one, mut two) = (Record::UNMADE, [0; 8], [0; 8]);
//! let rings = [&mut one[..], &mut two];
//! let mut pair = SocketPair::stream(&mut record, 8, [Rights::ALL; 2], rings).unwrap();
//! assert_eq!(pair.write(End::One, b"a"), Ok(1));
//! (record.capacity, one[0], two[0]) = (0, 1, 2);
//! ```
//! The record is written before the last call:
//! ```compile_fail
//! # use murgwethan::{End, Record, Rights, SocketPair};
//! let (mut record, mut one, mut two) = (Record::UNMADE, [0; 8], [0; 8]);
//! let rings = [&mut one[..], &mut two];
//! let mut pair = SocketPair::stream(&mut record, 8, [Rights::ALL; 2], rings).unwrap();
//! record.capacity = 0;
//! assert_eq!(pair.write(End::One, b"a"), Ok(1));
//! ```
//! A ring is:
//! ```compile_fail
//! # use murgwethan::{End, Record, Rights, SocketPair};
//! let (mut record, mut one, mut two) = (Record::UNMADE, [0; 8], [0; 8]);
//! let rings = [&mut one[..], &mut two];
//! let mut pair = SocketPair::stream(&mut record, 8, [Rights::ALL; 2], rings).unwrap();
//! two[0] = 2;
//! assert_eq!(pair.write(End::One, b"a"), Ok(1));
//! ```
//! One ring is lent for both ends:
//! ```compile_fail
//! # use murgwethan::{End, Record, Rights, SocketPair};
//! let (mut record, mut one) = (Record::UNMADE, [0; 8]);
//! let rings = [&mut one[..], &mut one];
//! let mut pair = SocketPair::stream(&mut record, 8, [Rights::ALL; 2], rings).unwrap();
//! ```
//! A pair outlives its record:
//! ```compile_fail
//! # use murgwethan::{End, Record, Rights, SocketPair};
//! let (mut one, mut two) = ([0; 8], [0; 8]);
//! let rings = [&mut one[..], &mut two];
//! let mut pair = {
//!     let mut record = Record::UNMADE;
//!     SocketPair::stream(&mut record, 8, [Rights::ALL; 2], rings).unwrap()
//! };
//! assert_eq!(pair.write(End::One, b"a"), Ok(1));
//! ```
//! Two threads ask one pair at a time:
//! ```compile_fail
//! # use murgwethan::{End, Record, Rights, SocketPair};
//! let (mut record, mut one, mut two) = (Record::UNMADE, [0; 8], [0; 8]);
//! let rings = [&mut one[..], &mut two];
//! let pair = SocketPair::stream(&mut record, 8, [Rights::ALL; 2], rings).unwrap();
//! std::thread::scope(|scope| {
//!     scope.spawn(|| pair.signals(End::One));
//!     scope.spawn(|| pair.signals(End::Two));
//! });
//! ```
//! Behind a lock they may:
//! ```
//! # use murgwethan::{End, Record, Rights, SocketPair};
//! # use std::sync::Mutex;
//! let (mut record, mut one, mut two) = (Record::UNMADE, [0; 8], [0; 8]);
//! let rings = [&mut one[..], &mut two];
//! let pair = Mutex::new(SocketPair::stream(&mut record, 8, [Rights::ALL; 2], rings).unwrap());
//! std::thread::scope(|scope| {
//!     scope.spawn(|| pair.lock().unwrap().write(End::One, b"a"));
//!     scope.spawn(|| pair.lock().unwrap().signals(End::Two));
//! });
//! ```
