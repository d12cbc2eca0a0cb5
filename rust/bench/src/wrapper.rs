//! What `SocketPair` adds to the calls of `raw` that it makes.

use crate::best::Cell;
use crate::work::elapsed;
use murgwethan::raw::{self, Pair};
use murgwethan::{End, Record, Rights, SocketPair};
use std::hint::black_box;

const CAPACITY: u32 = 4096;
const SMALL: usize = 64;

type Rings = [Vec<u8>; 2];

fn rings() -> Rings {
    [(); 2].map(|()| vec![0; CAPACITY as usize])
}

/// Makes a pair in the record, over the rings, and lends it. Nothing else here knows how one is made.
fn with_pair<T>(record: &mut Record, [one, two]: &mut Rings, call: impl FnOnce(&mut SocketPair) -> T) -> T {
    let pair = SocketPair::stream(record, CAPACITY as usize, [Rights::ALL; 2], [one, two]);
    call(&mut pair.expect("a good create"))
}

fn raw_create(pair: &mut Pair, [one, two]: &Rings) {
    assert_eq!(raw::create(pair, 0, CAPACITY, [7, 7], [one, two], [&[], &[]]), 0);
}

fn raw_pass(pair: &mut Pair, [_, ring]: &mut Rings, bytes: &mut [u8; SMALL]) {
    assert_eq!(raw::write(pair, 1, ring, &mut [], black_box(bytes)), SMALL as i64);
    assert_eq!(raw::read(pair, 2, false, ring, &[], black_box(bytes)), SMALL as i64);
}

fn pass(pair: &mut SocketPair, bytes: &mut [u8; SMALL]) {
    assert_eq!(pair.write(End::One, black_box(bytes)), Ok(SMALL));
    assert_eq!(pair.read(End::Two, black_box(bytes)), Ok(SMALL));
}

fn raw_creates() -> Cell {
    Box::new(|passes| {
        let (mut pair, rings) = (Pair::UNMADE, rings());
        elapsed(passes, || {
            raw_create(&mut pair, &rings);
            black_box(&mut pair);
        })
    })
}

fn raw_passes() -> Cell {
    Box::new(|passes| {
        let (mut pair, mut rings, mut bytes) = (Pair::UNMADE, rings(), [7; SMALL]);
        raw_create(&mut pair, &rings);
        elapsed(passes, || raw_pass(&mut pair, &mut rings, &mut bytes))
    })
}

fn creates() -> Cell {
    Box::new(|passes| {
        let (mut record, mut rings) = (Record::UNMADE, rings());
        elapsed(passes, || {
            with_pair(&mut record, &mut rings, |pair| {
                black_box(pair);
            })
        })
    })
}

fn passes() -> Cell {
    Box::new(|passes| {
        let (mut record, mut rings, mut bytes) = (Record::UNMADE, rings(), [7; SMALL]);
        with_pair(&mut record, &mut rings, |pair| elapsed(passes, || pass(pair, &mut bytes)))
    })
}

/// The rows: a name, and what is timed through `raw` and through `SocketPair`.
pub fn rows() -> [(&'static str, [Cell; 2]); 2] {
    [("create", [raw_creates(), creates()]), ("write+read 64 B", [raw_passes(), passes()])]
}
