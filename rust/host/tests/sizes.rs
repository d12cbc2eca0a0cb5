//! The bytes that a pair takes, as docs/HOST.md tells them.

use murgwethan::raw::{self, Pair};
use std::mem::{align_of, size_of, size_of_val};

const DOCUMENT: &str = include_str!("../../../docs/HOST.md");

/// Whether create takes rings and tables of these lengths.
fn is_enough(kind: u32, capacity: u32, ring: &[u8], table: &[u32]) -> bool {
    let mut pair = Pair::UNMADE;
    raw::create(&mut pair, kind, capacity, [7; 2], [ring; 2], [table; 2]) == 0
}

/// The bytes of a pair with the shortest slices that create takes.
fn least_bytes(kind: u32, capacity: u32) -> usize {
    let (rings, tables) = (vec![0; capacity as usize + 1], vec![0; capacity as usize + 1]);
    let ring = (0..).find(|len| is_enough(kind, capacity, &rings[..*len], &tables));
    let ring = &rings[..ring.expect("a length")];
    let table = (0..).find(|len| is_enough(kind, capacity, ring, &tables[..*len]));
    let table = &tables[..table.expect("a length")];
    size_of::<Pair>() + 2 * size_of_val(ring) + 2 * size_of_val(table)
}

/// The rows of the document that are three numbers.
fn rows() -> Vec<[usize; 3]> {
    let cells =
        |line: &str| line.split('|').filter_map(|cell| cell.trim().parse().ok()).collect::<Vec<usize>>();
    DOCUMENT.lines().filter_map(|line| cells(line).try_into().ok()).collect()
}

#[test]
fn a_pair_takes_the_bytes_that_are_told() {
    let rows = rows();
    assert_eq!(rows.iter().map(|row| row[0]).collect::<Vec<_>>(), [4096, 65_536, 262_144]);
    for [capacity, stream, datagram] in rows {
        let computed = [0, 1].map(|kind| least_bytes(kind, capacity as u32));
        assert_eq!(computed, [stream, datagram], "capacity {capacity}");
    }
}

#[test]
fn a_record_has_the_size_that_is_told() {
    let told = format!("A record has {} bytes, aligned to {};", size_of::<Pair>(), align_of::<Pair>());
    assert!(DOCUMENT.contains(&told), "docs/HOST.md does not say: {told}");
}
