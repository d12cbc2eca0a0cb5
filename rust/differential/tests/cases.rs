//! What documents 01 and 02 (i) say of single scripts holds of the original.

use differential::cases::cases;
use differential::machine::{Done, Machine};
use differential::oracle::listing;
use differential::record::{Record, Transfer};

const WORKED_EXAMPLE: &str = "\
record word end1 end2
0 0 00000002 00000002
1 0 00000002 00000002
2 3 00000002 00000002
3 3 00000002 00000003
4 0 00000002 00000003 0000000000000005 00000001 00000003
5 2 00000002 00000003 6162
6 0 00000004 -
7 -24 00000004 -
";

#[test]
fn the_worked_example_gives_its_listing() {
    let example = &cases()[0];
    assert_eq!(example.name, "worked example");
    assert_eq!(listing(&example.script), WORKED_EXAMPLE);
}

#[test]
fn p1_to_p14_are_among_the_cases() {
    let cases = cases();
    for number in 1..=14 {
        let name = format!("P{number} ");
        assert!(cases.iter().any(|case| case.name.contains(&name)), "no case {name}");
    }
}

#[test]
fn every_case_goes_as_document_01_says() {
    for case in cases() {
        let listing = listing(&case.script);
        let lines: Vec<&str> = listing.lines().skip(1).collect();
        for (number, expected) in &case.lines {
            let (_, found) = lines[*number].split_once(' ').unwrap();
            let goes_on = format!("{expected} ");
            let same = found == expected || found.starts_with(&goes_on) && !expected.contains(' ');
            assert!(same, "{}: record {number}: {expected} and {found}", case.name);
        }
    }
}

/// P14 in its own numbers, with memory of 16 bytes at 4096.
#[test]
fn p14_over_small_memory() {
    let write = |address| {
        let mut machine = Machine::with_memory(0, 8, [7, 7], (4096, 16)).ok().unwrap();
        machine.call(&Record::Write(Transfer { handle: 1, options: 0, address, count: 100, count_at: 0 }))
    };
    assert_eq!(write(4104), Ok(Done::Count(8)));
    assert_eq!(write(4105), Err(-10));
}

#[test]
fn stops_and_refused_creates_end_the_listing() {
    assert_eq!(listing(&[]), "record word end1 end2\n");
    assert_eq!(listing(&[13]), "record word end1 end2\nstop 0\n");
    let create = |capacity: u8| vec![0, 10, 0, 0, 0, 0, 0, capacity, 0, 0, 0, 7, 7];
    let refused = [create(0), vec![10, 0, 0]].concat();
    assert_eq!(listing(&refused), "record word end1 end2\n0 -10 - -\n");
    let cut = [create(8), vec![10, 0]].concat();
    assert_eq!(listing(&cut), "record word end1 end2\n0 0 00000002 00000002\nstop 13\n");
    let second = [create(8), create(8)].concat();
    assert_eq!(listing(&second), "record word end1 end2\n0 0 00000002 00000002\nstop 13\n");
}
