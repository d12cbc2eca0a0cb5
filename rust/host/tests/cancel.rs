//! Cancel on tables of places, by hand: what it answers, what is left and in which order, and what becomes of
//! the freed places. Each wrong program that is named here answers or leaves something else in one of the
//! cases.

use murgwethan::raw::{self, Pair, Place, PLACES};

/// A place's key and the number of its end.
type Held = (u64, u64);

/// A cancel: the places before it, its word, and the numbers of those packets and waits that are left.
struct Case {
    name: &'static str,
    closed: [bool; 2],
    packets: &'static [Held],
    waits: &'static [Held],
    handle: u32,
    key: u64,
    word: i64,
    left: [&'static [usize]; 2],
}

/// Nothing is closed, and nothing there.
const NONE: Case = Case {
    name: "nothing there",
    closed: [false; 2],
    packets: &[],
    waits: &[],
    handle: 1,
    key: 7,
    word: -25,
    left: [&[], &[]],
};

/// The lower 32 bits are those of 7.
const TWIN: u64 = 0x1_0000_0007;

const CASES: [Case; 17] = [
    NONE,
    Case { name: "one wait", waits: &[(7, 1)], word: 1, ..NONE },
    Case { name: "one packet", packets: &[(7, 1)], word: 1, ..NONE },
    Case {
        name: "waits and packets, all",
        packets: &[(7, 1), (7, 1)],
        waits: &[(7, 1), (7, 1), (7, 1)],
        word: 5,
        ..NONE
    },
    Case {
        name: "the end counts",
        packets: &[(7, 2), (7, 1)],
        waits: &[(7, 1), (7, 2)],
        word: 2,
        left: [&[0], &[1]],
        ..NONE
    },
    Case {
        name: "the other end's only",
        packets: &[(7, 2)],
        waits: &[(7, 2), (8, 1)],
        left: [&[0], &[0, 1]],
        ..NONE
    },
    Case {
        name: "all 64 bits of the key",
        packets: &[(TWIN, 2), (7, 2)],
        waits: &[(TWIN, 2)],
        handle: 2,
        word: 1,
        left: [&[0], &[0]],
        ..NONE
    },
    Case {
        name: "what is left keeps its order",
        packets: &[(1, 1), (7, 1), (2, 1), (3, 2), (4, 1)],
        waits: &[(5, 1), (7, 1), (6, 1), (8, 2), (9, 1)],
        word: 2,
        left: [&[0, 2, 3, 4], &[0, 2, 3, 4]],
        ..NONE
    },
    Case {
        name: "the last place goes",
        packets: &[(1, 1), (2, 1)],
        waits: &[(3, 1), (4, 1), (7, 1)],
        word: 1,
        left: [&[0, 1], &[0, 1]],
        ..NONE
    },
    Case {
        name: "an end that no wait has",
        waits: &[(7, 0), (7, 3), (7, u64::MAX), (7, 2)],
        handle: 2,
        word: 1,
        left: [&[], &[0, 1, 2]],
        ..NONE
    },
    Case { name: "no handle", packets: &[(7, 3)], handle: 3, word: -11, left: [&[0], &[]], ..NONE },
    Case { name: "no handle, and no match", handle: 0, word: -11, ..NONE },
    Case {
        name: "a closed end's packet",
        closed: [true, false],
        packets: &[(7, 1)],
        word: -11,
        left: [&[0], &[]],
        ..NONE
    },
    Case { name: "a closed end, and no match", closed: [true, false], word: -11, ..NONE },
    Case {
        name: "a closed peer",
        closed: [false, true],
        packets: &[(7, 2)],
        waits: &[(7, 1)],
        word: 1,
        left: [&[0], &[]],
        ..NONE
    },
    Case {
        name: "one of 8 places",
        packets: &[(1, 1), (7, 1), (2, 2)],
        waits: &[(3, 1), (4, 1), (5, 2), (6, 1), (8, 1)],
        word: 1,
        left: [&[0, 2], &[0, 1, 2, 3, 4]],
        ..NONE
    },
    Case {
        name: "one of 9 places",
        packets: &[(1, 1), (7, 1), (2, 2)],
        waits: &[(3, 1), (4, 1), (5, 2), (6, 1), (8, 1), (9, 1)],
        word: 1,
        left: [&[0, 2], &[0, 1, 2, 3, 4, 5]],
        ..NONE
    },
];

/// Places numbered from `from` on, no two alike; a wait has observed nothing.
fn places(held: &[Held], from: usize, packets: bool) -> Vec<Place> {
    let place = |(at, (key, end)): (usize, &Held)| Place {
        key: *key,
        mask: 1 + (from + at) as u32,
        observed: if packets { 1000 + at as u32 } else { 0 },
        end: *end,
    };
    held.iter().enumerate().map(place).collect()
}

/// A record with these places. The unused ones are no zeros, so that it shows where they go.
fn record(case: &Case, [packets, waits]: [&[Place]; 2], freed: usize, unused: &[Place]) -> Pair {
    let (ring, table) = (&[0; 8][..], &[][..]);
    let mut pair = Pair::UNMADE;
    assert_eq!(raw::create(&mut pair, 0, 8, [0, 0], [ring; 2], [table; 2]), 0);
    [pair.one.closed, pair.two.closed] = case.closed;
    pair.places.packets = packets.len();
    pair.places.waits = waits.len();
    let freed = vec![Pair::UNMADE.places.table[0]; freed];
    let all = [packets, waits, &freed, unused].concat();
    pair.places.table.copy_from_slice(&all);
    pair
}

/// Of a case the record before it and the one after it.
fn before_and_after(case: &Case) -> [Pair; 2] {
    let packets = places(case.packets, 0, true);
    let waits = places(case.waits, packets.len(), false);
    let used = packets.len() + waits.len();
    let unused = places(&[(7, 1); PLACES][used..], used, true);
    let left = |list: &[Place], left: &[usize]| left.iter().map(|at| list[*at]).collect::<Vec<_>>();
    let (packets_left, waits_left) = (left(&packets, case.left[0]), left(&waits, case.left[1]));
    let freed = used - packets_left.len() - waits_left.len();
    [record(case, [&packets, &waits], 0, &unused), record(case, [&packets_left, &waits_left], freed, &unused)]
}

/// Whether a cancel answers and leaves what the case has.
fn agrees(case: &Case, cancel: impl Fn(&mut Pair, u32, u64) -> i64) -> bool {
    let [mut pair, after] = before_and_after(case);
    cancel(&mut pair, case.handle, case.key) == case.word && pair == after
}

#[test]
fn each_case_goes_as_written() {
    for case in &CASES {
        assert!(agrees(case, raw::cancel), "{}", case.name);
    }
}

/// What a wrong program does otherwise.
#[derive(Clone, Copy, Debug, PartialEq)]
enum Fault {
    Nothing,
    EndIgnored,
    WaitsOnly,
    PacketsOnly,
    FirstMatchOnly,
    HoleFilledByTheLast,
    KeyIn32Bits,
    PacketsNotCounted,
    NotFoundBeforeBadHandle,
    NotFoundBeforeClosedEnd,
    FreedPlacesAsTheyWere,
    FreedPlacesBehindTheUnused,
    DoneWithNothing,
    ClosedEndsToo,
}

use Fault::*;

/// Each fault with the case that is the first to show it.
const SEEN: [(Fault, &str); 13] = [
    (EndIgnored, "the end counts"),
    (WaitsOnly, "one packet"),
    (PacketsOnly, "one wait"),
    (FirstMatchOnly, "waits and packets, all"),
    (HoleFilledByTheLast, "what is left keeps its order"),
    (KeyIn32Bits, "all 64 bits of the key"),
    (PacketsNotCounted, "one packet"),
    (NotFoundBeforeBadHandle, "no handle, and no match"),
    (NotFoundBeforeClosedEnd, "a closed end, and no match"),
    (FreedPlacesAsTheyWere, "one wait"),
    (FreedPlacesBehindTheUnused, "one wait"),
    (DoneWithNothing, "nothing there"),
    (ClosedEndsToo, "a closed end's packet"),
];

/// Cancel with a fault.
fn cancel_with(fault: Fault, pair: &mut Pair, handle: u32, key: u64) -> i64 {
    let closed = match handle {
        1 => pair.one.closed,
        2 => pair.two.closed,
        _ => true,
    };
    let named = (1..=2).contains(&handle);
    let refused = closed && !(fault == ClosedEndsToo && named);
    let goes = |place: &Place| {
        let same_key = place.key == key || fault == KeyIn32Bits && place.key as u32 == key as u32;
        same_key && (place.end == handle.into() || fault == EndIgnored)
    };
    let (packets, waits) = (pair.places.packets, pair.places.waits);
    let (used, unused) = pair.places.table.split_at(packets + waits);
    let (mut fired, mut waiting) = (used[..packets].to_vec(), used[packets..].to_vec());
    let gone = if fault == WaitsOnly { 0 } else { remove(&mut fired, fault, goes) };
    let skips = fault == PacketsOnly || fault == FirstMatchOnly && gone > 0;
    let removed = gone + if skips { 0 } else { remove(&mut waiting, fault, goes) };
    match removed {
        0 if fault == NotFoundBeforeBadHandle => return -25,
        0 if fault == NotFoundBeforeClosedEnd && named => return -25,
        _ if refused => return -11,
        0 if fault != DoneWithNothing => return -25,
        _ => {}
    }
    let freed = match fault {
        FreedPlacesAsTheyWere => used[used.len() - removed..].to_vec(),
        _ => vec![Pair::UNMADE.places.table[0]; removed],
    };
    let mut behind = [&freed, unused];
    if fault == FreedPlacesBehindTheUnused {
        behind.reverse();
    }
    let all = [&fired[..], &waiting, behind[0], behind[1]].concat();
    (pair.places.packets, pair.places.waits) = (fired.len(), waiting.len());
    pair.places.table.copy_from_slice(&all);
    (if fault == PacketsNotCounted { removed - gone } else { removed }) as i64
}

/// Removes what goes from a list, with a fault; how many these are.
fn remove(list: &mut Vec<Place>, fault: Fault, goes: impl Fn(&Place) -> bool) -> usize {
    let before = list.len();
    match fault {
        FirstMatchOnly => drop(list.iter().position(goes).map(|at| list.remove(at))),
        HoleFilledByTheLast => {
            while let Some(at) = list.iter().position(&goes) {
                list.swap_remove(at);
            }
        }
        _ => list.retain(|place| !goes(place)),
    }
    before - list.len()
}

/// The cases are not so few that a wrong program passes them.
#[test]
fn each_wrong_program_is_seen() {
    let first = |fault| CASES.iter().find(|case| !agrees(case, |p, h, k| cancel_with(fault, p, h, k)));
    assert!(first(Nothing).is_none(), "without a fault every case agrees");
    for (fault, name) in SEEN {
        assert_eq!(first(fault).map(|case| case.name), Some(name), "{fault:?}");
    }
}
