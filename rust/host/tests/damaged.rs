//! Records that no run leaves, and slices that are too short: what the library answers instead of
//! trusting its caller.

mod support;

use murgwethan::raw::{self, Endpoint, Pair};
use support::calls::{key, Call, Lend, Most, Shape, What};
use support::numbers::Numbers;
use support::sides::Sides;

/// A pair in the middle of a run.
fn sides_after(number: u64, kind: u32, calls: u64) -> (Sides, Numbers) {
    let mut numbers = Numbers::new(number);
    let shape = Shape { kind, ..Shape::random(&mut numbers) };
    let mut sides = Sides::new(shape, !number);
    for _ in 0..calls {
        sides.call(&Call::random(&mut numbers, &shape, Most::Neither));
    }
    (sides, numbers)
}

/// Makes random calls of every name on a damaged record; each must be refused as INTERNAL.
fn all_internal(sides: &mut Sides, numbers: &mut Numbers, what: &str) {
    let shape = sides.shape;
    for _ in 0..60 {
        let call = Call::random(numbers, &shape, Most::Neither);
        assert_eq!(sides.call(&call), -1, "{what}: {call:?}");
    }
    for last in [What::Cancel { key: 1 }, What::Close] {
        assert_eq!(sides.call(&Call { handle: 1, lend: Lend::Whole, what: last }), -1, "{what}");
    }
}

type Damage = (&'static str, fn(&mut Pair));

/// Damage of the pair as a whole.
const TO_PAIR: [Damage; 7] = [
    ("capacity 0", |pair| pair.capacity = 0),
    ("capacity above 262144", |pair| pair.capacity = 262_145),
    ("largest capacity", |pair| pair.capacity = u32::MAX),
    ("129 waits", |pair| pair.places.waits = 129 - pair.places.packets),
    ("129 packets", |pair| pair.places.packets = 129),
    ("a sum of places that wraps", |pair| {
        pair.places.packets = usize::MAX;
        pair.places.waits = 1;
    }),
    ("as many waits as there are numbers", |pair| pair.places.waits = usize::MAX),
];

type EndDamage = (&'static str, fn(&mut Endpoint, u32));

/// Damage of one end, open or closed.
const TO_END: [EndDamage; 5] = [
    ("ring start at the capacity", |end, capacity| end.queue.bytes.start = capacity),
    ("largest ring start", |end, _| end.queue.bytes.start = u32::MAX),
    ("table start at the capacity", |end, capacity| end.queue.lengths.start = capacity),
    ("more bytes than the capacity", |end, capacity| end.queue.bytes.count = capacity + 1),
    ("as many bytes as there are numbers", |end, _| end.queue.bytes.count = u32::MAX),
];

/// Damage of one end of a datagram pair.
const TO_DATAGRAM_END: [EndDamage; 4] = [
    ("more lengths than bytes", |end, _| end.queue.lengths.count = end.queue.bytes.count + 1),
    ("lengths without bytes", |end, _| {
        end.queue.bytes.count = 0;
        end.queue.lengths.count = 1;
    }),
    ("bytes without lengths", |end, _| {
        end.queue.bytes.count = 1;
        end.queue.lengths.count = 0;
    }),
    ("as many lengths as there are numbers", |end, _| end.queue.lengths.count = u32::MAX),
];

#[test]
fn each_damage_of_the_pair_is_internal() {
    for (what, damage) in TO_PAIR {
        for number in 0..20 {
            let (mut sides, mut numbers) = sides_after(number, (number % 2) as u32, 10 * number);
            let mut record = sides.record();
            damage(&mut record);
            sides.set_record(record);
            all_internal(&mut sides, &mut numbers, what);
        }
    }
}

#[test]
fn each_damage_of_an_end_is_internal() {
    let of_datagrams = TO_DATAGRAM_END.iter().map(|damage| (damage, 1..2));
    for ((what, damage), kinds) in TO_END.iter().map(|damage| (damage, 0..2)).chain(of_datagrams) {
        for (number, kind) in (0..20).flat_map(|number| kinds.clone().map(move |kind| (number, kind))) {
            let (mut sides, mut numbers) = sides_after(number, kind, 10 * number);
            let mut record = sides.record();
            let end = if number % 2 == 0 { &mut record.one } else { &mut record.two };
            damage(end, record.capacity);
            sides.set_record(record);
            all_internal(&mut sides, &mut numbers, what);
        }
    }
}

/// A datagram pair with two datagrams queued at each end.
fn with_datagrams() -> Sides {
    let shape = Shape { kind: 1, capacity: 8, rights: [7, 7], beyond: 1, base: 4096, memory: 32 };
    let mut sides = Sides::new(shape, 5);
    for (handle, n) in [(1, 3), (2, 2), (1, 4), (2, 1)] {
        assert_eq!(sides.call(&Call { handle, lend: Lend::Whole, what: What::Write { n } }), n as i64);
    }
    sides
}

fn transfer(n: u64) -> raw::Transfer {
    raw::Transfer { options: 0, address: 4096, count: n, count_at: 0 }
}

/// The calls that look at a first length, with the handle that names the table of end 1.
fn looking_at_one() -> [Call; 6] {
    let call = |handle, what| Call { handle, lend: Lend::Whole, what };
    [
        call(1, What::Read { peek: false, n: 1 }),
        call(1, What::Read { peek: true, n: 1 }),
        call(1, What::Info),
        call(1, What::UserRead(transfer(1))),
        call(2, What::Write { n: 1 }),
        call(2, What::UserWrite(transfer(1))),
    ]
}

#[test]
fn a_damaged_first_length_is_internal_where_its_table_is_lent() {
    for length in [0, 4, 9, u32::MAX] {
        for call in looking_at_one() {
            let mut sides = with_datagrams();
            sides.set_length(0, 0, length);
            assert_eq!(sides.call(&call), -1, "{length}: {call:?}");
            let short = Call { lend: Lend::ShortTable, ..call.clone() };
            assert_eq!(sides.call(&short), -10, "a short table comes first: {short:?}");
            let no_handle = Call { handle: 3, ..call.clone() };
            assert_eq!(sides.call(&no_handle), -11, "with no handle no length is tested");
            let other = Call { handle: 3 - call.handle, ..call };
            assert!(sides.call(&other) >= 0, "the other table is sound: {other:?}");
        }
    }
}

#[test]
fn a_slice_one_short_is_refused_where_it_is_used() {
    for kind in [0, 1] {
        for call in looking_at_one() {
            for (lend, ring) in [(Lend::ShortRing, true), (Lend::ShortTable, false)] {
                let mut sides = with_datagrams();
                let mut record = sides.record();
                record.datagram = kind == 1;
                sides.set_record(record);
                let used = if ring { !matches!(call.what, What::Info) } else { kind == 1 };
                let word = sides.call(&Call { lend, ..call.clone() });
                assert_eq!(word == -10, used, "{lend:?} {call:?}: {word}");
                let word = sides.call(&Call { lend, handle: 0, ..call.clone() });
                assert_eq!(word, -11, "with no handle no slice is tested");
            }
        }
    }
}

/// Numbers that document 01 does not count as damage.
fn make_strange(record: &mut Pair, numbers: &mut Numbers) {
    let capacity = u64::from(record.capacity);
    for end in [&mut record.one, &mut record.two] {
        end.closed = numbers.one_in(5);
        end.read_disabled = numbers.one_in(3);
        end.rights = numbers.next() as u16;
        end.signals = numbers.next() as u32;
        end.thresholds.read = numbers.pick(&[0, 1, capacity, capacity + 1, u64::MAX]);
        end.thresholds.write = numbers.pick(&[0, 1, capacity, capacity + 1, u64::MAX]);
        end.queue.bytes.start = numbers.below(capacity) as u32;
        end.queue.bytes.count = numbers.below(capacity + 1) as u32;
        end.queue.lengths.start = numbers.below(capacity) as u32;
        end.queue.lengths.count = match end.queue.bytes.count {
            count if record.datagram => count.min(1 + numbers.below(3) as u32),
            _ => numbers.next() as u32,
        };
    }
    (record.spare1, record.spare2) = (numbers.next() as u8, numbers.next() as u16);
    let packets = numbers.below(129) as usize;
    record.places.packets = packets;
    record.places.waits = numbers.below(129 - packets as u64) as usize;
    // Those that are not used too.
    for place in &mut record.places.table {
        let (key, mask, observed) = (key(numbers), numbers.next() as u32, numbers.next() as u32);
        // no end has the last two numbers
        let end = numbers.pick(&[1, 1, 2, 2, 0, u64::MAX]);
        *place = raw::Place { key, mask, observed, end };
    }
}

#[test]
fn strange_records_go_on_by_the_ordinary_rules() {
    for number in 0..support::sequences(2000) {
        let (mut sides, mut numbers) = sides_after(number, (number % 2) as u32, 0);
        let (mut record, shape) = (sides.record(), sides.shape);
        make_strange(&mut record, &mut numbers);
        sides.set_record(record);
        for (end, at) in (0..2).flat_map(|end| (0..shape.capacity as usize).map(move |at| (end, at))) {
            let length = numbers.below(u64::from(shape.capacity) + 1) as u32;
            sides.set_length(end, at, length);
        }
        for _ in 0..30 {
            sides.call(&Call::random(&mut numbers, &shape, Most::Neither));
        }
    }
}

#[test]
fn create_refuses_wrong_numbers_and_short_slices() {
    let (ring, table) = (&[0u8; 9][..], &[0u32; 9][..]);
    let mut live = Pair::UNMADE;
    assert_eq!(raw::create(&mut live, 1, 5, [3, 7], [ring; 2], [table; 2]), 0);
    assert_eq!(raw::wait(&mut live, 2, 7, 1, 0), 0);
    let create = |kind, capacity, rights, rings: [usize; 2], tables: [usize; 2]| {
        let (rings, tables) = (rings.map(|len| &ring[..len]), tables.map(|len| &table[..len]));
        let words = [Pair::UNMADE, live].map(|before| {
            let mut pair = before;
            let word = raw::create(&mut pair, kind, capacity, rights, rings, tables);
            assert_eq!(pair == before, word != 0, "a refused create leaves the record as it was");
            word
        });
        assert_eq!(words[0], words[1], "what the record held does not matter");
        words[0]
    };
    assert_eq!(create(1, 8, [7, 7], [8, 9], [9, 8]), 0);
    assert_eq!(create(0, 8, [0, 0], [8, 8], [0, 0]), 0, "a stream has no tables");
    for (kind, capacity, rights) in
        [(2, 8, [7, 7]), (u32::MAX, 8, [7, 7]), (0, 0, [7, 7]), (0, 262_145, [7, 7]), (0, u32::MAX, [7, 7])]
    {
        assert_eq!(create(kind, capacity, rights, [9, 9], [9, 9]), -10);
    }
    for (rights, rings, tables) in [
        ([8, 7], [8, 8], [8, 8]),
        ([7, 8], [8, 8], [8, 8]),
        ([7, u32::MAX], [8, 8], [8, 8]),
        ([7, 7], [7, 8], [8, 8]),
        ([7, 7], [8, 7], [8, 8]),
        ([7, 7], [8, 8], [7, 8]),
        ([7, 7], [8, 8], [8, 7]),
    ] {
        assert_eq!(create(1, 8, rights, rings, tables), -10);
    }
}
