//! Names for what happened in a call, so that a run can say what it covered.
//! They are judged from the pair before and after the call. How a script ends is
//! judged in `endings`.

use crate::machine::{Answer, Done, Machine, BASE, MEMORY, RING};
use crate::record::{Record, Transfer};
use crate::waits::{Fired, Source, PLACES};
use zcore::capacity::ORIGINAL;

const READABLE: u32 = 0x1;
const WRITABLE: u32 = 0x2;
const READ_THRESHOLD: u32 = 0x400;
const WRITE_THRESHOLD: u32 = 0x800;

/// All names, in order.
pub const BRANCHES: [&str; 151] = [
    "a call fires one wait",
    "a call fires several waits",
    "a handle refused as closed",
    "a handle refused as none",
    "cancel finds other keys at its end",
    "cancel finds the key at the other end only",
    "cancel frees places where all were used",
    "cancel leaves a key that is alike in 32 bits",
    "cancel leaves the other end's key",
    "cancel of a closed end's packets",
    "cancel removes from the middle of the packets",
    "cancel removes from the middle of the waits",
    "cancel removes one packet",
    "cancel removes one wait",
    "cancel removes several packets",
    "cancel removes several waits",
    "cancel removes waits and packets",
    "cancel where no place is used",
    "close drops queued bytes",
    "close drops waits",
    "close leaves bytes at the peer",
    "close leaves packets",
    "close of the second end",
    "create makes a datagram pair",
    "create makes a stream pair",
    "create refused for a capacity above 262144",
    "create refused for capacity 0",
    "create refused for end 1's rights",
    "create refused for end 2's rights",
    "create refused for its kind",
    "create refused for rings shorter than its capacity",
    "create with capacity 1",
    "create with capacity 4096",
    "disposition 0 0",
    "disposition 0 1",
    "disposition 0 2",
    "disposition 1 0",
    "disposition 1 1",
    "disposition 1 2",
    "disposition 2 0",
    "disposition 2 1",
    "disposition 2 2",
    "disposition refused, both enable",
    "disposition refused, own above 2",
    "disposition refused, own enable",
    "disposition refused, peer above 2",
    "disposition refused, peer enable",
    "disposition with a closed peer",
    "fill begins at memory's beginning",
    "fill ends at memory's end",
    "fill inside memory",
    "fill refused across memory's end",
    "fill refused before memory",
    "fill refused behind memory",
    "info of a stream's bytes",
    "info of an empty queue",
    "info of the first of several datagrams",
    "info of the only datagram",
    "info refused",
    "info with a closed peer",
    "peek is done",
    "peek shows part of a datagram",
    "read clears READ_THRESHOLD",
    "read drops a datagram's tail",
    "read empties the queue",
    "read into 0 bytes is done",
    "read of what a closed peer left",
    "read raises the peer's WRITABLE",
    "read raises the peer's WRITE_THRESHOLD",
    "read refused for address 0",
    "read refused for its count's range",
    "read refused for its options",
    "read refused for its range",
    "read runs past the ring's end",
    "read threshold 0 clears its bit",
    "read threshold above the queued bytes clears its bit",
    "read threshold leaves the word",
    "read threshold raises its bit",
    "read threshold refused above C",
    "read threshold refused for its handle",
    "read while the peer may not write",
    "read's count lands over its bytes",
    "read's range ends at memory's end",
    "script ends at a refused create, bytes behind it",
    "script ends at a refused create, its last record",
    "script ends behind its last record",
    "script ends without a record",
    "shutdown 0",
    "shutdown 1",
    "shutdown 2",
    "shutdown 3",
    "shutdown with a closed peer",
    "shutdown with ignored bits",
    "stop at a cancel of a wrong length",
    "stop at a close of a wrong length",
    "stop at a create of a wrong length",
    "stop at a disposition of a wrong length",
    "stop at a fill of more than 4096 bytes",
    "stop at a fill without bytes",
    "stop at a first record that is no create",
    "stop at a read of a wrong length",
    "stop at a read threshold of a wrong length",
    "stop at a record cut after its tag",
    "stop at a record cut before its body",
    "stop at a record cut inside its body",
    "stop at a record cut inside its length",
    "stop at a second create",
    "stop at a shutdown of a wrong length",
    "stop at a tag of 13 or more",
    "stop at a take of a wrong length",
    "stop at a wait of a wrong length",
    "stop at a write of a wrong length",
    "stop at a write threshold of a wrong length",
    "stop at an info of a wrong length",
    "take finds nothing",
    "take finds waits only",
    "take gives a packet",
    "take gives the newest of a call's waits first",
    "take of a closed end's packet",
    "wait at a closed end",
    "wait fires at once",
    "wait for an edge stays",
    "wait stays",
    "wait takes the last place",
    "wait with a bad edge byte and no place",
    "write clears WRITE_THRESHOLD",
    "write fills the queue",
    "write into an empty queue",
    "write of 0 bytes is done",
    "write raises READ_THRESHOLD",
    "write refused for a count above 32 bits",
    "write refused for a datagram above the space",
    "write refused for a full queue",
    "write refused for address 0",
    "write refused for an empty datagram",
    "write refused for its count's range, or earlier",
    "write refused for its options",
    "write refused for its range",
    "write runs past the ring's end",
    "write takes fewer bytes than asked",
    "write threshold 0 clears its bit",
    "write threshold above the space clears its bit",
    "write threshold leaves the word",
    "write threshold raises its bit",
    "write threshold refused above C",
    "write threshold refused for a closed peer",
    "write threshold refused for its handle",
    "write with address 0",
    "write's bytes end at memory's end",
    "write's count ends at memory's end",
    "write's count lands over its bytes",
];

/// Names of what a call for a threshold does.
struct Thresholds {
    raises: &'static str,
    clears: &'static str,
    clears_by_zero: &'static str,
    leaves: &'static str,
    too_large: &'static str,
    bad_handle: &'static str,
}

const READ_THRESHOLDS: Thresholds = Thresholds {
    raises: "read threshold raises its bit",
    clears: "read threshold above the queued bytes clears its bit",
    clears_by_zero: "read threshold 0 clears its bit",
    leaves: "read threshold leaves the word",
    too_large: "read threshold refused above C",
    bad_handle: "read threshold refused for its handle",
};

const WRITE_THRESHOLDS: Thresholds = Thresholds {
    raises: "write threshold raises its bit",
    clears: "write threshold above the space clears its bit",
    clears_by_zero: "write threshold 0 clears its bit",
    leaves: "write threshold leaves the word",
    too_large: "write threshold refused above C",
    bad_handle: "write threshold refused for its handle",
};

/// What can be seen of a pair between two calls.
#[derive(Clone, Default)]
pub struct View {
    words: [Option<u32>; 2],
    /// Kind, C, queued, available, peer's C, peer's queued.
    infos: [Option<[u64; 6]>; 2],
    /// Oldest first.
    waits: Vec<Source>,
    /// Oldest first.
    packets: Vec<Fired>,
    /// Where each queue starts in its ring.
    starts: [u64; 2],
}

impl View {
    /// The pair as it is, with the starts that `self` had before the call.
    pub fn next(&self, machine: &Machine, record: &Record, answer: &Answer) -> View {
        let mut view = View::of(machine);
        view.starts = self.starts;
        if let (Record::Read(t), Ok(_)) = (record, answer) {
            let end = t.handle as usize - 1;
            let consumed = self.queued(end) - view.queued(end);
            let capacity = view.infos[end].map_or(1, |info| info[1]);
            view.starts[end] = (self.starts[end] + consumed) % capacity;
        }
        if let (Record::Close { handle }, Ok(_)) = (record, answer) {
            view.starts[*handle as usize - 1] = 0;
        }
        view
    }

    pub fn of(machine: &Machine) -> View {
        View {
            words: [machine.word(0), machine.word(1)],
            infos: [machine.info(0), machine.info(1)],
            waits: machine.waits().waiting().collect(),
            packets: machine.waits().fired().collect(),
            starts: [0, 0],
        }
    }

    fn queued(&self, end: usize) -> u64 {
        self.infos[end].map_or(0, |info| info[2])
    }

    fn used(&self) -> usize {
        self.waits.len() + self.packets.len()
    }

    /// The ends and keys of the packets, oldest first.
    fn sources(&self) -> Vec<Source> {
        self.packets.iter().map(|packet| packet.source).collect()
    }
}

/// One call: the pair before it and after it.
pub struct Step<'a> {
    pub before: &'a View,
    pub after: &'a View,
    pub record: &'a Record,
    pub answer: &'a Answer,
}

/// Names of what happened in a create. All refusals are −10; the name tells the
/// first reason in document 01's order.
pub fn created(record: &Record, done: bool) -> Vec<&'static str> {
    let Record::Create { kind, capacity, rights: [one, two] } = *record else { return Vec::new() };
    let facts = [
        (done && kind == 0, "create makes a stream pair"),
        (done && kind == 1, "create makes a datagram pair"),
        (done && capacity == 1, "create with capacity 1"),
        (done && capacity as usize == RING, "create with capacity 4096"),
    ];
    let refused = [
        (kind > 1, "create refused for its kind"),
        (capacity == 0, "create refused for capacity 0"),
        (capacity as usize > ORIGINAL, "create refused for a capacity above 262144"),
        (one > 7, "create refused for end 1's rights"),
        (two > 7, "create refused for end 2's rights"),
        (capacity as usize > RING, "create refused for rings shorter than its capacity"),
    ];
    let refused = refused.into_iter().find(|(holds, _)| *holds && !done);
    facts.into_iter().filter(|(holds, _)| *holds).chain(refused).map(|(_, name)| name).collect()
}

/// The end, 0 or 1, that a handle names.
fn end_of(handle: u32) -> Option<usize> {
    (1..=2).contains(&handle).then(|| handle as usize - 1)
}

impl Step<'_> {
    /// Names of what happened in the call.
    pub fn names(&self) -> Vec<&'static str> {
        let mut names = Vec::new();
        match self.record {
            Record::Write(t) if self.answer.is_ok() => self.write(t, &mut names),
            Record::Read(t) if self.answer.is_ok() => self.read(t, &mut names),
            Record::Write(t) => names.extend(self.write_refused(t)),
            Record::Read(t) => names.extend(self.read_refused(t)),
            Record::Wait { edge, handle, .. } => self.wait(*handle, *edge, &mut names),
            Record::Close { handle } if self.answer.is_ok() => self.close(*handle, &mut names),
            Record::Disposition { handle, own, peer } => self.disposition(*handle, *own, *peer, &mut names),
            Record::Shutdown { handle, options } => self.shutdown(*handle, *options, &mut names),
            Record::ReadThreshold { handle, threshold } => {
                names.extend(self.threshold(*handle, *threshold, READ_THRESHOLD, &READ_THRESHOLDS));
            }
            Record::WriteThreshold { handle, threshold } => {
                names.extend(self.threshold(*handle, *threshold, WRITE_THRESHOLD, &WRITE_THRESHOLDS));
            }
            Record::Info { handle } => self.info(*handle, &mut names),
            Record::Take => self.take(&mut names),
            Record::Fill { address, bytes } => names.push(self.fill(*address, bytes.len() as u64)),
            Record::Cancel { handle, key } => self.cancel(*handle, *key, &mut names),
            Record::Close { .. } | Record::Create { .. } => {}
        }
        names.extend(self.bad_handle());
        if !matches!(self.record, Record::Take | Record::Wait { .. }) {
            match self.after.packets.len().saturating_sub(self.before.packets.len()) {
                0 => {}
                1 => names.push("a call fires one wait"),
                _ => names.push("a call fires several waits"),
            }
        }
        names
    }

    /// Why a handle was refused.
    fn bad_handle(&self) -> Option<&'static str> {
        // Every record has its handle first.
        let (_, values, _) = self.record.values();
        (*self.answer == Err(-11)).then(|| match values[0] {
            1 | 2 => "a handle refused as closed",
            _ => "a handle refused as none",
        })
    }

    fn raised(&self, end: usize, bit: u32) -> bool {
        let (Some(before), Some(after)) = (self.before.words[end], self.after.words[end]) else {
            return false;
        };
        after & !before & bit != 0
    }

    fn cleared(&self, end: usize, bit: u32) -> bool {
        let (Some(before), Some(after)) = (self.before.words[end], self.after.words[end]) else {
            return false;
        };
        before & !after & bit != 0
    }

    fn write(&self, t: &Transfer, names: &mut Vec<&'static str>) {
        let (Some(end), Ok(Done::Count(count))) = (end_of(t.handle), self.answer) else { return };
        let peer = 1 - end;
        let capacity = self.before.infos[end].map_or(0, |info| info[1]);
        let from = (self.before.starts[peer] + self.before.queued(peer)) % capacity;
        let facts = [
            (*count == 0, "write of 0 bytes is done"),
            (*count < t.count, "write takes fewer bytes than asked"),
            (self.before.queued(peer) == 0 && *count > 0, "write into an empty queue"),
            (self.after.queued(peer) == capacity, "write fills the queue"),
            (from + count > capacity, "write runs past the ring's end"),
            (self.raised(peer, READ_THRESHOLD), "write raises READ_THRESHOLD"),
            (self.cleared(end, WRITE_THRESHOLD), "write clears WRITE_THRESHOLD"),
            (overlaps(t, *count), "write's count lands over its bytes"),
            (t.address == 0, "write with address 0"),
            (ends_at_edge(t.address, *count), "write's bytes end at memory's end"),
            (ends_at_edge(t.count_at, 8), "write's count ends at memory's end"),
        ];
        names.extend(facts.into_iter().filter(|(holds, _)| *holds).map(|(_, name)| name));
    }

    fn read(&self, t: &Transfer, names: &mut Vec<&'static str>) {
        let (Some(end), Ok(Done::Delivered(bytes))) = (end_of(t.handle), self.answer) else { return };
        let (peek, count) = (t.options == 8, bytes.len() as u64);
        let info = self.before.infos[end].unwrap_or_default();
        let consumed = self.before.queued(end) - self.after.queued(end);
        let facts = [
            (peek, "peek is done"),
            (count == 0, "read into 0 bytes is done"),
            (!peek && consumed > count, "read drops a datagram's tail"),
            (peek && info[0] == 1 && t.count < info[3], "peek shows part of a datagram"),
            (self.cleared(end, READABLE), "read empties the queue"),
            (self.raised(1 - end, WRITABLE), "read raises the peer's WRITABLE"),
            (self.raised(1 - end, WRITE_THRESHOLD), "read raises the peer's WRITE_THRESHOLD"),
            (self.cleared(end, READ_THRESHOLD), "read clears READ_THRESHOLD"),
            (self.before.starts[end] + count > info[1], "read runs past the ring's end"),
            (self.before.words[1 - end].is_none(), "read of what a closed peer left"),
            (overlaps(t, count), "read's count lands over its bytes"),
            (ends_at_edge(t.address, t.count), "read's range ends at memory's end"),
            (
                self.before.words[end].is_some_and(|word| word & 0x10 != 0),
                "read while the peer may not write",
            ),
        ];
        names.extend(facts.into_iter().filter(|(holds, _)| *holds).map(|(_, name)| name));
    }

    /// Which of the tests that share −22 or −10 refused a write.
    fn write_refused(&self, t: &Transfer) -> Option<&'static str> {
        if *self.answer == Err(-22) {
            let [_, _, _, _, capacity, queued] = self.before.infos[end_of(t.handle)?]?;
            return Some(if queued == capacity {
                "write refused for a full queue"
            } else {
                "write refused for a datagram above the space"
            });
        }
        if *self.answer != Err(-10) {
            return None;
        }
        Some(if t.options != 0 {
            "write refused for its options"
        } else if t.address == 0 && t.count > 0 {
            "write refused for address 0"
        } else if t.count > u32::MAX as u64 {
            "write refused for a count above 32 bits"
        } else if t.count_at != 0 && !fits(t.count_at, 8) {
            "write refused for its count's range, or earlier"
        } else if t.count == 0 {
            "write refused for an empty datagram"
        } else {
            "write refused for its range"
        })
    }

    /// Which of the tests that share −10 refused a read.
    fn read_refused(&self, t: &Transfer) -> Option<&'static str> {
        if *self.answer != Err(-10) {
            return None;
        }
        Some(if t.count > 0 && t.address == 0 {
            "read refused for address 0"
        } else if t.options != 0 && t.options != 8 {
            "read refused for its options"
        } else if !fits(t.address, t.count) {
            "read refused for its range"
        } else {
            "read refused for its count's range"
        })
    }

    fn wait(&self, handle: u32, edge: u8, names: &mut Vec<&'static str>) {
        let fired = self.after.packets.len() > self.before.packets.len();
        let closed = end_of(handle).is_some_and(|end| self.before.words[end].is_none());
        names.push(match (self.answer, edge) {
            (Ok(_), _) if fired => "wait fires at once",
            (Ok(_), 1) => "wait for an edge stays",
            (Ok(_), _) => "wait stays",
            (Err(-11), _) if closed => "wait at a closed end",
            (Err(-10), _) if self.before.used() == PLACES => "wait with a bad edge byte and no place",
            _ => return,
        });
        if self.answer.is_ok() && self.after.used() == PLACES {
            names.push("wait takes the last place");
        }
    }

    fn close(&self, handle: u32, names: &mut Vec<&'static str>) {
        let end = handle as usize - 1;
        let facts = [
            (self.before.queued(end) > 0, "close drops queued bytes"),
            (self.before.queued(1 - end) > 0, "close leaves bytes at the peer"),
            (self.before.waits.iter().any(|wait| wait.0 == end), "close drops waits"),
            (!self.before.packets.is_empty(), "close leaves packets"),
            (self.before.words[1 - end].is_none(), "close of the second end"),
        ];
        names.extend(facts.into_iter().filter(|(holds, _)| *holds).map(|(_, name)| name));
    }

    fn disposition(&self, handle: u32, own: u32, peer: u32, names: &mut Vec<&'static str>) {
        const DONE: [[&str; 3]; 3] = [
            ["disposition 0 0", "disposition 0 1", "disposition 0 2"],
            ["disposition 1 0", "disposition 1 1", "disposition 1 2"],
            ["disposition 2 0", "disposition 2 1", "disposition 2 2"],
        ];
        if *self.answer == Err(-10) {
            // The numbers are tested before the handle.
            names.push(if own > 2 {
                "disposition refused, own above 2"
            } else {
                "disposition refused, peer above 2"
            });
        }
        let Some(end) = end_of(handle) else { return };
        if self.answer.is_ok() {
            names.push(DONE[own as usize][peer as usize]);
            if self.before.words[1 - end].is_none() && (own, peer) != (0, 0) {
                names.push("disposition with a closed peer");
            }
        } else if *self.answer == Err(-20) {
            names.push(match (own, peer) {
                (2, 2) => "disposition refused, both enable",
                (2, _) => "disposition refused, own enable",
                _ => "disposition refused, peer enable",
            });
        }
    }

    fn shutdown(&self, handle: u32, options: u32, names: &mut Vec<&'static str>) {
        const DONE: [&str; 4] = ["shutdown 0", "shutdown 1", "shutdown 2", "shutdown 3"];
        let (Some(end), Ok(_)) = (end_of(handle), self.answer) else { return };
        names.push(DONE[options as usize & 3]);
        if options > 3 {
            names.push("shutdown with ignored bits");
        }
        if self.before.words[1 - end].is_none() {
            names.push("shutdown with a closed peer");
        }
    }

    fn threshold(&self, handle: u32, threshold: u64, bit: u32, names: &Thresholds) -> Option<&'static str> {
        match self.answer {
            Err(-10) => return Some(names.too_large),
            Err(-24) => return Some("write threshold refused for a closed peer"),
            Err(_) => return Some(names.bad_handle),
            Ok(_) => {}
        }
        let end = end_of(handle)?;
        Some(match (self.raised(end, bit), self.cleared(end, bit)) {
            (true, _) => names.raises,
            (_, true) if threshold == 0 => names.clears_by_zero,
            (_, true) => names.clears,
            _ => names.leaves,
        })
    }

    fn info(&self, handle: u32, names: &mut Vec<&'static str>) {
        let (Some(end), Ok(Done::Info([kind, _, queued, available, ..]))) = (end_of(handle), self.answer)
        else {
            return names.push("info refused");
        };
        names.push(match (kind, available) {
            (_, 0) => "info of an empty queue",
            (0, _) => "info of a stream's bytes",
            _ if available < queued => "info of the first of several datagrams",
            _ => "info of the only datagram",
        });
        if self.before.words[1 - end].is_none() {
            names.push("info with a closed peer");
        }
    }

    fn take(&self, names: &mut Vec<&'static str>) {
        let Some(taken) = self.before.packets.first() else {
            let waits = !self.before.waits.is_empty();
            return names.push(if waits { "take finds waits only" } else { "take finds nothing" });
        };
        names.push("take gives a packet");
        let same = |next: &&Fired| next.call == taken.call && next.source.0 == taken.source.0;
        match self.before.packets.get(1).filter(same) {
            Some(next) if next.wait < taken.wait => {
                names.push("take gives the newest of a call's waits first")
            }
            _ => {}
        }
        if self.before.words[taken.source.0].is_none() {
            names.push("take of a closed end's packet");
        }
    }

    fn cancel(&self, handle: u32, key: u64, names: &mut Vec<&'static str>) {
        let Some(end) = end_of(handle) else { return };
        let (packets, waits) = (self.before.sources(), &self.before.waits);
        let [gone, dropped] = [&packets, waits].map(|list| count(list, |source| source == (end, key)));
        let held = |test: &dyn Fn(Source) -> bool| count(&packets, test) + count(waits, test) > 0;
        let at_other = held(&|source| source == (1 - end, key));
        let facts = match self.answer {
            Err(-11) => vec![(gone > 0, "cancel of a closed end's packets")],
            Err(_) => vec![
                (self.before.used() == 0, "cancel where no place is used"),
                (held(&|(at, _)| at == end), "cancel finds other keys at its end"),
                (at_other, "cancel finds the key at the other end only"),
            ],
            Ok(_) => vec![
                (gone == 1, "cancel removes one packet"),
                (gone > 1, "cancel removes several packets"),
                (dropped == 1, "cancel removes one wait"),
                (dropped > 1, "cancel removes several waits"),
                (gone > 0 && dropped > 0, "cancel removes waits and packets"),
                (has_middle(&packets, (end, key)), "cancel removes from the middle of the packets"),
                (has_middle(waits, (end, key)), "cancel removes from the middle of the waits"),
                (at_other, "cancel leaves the other end's key"),
                (
                    held(&|(at, other)| at == end && other != key && other as u32 == key as u32),
                    "cancel leaves a key that is alike in 32 bits",
                ),
                (self.before.used() == PLACES, "cancel frees places where all were used"),
            ],
        };
        names.extend(facts.into_iter().filter(|(holds, _)| *holds).map(|(_, name)| name));
    }

    fn fill(&self, address: u64, length: u64) -> &'static str {
        match self.answer {
            Ok(_) if ends_at_edge(address, length) => "fill ends at memory's end",
            Ok(_) if address == BASE => "fill begins at memory's beginning",
            Ok(_) => "fill inside memory",
            Err(_) if address < BASE => "fill refused before memory",
            Err(_) if address < BASE + MEMORY as u64 => "fill refused across memory's end",
            Err(_) => "fill refused behind memory",
        }
    }
}

fn count(list: &[Source], test: impl Fn(Source) -> bool) -> usize {
    list.iter().filter(|source| test(**source)).count()
}

/// Whether one of a list goes and has others on both sides that stay.
fn has_middle(list: &[Source], goes: Source) -> bool {
    let stays = |source: &Source| *source != goes;
    let first = list.iter().position(stays);
    let last = list.iter().rposition(stays);
    first.zip(last).is_some_and(|(first, last)| list[first..last].contains(&goes))
}

/// Whether a count lands over some of the bytes of its call.
fn overlaps(t: &Transfer, count: u64) -> bool {
    t.count_at != 0 && count > 0 && t.count_at < t.address + count && t.address < t.count_at + 8
}

fn ends_at_edge(address: u64, length: u64) -> bool {
    length > 0 && address.checked_add(length) == Some(BASE + MEMORY as u64)
}

fn fits(address: u64, length: u64) -> bool {
    let end = BASE as u128 + MEMORY as u128;
    length == 0 || (address >= BASE && address as u128 + length as u128 <= end)
}
