//! The pair as the answers of a listing tell it: queues, thresholds, signal words, waits, packets and memory
//! after each record. What a line shows otherwise is noted.

use crate::names::{
    DATAGRAM, ENABLE, PEEK, PEER_CLOSED, PEER_WRITE_DISABLED, READABLE, READ_THRESHOLD, SHUT_READ,
    SHUT_WRITE, SIGNAL_WORD, WRITABLE, WRITE_DISABLED, WRITE_THRESHOLD,
};
use crate::record::{Record, Side};
use std::collections::VecDeque;

/// Entries of each ring and table of the script program.
pub const RING: u64 = 4096;
/// Where the script program's memory begins.
pub const BASE: u64 = 65536;
/// The bytes of the script program's memory.
pub const MEMORY: u64 = 4096;
/// Places for waits and packets.
pub const PLACES: usize = 128;
/// The bytes of a count in memory.
pub const COUNT: u64 = 8;

/// The bytes queued at an end; on datagram pairs also the length of each datagram.
#[derive(Default)]
pub struct Queue {
    /// The bytes, oldest first.
    pub bytes: VecDeque<u8>,
    /// The lengths of the datagrams, oldest first; none on stream pairs.
    pub lengths: VecDeque<usize>,
}

/// One end.
#[derive(Default)]
pub struct End {
    /// Its signal word; none if it is closed or was never made.
    pub word: Option<u32>,
    /// Its rights.
    pub rights: u64,
    /// What it can read.
    pub queue: Queue,
    /// From how many queued bytes on READ_THRESHOLD is set; 0 for none.
    pub read_threshold: u64,
    /// From how much space on WRITE_THRESHOLD is set; 0 for none.
    pub write_threshold: u64,
}

/// A registered wait.
#[derive(Clone, Debug, PartialEq)]
pub struct Wait {
    /// The place of its end, 0 or 1.
    pub end: usize,
    /// Its key.
    pub key: u64,
    /// Its mask.
    pub mask: u32,
}

impl Wait {
    /// Its end and its key, by which it can be cancelled.
    pub fn source(&self) -> (usize, u64) {
        (self.end, self.key)
    }
}

/// A packet.
#[derive(Clone, Debug, PartialEq)]
pub struct Packet {
    /// The place of the wait's end, 0 or 1.
    pub end: usize,
    /// The key of the wait.
    pub key: u64,
    /// The mask of the wait.
    pub trigger: u32,
    /// The word that it met.
    pub observed: u32,
}

impl Packet {
    /// The end and the key of its wait, by which it can be cancelled.
    pub fn source(&self) -> (usize, u64) {
        (self.end, self.key)
    }
}

/// A done call.
pub struct Call<'a> {
    /// Its record.
    pub record: &'a Record,
    /// Its word.
    pub word: u64,
    /// The bytes that its line adds.
    pub bytes: &'a [u8],
    /// The numbers that its line adds.
    pub numbers: &'a [u64],
}

/// The pair with its waits, its packets and the memory.
#[derive(Default)]
pub struct Pair {
    /// Its kind.
    pub kind: u64,
    /// Its capacity.
    pub capacity: u64,
    /// Its ends.
    pub ends: [End; 2],
    /// The waits, oldest first.
    pub waits: Vec<Wait>,
    /// The packets, oldest first.
    pub packets: VecDeque<Packet>,
    /// The packets that the last record made.
    pub came: Vec<Packet>,
    /// The packets that the last record took or cancelled.
    pub gone: Vec<Packet>,
    /// The waits that the last record cancelled.
    pub cancelled: Vec<Wait>,
    memory: Vec<u8>,
    /// The signal words that a call leaves.
    due: [u32; 2],
}

/// Whether a range lies in memory.
pub fn fits(address: u64, length: u64) -> bool {
    let end = u128::from(address) + u128::from(length);
    length == 0 || address >= BASE && end <= u128::from(BASE + MEMORY)
}

impl Pair {
    /// No pair yet, and memory of zeros.
    pub fn new() -> Pair {
        Pair { memory: vec![0; MEMORY as usize], ..Pair::default() }
    }

    /// The place of the end that a record's handle names, if it is open.
    pub fn open(&self, record: &Record) -> Option<usize> {
        let place = match record.value("handle") {
            1 => 0,
            2 => 1,
            _ => return None,
        };
        self.ends[place].word.map(|_| place)
    }

    /// The space left in an end's queue.
    pub fn space(&self, end: &End) -> u64 {
        self.capacity.saturating_sub(end.queue.bytes.len() as u64)
    }

    /// How many bytes a read can deliver at most.
    pub fn available(&self, end: &End) -> u64 {
        match self.kind {
            DATAGRAM => end.queue.lengths.front().copied().unwrap_or(0) as u64,
            _ => end.queue.bytes.len() as u64,
        }
    }

    /// Follows a done call. Each of its changes of a word visits the waits of its end.
    pub fn follow(&mut self, call: &Call, notes: &mut Vec<String>) {
        let shape = call.record.shape();
        self.due = [0, 1].map(|place| self.ends[place].word.unwrap_or(0));
        (shape.follow)(self, call, notes);
        self.derive_bits();
        for (side, bits) in shape.changes {
            let place = if *side == Side::Own { own(call) } else { peer(call) };
            if let Some(word) = self.ends[place].word {
                self.change(place, word & !bits | self.due[place] & bits);
            }
        }
    }

    /// Takes over the signal words of a line, and notes where they are not those that the pair has.
    pub fn take_words(&mut self, listed: [Option<u32>; 2], notes: &mut Vec<String>) {
        for (place, shown) in listed.into_iter().enumerate() {
            let name = place + 1;
            match (self.ends[place].word, shown) {
                (None, Some(_)) => {
                    notes.push(format!("end{name} has a word, expected `-`: the end is closed"))
                }
                (Some(_), None) => notes.push(format!("end{name} is `-`, expected a word: the end is open")),
                (Some(due), Some(word)) if due != word => {
                    let [due, shown] = [due, word].map(|word| SIGNAL_WORD.words(word.into()));
                    notes.push(format!("end{name} has {shown}, expected {due}"));
                    self.ends[place].word = Some(word);
                }
                _ => {}
            }
        }
    }

    /// The bits that the queues, the thresholds and a closed peer decide.
    fn derive_bits(&mut self) {
        for place in 0..2 {
            let (end, peer) = (&self.ends[place], &self.ends[1 - place]);
            let queued = end.queue.bytes.len() as u64;
            let reached = |threshold: u64, number: u64| threshold > 0 && threshold <= number;
            let mut bits = vec![
                (READABLE, queued > 0),
                (READ_THRESHOLD, reached(end.read_threshold, queued)),
                (PEER_CLOSED, peer.word.is_none()),
            ];
            if peer.word.is_some() {
                bits.push((WRITE_THRESHOLD, reached(end.write_threshold, self.space(peer))));
            }
            bits.into_iter().for_each(|(bit, set)| self.put_bit(place, bit, set));
        }
    }

    /// Sets or clears bits of the word that is due at an end.
    fn put_bit(&mut self, place: usize, bits: u32, set: bool) {
        let word = &mut self.due[place];
        *word = if set { *word | bits } else { *word & !bits };
    }

    /// Enables or disables the writing of an end.
    fn put_writing(&mut self, place: usize, enabled: bool) {
        self.put_bit(place, WRITABLE, enabled);
        self.put_bit(place, WRITE_DISABLED, !enabled);
    }

    /// One change of a word: if it is another one, the waits that it meets become packets, newest first.
    fn change(&mut self, place: usize, word: u32) {
        if self.ends[place].word == Some(word) {
            return;
        }
        self.ends[place].word = Some(word);
        let meets = |wait: &Wait| wait.end == place && wait.mask & word != 0;
        let fired: Vec<Wait> = self.waits.iter().rev().filter(|wait| meets(wait)).cloned().collect();
        self.waits.retain(|wait| !meets(wait));
        fired.into_iter().for_each(|wait| self.fire(wait, word));
    }

    fn fire(&mut self, wait: Wait, word: u32) {
        let packet = Packet { end: wait.end, key: wait.key, trigger: wait.mask, observed: word };
        self.came.push(packet.clone());
        self.packets.push_back(packet);
    }

    /// Where a range of memory begins, if the range lies there.
    fn place(&self, address: u64, length: usize) -> Option<usize> {
        (length > 0 && fits(address, length as u64)).then(|| (address - BASE) as usize)
    }

    fn put(&mut self, address: u64, bytes: &[u8]) {
        if let Some(from) = self.place(address, bytes.len()) {
            self.memory[from..from + bytes.len()].copy_from_slice(bytes);
        }
    }

    fn put_count(&mut self, call: &Call) {
        if call.record.value("count_at") != 0 {
            self.put(call.record.value("count_at"), &call.word.to_le_bytes());
        }
    }
}

/// The place of the end that a done call is on.
fn own(call: &Call) -> usize {
    usize::from(call.record.value("handle") == 2)
}

fn peer(call: &Call) -> usize {
    1 - own(call)
}

fn test_word(call: &Call, due: u64, notes: &mut Vec<String>) {
    if call.word != due {
        notes.push(format!("the word is {}, expected {due}", call.word));
    }
}

pub(crate) fn created(pair: &mut Pair, call: &Call, _: &mut Vec<String>) {
    let end = |rights| End { word: Some(WRITABLE), rights: call.record.value(rights), ..End::default() };
    *pair = Pair {
        kind: call.record.value("kind"),
        capacity: call.record.value("capacity"),
        ends: [end("rights1"), end("rights2")],
        due: [WRITABLE; 2],
        ..Pair::new()
    };
}

pub(crate) fn written(pair: &mut Pair, call: &Call, notes: &mut Vec<String>) {
    let peer = peer(call);
    test_word(call, call.record.value("count").min(pair.space(&pair.ends[peer])), notes);
    // More than the space is no answer of a write; it is noted above, and not followed.
    let count = call.word.min(pair.space(&pair.ends[peer])) as usize;
    let bytes = match pair.place(call.record.value("address"), count) {
        Some(from) => pair.memory[from..from + count].to_vec(),
        None => vec![0; count],
    };
    let queue = &mut pair.ends[peer].queue;
    queue.bytes.extend(bytes);
    if pair.kind == DATAGRAM && count > 0 {
        queue.lengths.push_back(count);
    }
    if count > 0 && pair.space(&pair.ends[peer]) == 0 {
        pair.put_bit(own(call), WRITABLE, false);
    }
    pair.put_count(call);
}

pub(crate) fn read(pair: &mut Pair, call: &Call, notes: &mut Vec<String>) {
    let end = &pair.ends[own(call)];
    let count = call.record.value("count").min(pair.available(end));
    test_word(call, count, notes);
    let front = end.queue.bytes.iter().take(call.bytes.len());
    if let Some(at) = front.zip(call.bytes).position(|(queued, shown)| queued != shown) {
        notes.push(format!("byte {at} of those delivered is not the one that is queued there"));
    }
    pair.put(call.record.value("address"), call.bytes);
    pair.put_count(call);
    if call.record.value("options") == PEEK || call.word == 0 {
        return;
    }
    if pair.space(&pair.ends[own(call)]) == 0 {
        pair.put_bit(peer(call), WRITABLE, true);
    }
    let queue = &mut pair.ends[own(call)].queue;
    let leave = match pair.kind {
        DATAGRAM => queue.lengths.pop_front().unwrap_or(0),
        _ => call.word as usize,
    };
    queue.bytes.drain(..leave.min(queue.bytes.len()));
}

/// Own target, then the peer: a target's writing, and whether its peer is told that it may not write.
pub(crate) fn disposed(pair: &mut Pair, call: &Call, _: &mut Vec<String>) {
    let targets = [("own", own(call), peer(call)), ("peer", peer(call), own(call))];
    for (name, target, other) in targets {
        let disposition = call.record.value(name);
        // With a closed peer, its disposition changes no word; the word of a closed end is not shown.
        if disposition != 0 && pair.ends[target].word.is_some() {
            pair.put_writing(target, disposition == ENABLE);
            pair.put_bit(other, PEER_WRITE_DISABLED, disposition != ENABLE);
        }
    }
}

/// The peer gets the same as the caller with both flags negated.
pub(crate) fn shut_down(pair: &mut Pair, call: &Call, _: &mut Vec<String>) {
    let options = call.record.value("options");
    let [write, read] = [SHUT_WRITE, SHUT_READ].map(|bit| options & bit != 0);
    for (place, write, read) in [(own(call), write, read), (peer(call), !write, !read)] {
        if write {
            pair.put_writing(place, false);
        }
        if read {
            pair.put_bit(place, PEER_WRITE_DISABLED, true);
        }
    }
}

pub(crate) fn read_threshold_set(pair: &mut Pair, call: &Call, _: &mut Vec<String>) {
    pair.ends[own(call)].read_threshold = call.record.value("threshold");
}

pub(crate) fn write_threshold_set(pair: &mut Pair, call: &Call, _: &mut Vec<String>) {
    pair.ends[own(call)].write_threshold = call.record.value("threshold");
}

pub(crate) fn asked_for_info(pair: &mut Pair, call: &Call, notes: &mut Vec<String>) {
    let (end, peer) = (&pair.ends[own(call)], &pair.ends[peer(call)]);
    let peer_capacity = if peer.word.is_some() { pair.capacity } else { 0 };
    let [queued, peer_queued] = [end, peer].map(|end| end.queue.bytes.len() as u64);
    let due = [pair.kind, pair.capacity, queued, pair.available(end), peer_capacity, peer_queued];
    if call.numbers != due {
        let due: Vec<String> = due.iter().map(u64::to_string).collect();
        notes.push(format!("expected the info record {}", due.join(" ")));
    }
}

pub(crate) fn closed(pair: &mut Pair, call: &Call, _: &mut Vec<String>) {
    let place = own(call);
    pair.waits.retain(|wait| wait.end != place);
    pair.ends[place] = End::default();
    pair.put_bit(peer(call), WRITABLE, false);
}

pub(crate) fn wait_registered(pair: &mut Pair, call: &Call, _: &mut Vec<String>) {
    let place = own(call);
    let wait = Wait { end: place, key: call.record.value("key"), mask: call.record.value("mask") as u32 };
    match pair.ends[place].word {
        Some(word) if call.record.value("edge") == 0 && word & wait.mask != 0 => pair.fire(wait, word),
        _ => pair.waits.push(wait),
    }
}

pub(crate) fn packet_taken(pair: &mut Pair, call: &Call, notes: &mut Vec<String>) {
    let Some(packet) = pair.packets.pop_front() else { return };
    let due = [packet.key, packet.trigger.into(), packet.observed.into()];
    if call.numbers != due {
        notes.push(format!("expected the packet {:016x} {:08x} {:08x}", due[0], due[1], due[2]));
    }
    pair.gone.push(packet);
}

/// Every wait and every packet of the end with the key goes; the others keep their order.
pub(crate) fn cancelled(pair: &mut Pair, call: &Call, notes: &mut Vec<String>) {
    let asked = (own(call), call.record.value("key"));
    pair.gone = pair.packets.iter().filter(|packet| packet.source() == asked).cloned().collect();
    pair.packets.retain(|packet| packet.source() != asked);
    pair.cancelled = pair.waits.iter().filter(|wait| wait.source() == asked).cloned().collect();
    pair.waits.retain(|wait| wait.source() != asked);
    test_word(call, (pair.gone.len() + pair.cancelled.len()) as u64, notes);
}

pub(crate) fn filled(pair: &mut Pair, call: &Call, notes: &mut Vec<String>) {
    test_word(call, call.record.bytes.len() as u64, notes);
    pair.put(call.record.value("address"), &call.record.bytes);
}
