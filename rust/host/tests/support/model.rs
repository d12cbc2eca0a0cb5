//! The socket pair, written from document 01 alone and in its order, with cancel from 02 (i): plain, slow,
//! one byte at a time.

use murgwethan::raw;

const READABLE: u32 = 0x1;
const WRITABLE: u32 = 0x2;
const PEER_CLOSED: u32 = 0x4;
const PEER_WRITE_DISABLED: u32 = 0x10;
const WRITE_DISABLED: u32 = 0x20;
const READ_THRESHOLD: u32 = 0x400;
const WRITE_THRESHOLD: u32 = 0x800;

/// The count, or the status as a negative number.
pub type Answer = Result<u64, i64>;

/// An answer as one word.
pub fn word(answer: Answer) -> i64 {
    answer.map_or_else(|status| status, |count| count as i64)
}

/// Start and length of a queue in its ring or table.
#[derive(Clone, Copy)]
struct Line {
    start: u64,
    len: u64,
}

impl Line {
    fn place(&self, capacity: u64, k: u64) -> usize {
        ((self.start + k) % capacity) as usize
    }

    fn drop_front(&mut self, capacity: u64, n: u64) {
        self.start = (self.start + n) % capacity;
        self.len -= n;
    }
}

#[derive(Clone, Copy)]
struct End {
    open: bool,
    reading_disabled: bool,
    rights: u32,
    word: u32,
    read_threshold: u64,
    write_threshold: u64,
    bytes: Line,
    lengths: Line,
}

#[derive(Clone, Copy)]
struct Wait {
    /// The number of its end, 1 or 2; a damaged record may hold another, which is no end's.
    end: u64,
    key: u64,
    mask: u32,
    observed: u32,
}

/// The ring and the table that a call is lent.
pub struct Lent<'a> {
    pub ring: &'a mut [u8],
    pub table: &'a mut [u32],
}

/// User memory at its base.
pub struct Memory<'a> {
    pub base: u64,
    pub bytes: &'a mut [u8],
}

impl Memory<'_> {
    fn fits(&self, address: u64, len: u64) -> bool {
        let end = |base: u64, n: u64| u128::from(base) + u128::from(n);
        len == 0 || (address >= self.base && end(address, len) <= end(self.base, self.bytes.len() as u64))
    }

    fn count_fits(&self, address: u64) -> bool {
        address == 0 || self.fits(address, 8)
    }

    fn part(&mut self, address: u64, len: u64) -> &mut [u8] {
        if len == 0 {
            return &mut [];
        }
        let start = (address - self.base) as usize;
        &mut self.bytes[start..start + len as usize]
    }

    fn land_count(&mut self, address: u64, count: u64) {
        if address != 0 {
            self.part(address, 8).copy_from_slice(&count.to_le_bytes());
        }
    }
}

pub struct Model {
    datagram: bool,
    /// What the record has in its spare fields, which stays.
    spare: (u8, u16),
    capacity: u64,
    ends: [End; 2],
    packets: Vec<Wait>,
    waits: Vec<Wait>,
    /// The places behind them. A new wait takes the first; what is freed stands before them, all zeros.
    unused: Vec<raw::Place>,
    /// Whether the record says that more than 128 places are used.
    overfull: bool,
}

fn refuse_if(test: bool, status: i64) -> Result<(), i64> {
    if test {
        Err(status)
    } else {
        Ok(())
    }
}

fn end_of(handle: u32) -> Option<usize> {
    match handle {
        1 => Some(0),
        2 => Some(1),
        _ => None,
    }
}

/// The number that a place has of an end.
fn number_of(end: usize) -> u64 {
    end as u64 + 1
}

fn bit_if(test: bool, bit: u32) -> u32 {
    if test {
        bit
    } else {
        0
    }
}

// Records: what the host keeps, taken over and handed back.
impl Model {
    /// The model of a record, damaged or not.
    pub fn of(record: &raw::Pair) -> Model {
        let raw::Places { packets, waits, table } = &record.places;
        let overfull = packets.checked_add(*waits).is_none_or(|used| used > 128);
        let used = if overfull { &[] } else { &table[..packets + waits] };
        let (fired, waiting) = used.split_at(if overfull { 0 } else { *packets });
        let list = |places: &[raw::Place]| places.iter().map(wait_of).collect();
        Model {
            datagram: record.datagram,
            spare: (record.spare1, record.spare2),
            capacity: record.capacity.into(),
            ends: [end_from(&record.one), end_from(&record.two)],
            packets: list(fired),
            waits: list(waiting),
            unused: table[used.len()..].to_vec(),
            overfull,
        }
    }

    /// The record that the host has to have; nothing if the one it was made of could not be read.
    pub fn record(&self) -> Option<raw::Pair> {
        if self.overfull {
            return None;
        }
        let mut record = raw::Pair::UNMADE;
        record.datagram = self.datagram;
        (record.spare1, record.spare2) = self.spare;
        record.capacity = self.capacity as u32;
        record.one = record_of(&self.ends[0]);
        record.two = record_of(&self.ends[1]);
        record.places.packets = self.packets.len();
        record.places.waits = self.waits.len();
        let used = self.packets.iter().chain(&self.waits).map(place_of);
        let held = used.chain(self.unused.iter().copied());
        record.places.table.iter_mut().zip(held).for_each(|(place, held)| *place = held);
        Some(record)
    }
}

fn wait_of(place: &raw::Place) -> Wait {
    Wait { end: place.end, key: place.key, mask: place.mask, observed: place.observed }
}

fn place_of(wait: &Wait) -> raw::Place {
    let Wait { end, key, mask, observed } = *wait;
    raw::Place { key, mask, observed, end }
}

fn end_from(end: &raw::Endpoint) -> End {
    let line = |span: raw::Span| Line { start: span.start.into(), len: span.count.into() };
    End {
        open: !end.closed,
        reading_disabled: end.read_disabled,
        rights: end.rights.into(),
        word: end.signals,
        read_threshold: end.thresholds.read,
        write_threshold: end.thresholds.write,
        bytes: line(end.queue.bytes),
        lengths: line(end.queue.lengths),
    }
}

fn record_of(end: &End) -> raw::Endpoint {
    let span = |line: Line| raw::Span { start: line.start as u32, count: line.len as u32 };
    raw::Endpoint {
        closed: !end.open,
        read_disabled: end.reading_disabled,
        rights: end.rights as u16,
        signals: end.word,
        thresholds: raw::Thresholds { read: end.read_threshold, write: end.write_threshold },
        queue: raw::Queue { bytes: span(end.bytes), lengths: span(end.lengths) },
    }
}

// "Status and answer word": create, and the tests that come before all others.
impl Model {
    pub fn create(
        kind: u32,
        capacity: u32,
        rights: [u32; 2],
        rings: [usize; 2],
        tables: [usize; 2],
    ) -> Result<Model, i64> {
        refuse_if(kind > 1 || capacity == 0 || capacity > 262_144, -10)?;
        refuse_if(rights.iter().any(|word| *word > 7), -10)?;
        let short = |len: &usize| *len < capacity as usize;
        refuse_if(rings.iter().any(short) || (kind == 1 && tables.iter().any(short)), -10)?;
        let mut record = raw::Pair::UNMADE;
        record.datagram = kind == 1;
        record.capacity = capacity;
        for (end, word) in [&mut record.one, &mut record.two].into_iter().zip(rights) {
            end.closed = false;
            end.rights = word as u16;
            end.signals = WRITABLE;
        }
        Ok(Model::of(&record))
    }

    fn sound_end(&self, end: &End) -> bool {
        let (bytes, lengths) = (end.bytes, end.lengths);
        let starts = bytes.start < self.capacity && lengths.start < self.capacity;
        let datagrams = lengths.len <= bytes.len && (lengths.len == 0) == (bytes.len == 0);
        starts && bytes.len <= self.capacity && (!self.datagram || datagrams)
    }

    fn record_test(&self) -> Result<(), i64> {
        let sound = (1..=262_144).contains(&self.capacity) && !self.overfull;
        refuse_if(!sound || !self.ends.iter().all(|end| self.sound_end(end)), -1)
    }

    /// Short slices, then the first length. `ring` is nothing for a call that uses no ring.
    fn lent_test(&self, end: Option<usize>, ring: Option<usize>, table: &[u32]) -> Result<(), i64> {
        let Some(end) = end else { return Ok(()) };
        let short = |len: usize| (len as u64) < self.capacity;
        refuse_if(ring.is_some_and(short) || (self.datagram && short(table.len())), -10)?;
        let End { bytes, lengths, .. } = self.ends[end];
        if self.datagram && lengths.len > 0 {
            let first = u64::from(table[lengths.start as usize]);
            refuse_if(first == 0 || first > bytes.len, -1)?;
        }
        Ok(())
    }

    fn open_end(&self, handle: u32) -> Result<usize, i64> {
        end_of(handle).filter(|end| self.ends[*end].open).ok_or(-11)
    }

    fn lookup(&self, handle: u32, right: u32) -> Result<usize, i64> {
        let end = self.open_end(handle)?;
        refuse_if(self.ends[end].rights & right == 0, -30)?;
        Ok(end)
    }

    fn opening(&self, handle: u32) -> Result<usize, i64> {
        self.record_test()?;
        self.open_end(handle)
    }
}

// "Signal word and packets".
impl Model {
    fn change(&mut self, end: usize, clear: u32, set: u32) {
        let old = self.ends[end].word;
        let new = (old & !clear) | set;
        self.ends[end].word = new;
        if new == old {
            return;
        }
        for at in (0..self.waits.len()).rev() {
            let wait = self.waits[at];
            if wait.end == number_of(end) && wait.mask & new != 0 {
                self.waits.remove(at);
                self.packets.push(Wait { observed: new, ..wait });
            }
        }
    }

    pub fn wait(&mut self, handle: u32, key: u64, mask: u32, edge: u8) -> Answer {
        let end = self.opening(handle)?;
        refuse_if(edge > 1, -10)?;
        refuse_if(self.waits.len() + self.packets.len() == 128, -3)?;
        let present = self.ends[end].word;
        let wait = Wait { end: number_of(end), key, mask, observed: 0 };
        if edge == 0 && mask & present != 0 {
            self.packets.push(Wait { observed: present, ..wait });
        } else {
            self.waits.push(wait);
        }
        self.unused.remove(0);
        Ok(0)
    }

    pub fn take(&mut self, out: &mut [u64; 5]) -> Answer {
        self.record_test()?;
        refuse_if(self.packets.is_empty(), -22)?;
        let packet = self.packets.remove(0);
        self.free(1);
        *out = [packet.key, packet.mask.into(), packet.observed.into(), 1, 0];
        Ok(0)
    }

    /// So many places are free again.
    fn free(&mut self, number: usize) {
        self.unused.splice(0..0, vec![raw::Pair::UNMADE.places.table[0]; number]);
    }

    /// Removes the waits and packets for which `goes` holds; how many these were.
    fn remove(list: &mut Vec<Wait>, goes: impl Fn(&Wait) -> bool) -> usize {
        let before = list.len();
        list.retain(|wait| !goes(wait));
        before - list.len()
    }

    pub fn cancel(&mut self, handle: u32, key: u64) -> Answer {
        let end = self.opening(handle)?;
        let goes = |wait: &Wait| wait.end == number_of(end) && wait.key == key;
        let removed = Model::remove(&mut self.packets, goes) + Model::remove(&mut self.waits, goes);
        refuse_if(removed == 0, -25)?;
        self.free(removed);
        Ok(removed as u64)
    }

    /// The signal word; -1 for a damaged record, -11 for a closed end and for a handle that is none.
    pub fn signal(&self, handle: u32) -> i64 {
        word(self.opening(handle).map(|end| self.ends[end].word.into()))
    }
}

// "Delivered bytes".
impl Model {
    fn space_at(&self, end: usize) -> u64 {
        self.capacity - self.ends[end].bytes.len
    }

    fn write_size(&self, end: usize, n: u64) -> Answer {
        let peer = 1 - end;
        refuse_if(n > 4_294_967_295, -10)?;
        refuse_if(self.ends[end].word & WRITE_DISABLED != 0, -20)?;
        refuse_if(!self.ends[peer].open, -24)?;
        let space = self.space_at(peer);
        refuse_if(space == 0, -22)?;
        if !self.datagram {
            return Ok(n.min(space));
        }
        refuse_if(n > self.capacity, -14)?;
        refuse_if(n > space, -22)?;
        Ok(n)
    }

    fn feed(&mut self, end: usize, lent: Lent<'_>, bytes: &[u8]) {
        if bytes.is_empty() {
            return;
        }
        let (peer, capacity) = (1 - end, self.capacity);
        let to = &mut self.ends[peer];
        let was_empty = to.bytes.len == 0;
        for byte in bytes {
            lent.ring[to.bytes.place(capacity, to.bytes.len)] = *byte;
            to.bytes.len += 1;
        }
        if self.datagram {
            lent.table[to.lengths.place(capacity, to.lengths.len)] = bytes.len() as u32;
            to.lengths.len += 1;
        }
        let reached = to.read_threshold > 0 && to.bytes.len >= to.read_threshold;
        self.change(peer, 0, bit_if(was_empty, READABLE) | bit_if(reached, READ_THRESHOLD));
        let space = self.space_at(peer);
        let missed = self.ends[end].write_threshold > space;
        self.change(end, bit_if(space == 0, WRITABLE) | bit_if(missed, WRITE_THRESHOLD), 0);
    }

    pub fn write(&mut self, handle: u32, lent: Lent<'_>, bytes: &[u8]) -> Answer {
        self.record_test()?;
        self.lent_test(end_of(handle).map(|end| 1 - end), Some(lent.ring.len()), lent.table)?;
        let end = self.open_end(handle)?;
        let taken = self.write_size(end, bytes.len() as u64)?;
        refuse_if(self.datagram && bytes.is_empty(), -10)?;
        self.feed(end, lent, &bytes[..taken as usize]);
        Ok(taken)
    }

    /// What a read into n bytes delivers, and what then leaves the queue.
    fn read_size(&self, end: usize, table: &[u32], n: u64) -> Result<(u64, u64), i64> {
        let own = &self.ends[end];
        if own.bytes.len == 0 {
            refuse_if(!self.ends[1 - end].open, -24)?;
            refuse_if(own.reading_disabled, -20)?;
            return Err(-22);
        }
        if self.datagram {
            let first = u64::from(table[own.lengths.start as usize]);
            return Ok((n.min(first), if n == 0 { 0 } else { first }));
        }
        let delivered = n.min(own.bytes.len);
        Ok((delivered, delivered))
    }

    fn consume(&mut self, end: usize, leaving: u64) {
        if leaving == 0 {
            return;
        }
        let (peer, capacity, datagram) = (1 - end, self.capacity, self.datagram);
        let own = &mut self.ends[end];
        let was_full = own.bytes.len == capacity;
        own.bytes.drop_front(capacity, leaving);
        if datagram {
            own.lengths.drop_front(capacity, 1);
        }
        let missed = own.read_threshold > 0 && own.bytes.len < own.read_threshold;
        let emptied = own.bytes.len == 0;
        self.change(end, bit_if(missed, READ_THRESHOLD) | bit_if(emptied, READABLE), 0);
        if self.ends[peer].open {
            let threshold = self.ends[peer].write_threshold;
            let reached = threshold > 0 && threshold <= self.space_at(end);
            self.change(peer, 0, bit_if(reached, WRITE_THRESHOLD) | bit_if(was_full, WRITABLE));
        }
    }

    /// Delivers to the buffer's front; the answer is for a buffer of that length.
    fn deliver(&mut self, end: usize, peek: bool, lent: &Lent<'_>, buffer: &mut [u8]) -> Answer {
        let (delivered, leaving) = self.read_size(end, lent.table, buffer.len() as u64)?;
        let front = self.ends[end].bytes;
        for (k, byte) in buffer[..delivered as usize].iter_mut().enumerate() {
            *byte = lent.ring[front.place(self.capacity, k as u64)];
        }
        if !peek {
            self.consume(end, leaving);
        }
        Ok(delivered)
    }

    pub fn read(&mut self, handle: u32, peek: bool, lent: Lent<'_>, buffer: &mut [u8]) -> Answer {
        self.record_test()?;
        self.lent_test(end_of(handle), Some(lent.ring.len()), lent.table)?;
        let end = self.open_end(handle)?;
        self.deliver(end, peek, &lent, buffer)
    }

    pub fn set_read_threshold(&mut self, handle: u32, threshold: u64) -> Answer {
        let end = self.opening(handle)?;
        refuse_if(threshold > self.capacity, -10)?;
        self.ends[end].read_threshold = threshold;
        let queued = self.ends[end].bytes.len;
        self.switch(end, threshold > 0 && threshold <= queued, READ_THRESHOLD);
        Ok(0)
    }

    pub fn set_write_threshold(&mut self, handle: u32, threshold: u64) -> Answer {
        let end = self.opening(handle)?;
        refuse_if(!self.ends[1 - end].open, -24)?;
        refuse_if(threshold > self.capacity, -10)?;
        self.ends[end].write_threshold = threshold;
        let space = self.space_at(1 - end);
        self.switch(end, threshold > 0 && threshold <= space, WRITE_THRESHOLD);
        Ok(0)
    }

    fn switch(&mut self, end: usize, on: bool, bit: u32) {
        self.change(end, bit_if(!on, bit), bit_if(on, bit));
    }

    pub fn thresholds(&self, handle: u32, out: &mut [u64; 2]) -> Answer {
        let end = self.opening(handle)?;
        *out = [self.ends[end].read_threshold, self.ends[end].write_threshold];
        Ok(0)
    }

    fn dispose(&mut self, end: usize, own: u32, peer_number: u32) -> Answer {
        let peer = 1 - end;
        let backlog = |end: &End| end.word & PEER_WRITE_DISABLED != 0 && end.bytes.len > 0;
        refuse_if(own == 2 && self.ends[peer].open && backlog(&self.ends[peer]), -20)?;
        refuse_if(peer_number == 2 && backlog(&self.ends[end]), -20)?;
        if own != 0 {
            self.switch_writing(end, own == 1);
            if self.ends[peer].open {
                self.ends[peer].reading_disabled = own == 1;
                self.switch(peer, own == 1, PEER_WRITE_DISABLED);
            }
        }
        if peer_number != 0 {
            self.ends[end].reading_disabled = peer_number == 1;
            if self.ends[peer].open {
                self.switch_writing(peer, peer_number == 1);
                self.switch(end, peer_number == 1, PEER_WRITE_DISABLED);
            }
        }
        Ok(0)
    }

    fn switch_writing(&mut self, end: usize, off: bool) {
        if off {
            self.change(end, WRITABLE, WRITE_DISABLED);
        } else {
            self.change(end, WRITE_DISABLED, WRITABLE);
        }
    }

    /// The plain call looks at the numbers after the handle, the one over user memory before it.
    pub fn set_disposition(&mut self, handle: u32, own: u32, peer: u32) -> Answer {
        let end = self.opening(handle)?;
        refuse_if(own > 2 || peer > 2, -10)?;
        self.dispose(end, own, peer)
    }

    fn shut(&mut self, end: usize, read: bool, write: bool) {
        self.ends[end].reading_disabled |= read;
        let set = bit_if(read, PEER_WRITE_DISABLED) | bit_if(write, WRITE_DISABLED);
        self.change(end, bit_if(write, WRITABLE), set);
    }

    fn shut_both(&mut self, end: usize, read: bool, write: bool) -> Answer {
        self.shut(end, read, write);
        if self.ends[1 - end].open {
            self.shut(1 - end, !read, !write);
        }
        Ok(0)
    }

    pub fn shutdown(&mut self, handle: u32, read: bool, write: bool) -> Answer {
        let end = self.opening(handle)?;
        self.shut_both(end, read, write)
    }

    pub fn close(&mut self, handle: u32) -> Answer {
        let end = self.opening(handle)?;
        let none = Line { start: 0, len: 0 };
        self.ends[end] = End { open: false, bytes: none, lengths: none, ..self.ends[end] };
        let dropped = Model::remove(&mut self.waits, |wait| wait.end == number_of(end));
        self.free(dropped);
        if self.ends[1 - end].open {
            self.change(1 - end, WRITABLE, PEER_CLOSED);
        }
        Ok(0)
    }
}

// "Info record".
impl Model {
    pub fn info(&self, handle: u32, table: &[u32], out: &mut [u64; 6]) -> Answer {
        self.record_test()?;
        self.lent_test(end_of(handle), None, table)?;
        let end = self.open_end(handle)?;
        let (own, peer) = (&self.ends[end], &self.ends[1 - end]);
        let first = || if own.lengths.len > 0 { table[own.lengths.start as usize].into() } else { 0 };
        let available = if self.datagram { first() } else { own.bytes.len };
        let of_peer = if peer.open { [self.capacity, peer.bytes.len] } else { [0, 0] };
        let options = u64::from(self.datagram);
        *out = [options, self.capacity, own.bytes.len, available, of_peer[0], of_peer[1]];
        Ok(0)
    }
}

// "Calls over user memory".
impl Model {
    pub fn user_write(
        &mut self,
        handle: u32,
        mut memory: Memory<'_>,
        transfer: raw::Transfer,
        lent: Lent<'_>,
    ) -> Answer {
        let raw::Transfer { options, address, count, count_at } = transfer;
        self.record_test()?;
        self.lent_test(end_of(handle).map(|end| 1 - end), Some(lent.ring.len()), lent.table)?;
        refuse_if(options != 0 || (address == 0 && count > 0), -10)?;
        let end = self.lookup(handle, 2)?;
        let taken = self.write_size(end, count)?;
        refuse_if(!memory.fits(address, taken) || !memory.count_fits(count_at), -10)?;
        refuse_if(self.datagram && count == 0, -10)?;
        self.feed(end, lent, memory.part(address, taken));
        memory.land_count(count_at, taken);
        Ok(taken)
    }

    pub fn user_read(
        &mut self,
        handle: u32,
        mut memory: Memory<'_>,
        transfer: raw::Transfer,
        lent: Lent<'_>,
    ) -> Answer {
        let raw::Transfer { options, address, count, count_at } = transfer;
        self.record_test()?;
        self.lent_test(end_of(handle), Some(lent.ring.len()), lent.table)?;
        refuse_if(address == 0 && count > 0, -10)?;
        refuse_if(options != 0 && options != 8, -10)?;
        let end = self.lookup(handle, 1)?;
        refuse_if(!memory.fits(address, count) || !memory.count_fits(count_at), -10)?;
        let delivered = self.deliver(end, options == 8, &lent, memory.part(address, count))?;
        memory.land_count(count_at, delivered);
        Ok(delivered)
    }

    pub fn user_set_disposition(&mut self, handle: u32, own: u32, peer: u32) -> Answer {
        self.record_test()?;
        refuse_if(own > 2 || peer > 2, -10)?;
        let end = self.lookup(handle, 4)?;
        self.dispose(end, own, peer)
    }

    pub fn user_shutdown(&mut self, handle: u32, options: u32) -> Answer {
        self.record_test()?;
        let end = self.lookup(handle, 2)?;
        self.shut_both(end, options & 2 != 0, options & 1 != 0)
    }
}
