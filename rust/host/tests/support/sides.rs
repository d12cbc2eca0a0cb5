//! One pair kept twice: by the host's calls over guarded slices, and by the model over copies of them.
//! Every call is made on both sides, and all that it may have changed is compared.

use super::calls::{Call, Shape, What};
use super::guarded::Guarded;
use super::host::{array, lent_end, lent_lengths, Host};
use super::model::{self, Lent, Memory, Model};
use super::numbers::Numbers;
use murgwethan::raw;

const BYTE: u8 = 0xa5;
const LENGTH: u32 = 0xa5a5_a5a5;
const NUMBER: u64 = 0xa5a5_a5a5_a5a5_a5a5;

/// All that a call may be lent.
struct Slices {
    rings: [Guarded<u8>; 2],
    tables: [Guarded<u32>; 2],
    memory: Guarded<u8>,
    plain: Guarded<u8>,
    out: Guarded<u64>,
}

impl Slices {
    fn new(shape: &Shape, contents: &mut Numbers) -> Slices {
        let len = shape.capacity as usize + shape.beyond;
        let mut bytes = |len| {
            let mut slice = Guarded::new(len, 0, BYTE);
            contents.bytes(slice.slice_mut());
            slice
        };
        let rings = [bytes(len), bytes(len)];
        let (memory, plain) = (bytes(shape.memory), bytes(shape.capacity as usize + 2));
        let mut table = || {
            let mut slice = Guarded::new(len, 0, LENGTH);
            slice.slice_mut().iter_mut().for_each(|entry| *entry = contents.next() as u32);
            slice
        };
        let tables = [table(), table()];
        Slices { rings, tables, memory, plain, out: Guarded::new(6, NUMBER, NUMBER) }
    }

    fn copies(&self) -> Copies {
        Copies {
            rings: [0, 1].map(|end| self.rings[end].slice().to_vec()),
            tables: [0, 1].map(|end| self.tables[end].slice().to_vec()),
            memory: self.memory.slice().to_vec(),
            plain: self.plain.slice().to_vec(),
            out: self.out.slice().to_vec(),
        }
    }

    fn is_intact(&self) -> bool {
        let bytes = self.rings.iter().chain([&self.memory, &self.plain]).all(Guarded::is_intact);
        bytes && self.tables.iter().all(Guarded::is_intact) && self.out.is_intact()
    }
}

/// The same without guards.
#[derive(Debug, PartialEq)]
struct Copies {
    rings: [Vec<u8>; 2],
    tables: [Vec<u32>; 2],
    memory: Vec<u8>,
    plain: Vec<u8>,
    out: Vec<u64>,
}

pub struct Sides {
    pub shape: Shape,
    /// The record with a guard on either side.
    kept: [raw::Pair; 3],
    model: Model,
    ours: Slices,
    theirs: Copies,
    contents: Numbers,
}

fn six(out: &mut [u64]) -> &mut [u64; 6] {
    out.try_into().expect("six numbers")
}

impl Sides {
    /// A new pair with contents of its rings, tables and memory drawn from a seed.
    pub fn new(shape: Shape, contents: u64) -> Sides {
        let mut contents = Numbers::new(contents);
        let ours = Slices::new(&shape, &mut contents);
        let mut kept = [raw::Pair::UNMADE; 3];
        let rings = [ours.rings[0].slice(), ours.rings[1].slice()];
        let tables = [ours.tables[0].slice(), ours.tables[1].slice()];
        let word = raw::create(&mut kept[1], shape.kind, shape.capacity, shape.rights, rings, tables);
        assert_eq!(word, 0, "{shape:?}");
        let lengths = [rings[0].len(), rings[1].len()];
        let model = Model::create(shape.kind, shape.capacity, shape.rights, lengths, lengths);
        let theirs = ours.copies();
        let sides = Sides { shape, kept, model: model.expect("a good shape"), ours, theirs, contents };
        sides.compare_state("create");
        sides
    }

    pub fn record(&self) -> raw::Pair {
        self.kept[1]
    }

    /// What the last call put out.
    pub fn out(&self) -> &[u64] {
        self.ours.out.slice()
    }

    /// Changes the record on both sides.
    pub fn set_record(&mut self, record: raw::Pair) {
        self.kept[1] = record;
        self.model = Model::of(&record);
    }

    /// Changes one entry of an end's table on both sides.
    pub fn set_length(&mut self, end: usize, at: usize, length: u32) {
        self.ours.tables[end].slice_mut()[at] = length;
        self.theirs.tables[end][at] = length;
    }

    /// The signal word of each end by the host, -11 for a closed one.
    pub fn signals(&mut self) -> [i64; 2] {
        [1, 2].map(|handle| raw::signal(&mut self.kept[1], handle))
    }

    /// Makes the call on both sides and compares all that it may have changed.
    pub fn call(&mut self, call: &Call) -> i64 {
        self.refill(call);
        let before = self.kept[1];
        let ours = self.on_host(call);
        let theirs = model::word(self.on_model(call));
        let context = || format!("{call:?} on {:?}", self.shape);
        assert_eq!(ours, theirs, "answer of {}", context());
        if ours < 0 || self.model.record().is_none() {
            assert_eq!(self.kept[1], before, "a refused call changed the record: {}", context());
        }
        self.compare_state(&context());
        for handle in [0, 1, 2, 3] {
            let word = raw::signal(&mut self.kept[1], handle);
            assert_eq!(word, self.model.signal(handle), "signals of {handle}");
        }
        ours
    }

    fn compare_state(&self, context: &str) {
        assert_eq!(self.model.record().unwrap_or(self.kept[1]), self.kept[1], "record: {context}");
        assert!(self.ours.is_intact(), "a byte beside a slice was written: {context}");
        let guards = [self.kept[0], self.kept[2]];
        assert_eq!(guards, [raw::Pair::UNMADE; 2], "a byte beside the record was written: {context}");
        assert_eq!(self.ours.copies(), self.theirs, "lent slices: {context}");
    }

    /// Puts new contents where a call finds or leaves bytes, the same on both sides.
    fn refill(&mut self, call: &Call) {
        match call.what {
            What::Write { .. } | What::Read { .. } => {
                self.contents.bytes(self.ours.plain.slice_mut());
                self.theirs.plain.copy_from_slice(self.ours.plain.slice());
            }
            What::UserWrite(_) | What::UserRead(_) => {
                self.contents.bytes(self.ours.memory.slice_mut());
                self.theirs.memory.copy_from_slice(self.ours.memory.slice());
            }
            _ => {}
        }
    }

    fn on_host(&mut self, call: &Call) -> i64 {
        let end = lent_end(call);
        let (ring, table) = lent_lengths(call.lend, &self.shape);
        let host = Host {
            pair: &mut self.kept[1],
            ring: &mut self.ours.rings[end].slice_mut()[..ring],
            table: &mut self.ours.tables[end].slice_mut()[..table],
            base: self.shape.base,
            memory: self.ours.memory.slice_mut(),
            plain: self.ours.plain.slice_mut(),
            out: six(self.ours.out.slice_mut()),
        };
        host.call(call)
    }

    fn on_model(&mut self, call: &Call) -> model::Answer {
        let end = lent_end(call);
        let (ring, table) = lent_lengths(call.lend, &self.shape);
        let ring = &mut self.theirs.rings[end][..ring];
        let lent = Lent { ring, table: &mut self.theirs.tables[end][..table] };
        let memory = Memory { base: self.shape.base, bytes: &mut self.theirs.memory };
        let (model, handle) = (&mut self.model, call.handle);
        let (plain, out) = (&mut self.theirs.plain, six(&mut self.theirs.out));
        match call.what {
            What::Write { n } => model.write(handle, lent, &plain[..n]),
            What::Read { peek, n } => model.read(handle, peek, lent, &mut plain[..n]),
            What::UserWrite(transfer) => model.user_write(handle, memory, transfer, lent),
            What::UserRead(transfer) => model.user_read(handle, memory, transfer, lent),
            What::Info => model.info(handle, lent.table, out),
            What::Thresholds => model.thresholds(handle, array(out)),
            What::Take => model.take(array(out)),
            ref rest => on_model_record(model, handle, rest),
        }
    }
}

/// The model's calls that are lent nothing.
fn on_model_record(model: &mut Model, handle: u32, what: &What) -> model::Answer {
    match *what {
        What::SetDisposition { own, peer } => model.set_disposition(handle, own, peer),
        What::UserSetDisposition { own, peer } => model.user_set_disposition(handle, own, peer),
        What::Shutdown { read, write } => model.shutdown(handle, read, write),
        What::UserShutdown { options } => model.user_shutdown(handle, options),
        What::SetReadThreshold { threshold } => model.set_read_threshold(handle, threshold),
        What::SetWriteThreshold { threshold } => model.set_write_threshold(handle, threshold),
        What::Wait { key, mask, edge } => model.wait(handle, key, mask, edge),
        What::Cancel { key } => model.cancel(handle, key),
        What::Close => model.close(handle),
        _ => unreachable!("{what:?} is lent something"),
    }
}
