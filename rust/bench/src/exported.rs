//! The exported calls, as they are and behind a lock.

use crate::sides::{Mask, Side, BASE, BATCH, COUNT};
use murgwethan::raw::{self, Pair, Transfer};
use std::hint::black_box;
use zcore::sync::Mutex;

/// The exported calls over boxed rings.
pub struct Exported {
    pair: Box<Pair>,
    kind: u32,
    capacity: u32,
    rings: [Box<[u8]>; 2],
    tables: [Box<[u32]>; 2],
    batch: Box<[Pair]>,
    memory: Vec<u8>,
}

fn done(word: i64) -> usize {
    usize::try_from(word).expect("a call that is done")
}

impl Exported {
    /// Makes one pair of the batch.
    fn create(&mut self, at: usize) {
        let rings = [&*self.rings[0], &*self.rings[1]];
        let tables = [&*self.tables[0], &*self.tables[1]];
        done(raw::create(&mut self.batch[at], self.kind, self.capacity, [7, 7], rings, tables));
    }

    /// Closes one end of a pair of the batch.
    fn close(&mut self, at: usize, handle: u32) {
        done(raw::close(&mut self.batch[at], handle));
    }

    /// All of user memory but the place of the count, which is behind it.
    fn transfer(&self) -> Transfer {
        let count = (self.memory.len() - COUNT) as u64;
        Transfer { options: 0, address: BASE, count, count_at: BASE + count }
    }
}

impl Side for Exported {
    fn new(kind: u32, capacity: u32) -> Self {
        let len = capacity as usize;
        let ring = || vec![0; len].into_boxed_slice();
        let table = || vec![0; len].into_boxed_slice();
        let mut side = Exported {
            pair: Box::new(Pair::UNMADE),
            kind,
            capacity,
            rings: [ring(), ring()],
            tables: [table(), table()],
            batch: vec![Pair::UNMADE; BATCH].into_boxed_slice(),
            memory: Vec::new(),
        };
        side.create_batch();
        *side.pair = side.batch[0];
        side
    }

    fn write(&mut self, bytes: &[u8]) -> usize {
        done(raw::write(&mut self.pair, 1, &mut self.rings[1], &mut self.tables[1], bytes))
    }

    fn read(&mut self, buffer: &mut [u8]) -> usize {
        done(raw::read(&mut self.pair, 2, false, &self.rings[1], &self.tables[1], buffer))
    }

    fn map(&mut self, bytes: usize) {
        self.memory = vec![7; bytes + COUNT];
    }

    fn user_write(&mut self) -> usize {
        let transfer = self.transfer();
        let (ring, table) = (&mut self.rings[1], &mut self.tables[1]);
        done(raw::user_write(&mut self.pair, 1, BASE, &mut self.memory, transfer, ring, table))
    }

    fn user_read(&mut self) -> usize {
        let transfer = self.transfer();
        let (ring, table) = (&self.rings[1], &self.tables[1]);
        done(raw::user_read(&mut self.pair, 2, BASE, &mut self.memory, transfer, ring, table))
    }

    fn wait(&mut self, key: u64, mask: Mask) {
        let mask = match mask {
            Mask::Readable => 0x1,
            Mask::PeerClosed => 0x4,
        };
        done(raw::wait(&mut self.pair, 2, key, mask, 0));
    }

    fn take(&mut self) -> u64 {
        let mut out = [0; 5];
        done(raw::take(&mut self.pair, &mut out));
        out[0]
    }

    fn cancel(&mut self, key: u64) {
        assert_eq!(done(raw::cancel(&mut self.pair, 2, key)), 1);
    }

    fn info(&mut self) {
        let mut out = [0; 6];
        done(raw::info(&mut self.pair, 2, &self.tables[1], &mut out));
        // By reference, as on the other side: by value the array is copied first, by loads of 16 bytes that
        // wait for the call's stores of 8.
        black_box(&out);
    }

    fn create_batch(&mut self) {
        (0..BATCH).for_each(|at| self.create(at));
    }

    fn close_batch(&mut self) {
        for at in 0..BATCH {
            self.close(at, 1);
            self.close(at, 2);
        }
    }

    fn first_write(capacity: u32, bytes: &[u8]) -> usize {
        let [one, mut two] = [(); 2].map(|()| vec![0; capacity as usize]);
        let mut pair = Box::new(Pair::UNMADE);
        done(raw::create(&mut pair, 0, capacity, [7, 7], [&one, &two], [&[], &[]]));
        let count = done(raw::write(&mut pair, 1, &mut two, &mut [], bytes));
        done(raw::close(&mut pair, 1));
        done(raw::close(&mut pair, 2));
        black_box((pair, one, two));
        count
    }
}

/// The same calls, each with the lock taken that the original takes: a kernel with several processors puts
/// one around a pair. The original has one in each socket, in each object's base and in each port, and takes
/// several in a call.
pub struct Locked(Mutex<Exported>);

impl Side for Locked {
    fn new(kind: u32, capacity: u32) -> Self {
        Locked(Mutex::new(Exported::new(kind, capacity)))
    }

    fn write(&mut self, bytes: &[u8]) -> usize {
        self.0.lock().write(bytes)
    }

    fn read(&mut self, buffer: &mut [u8]) -> usize {
        self.0.lock().read(buffer)
    }

    fn map(&mut self, bytes: usize) {
        self.0.lock().map(bytes);
    }

    fn user_write(&mut self) -> usize {
        self.0.lock().user_write()
    }

    fn user_read(&mut self) -> usize {
        self.0.lock().user_read()
    }

    fn wait(&mut self, key: u64, mask: Mask) {
        self.0.lock().wait(key, mask);
    }

    fn take(&mut self) -> u64 {
        self.0.lock().take()
    }

    fn cancel(&mut self, key: u64) {
        self.0.lock().cancel(key);
    }

    fn info(&mut self) {
        self.0.lock().info();
    }

    fn create_batch(&mut self) {
        (0..BATCH).for_each(|at| self.0.lock().create(at));
    }

    fn close_batch(&mut self) {
        for at in 0..BATCH {
            self.0.lock().close(at, 1);
            self.0.lock().close(at, 2);
        }
    }

    fn first_write(capacity: u32, bytes: &[u8]) -> usize {
        let lock = Mutex::new(());
        let _held = lock.lock();
        Exported::first_write(capacity, bytes)
    }
}
