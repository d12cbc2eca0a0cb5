//! A pair with all that its calls are lent: rings, user memory and plain slices hold undefined bytes.

use crate::marks;
use crate::support::calls::{Call, Shape, What};
use crate::support::host::{lent_end, lent_lengths, Host};
use murgwethan::raw;

pub struct Kept {
    shape: Shape,
    pair: raw::Pair,
    rings: [Vec<u8>; 2],
    tables: [Vec<u32>; 2],
    memory: Vec<u8>,
    plain: Vec<u8>,
    out: [u64; 6],
}

impl Kept {
    /// Slices for a pair that is yet to be made. What the rings and the tables hold before create is undefined;
    /// the lengths that writes put into a table are public, and defined.
    pub fn new(shape: Shape) -> Kept {
        let entries = shape.capacity as usize + shape.beyond;
        let mut kept = Kept {
            shape,
            pair: raw::Pair::UNMADE,
            rings: [0, 1].map(|_| vec![0; entries]),
            tables: [0, 1].map(|_| vec![0; entries]),
            memory: vec![0; shape.memory],
            plain: vec![0; shape.capacity as usize + 2],
            out: [0; 6],
        };
        kept.rings.iter_mut().for_each(|ring| marks::make_undefined(ring));
        kept.tables.iter_mut().for_each(|table| marks::make_undefined(table));
        kept
    }

    pub fn create(&mut self, kind: u32) -> i64 {
        let rings = [&self.rings[0][..], &self.rings[1]];
        let tables = [&self.tables[0][..], &self.tables[1]];
        raw::create(&mut self.pair, kind, self.shape.capacity, self.shape.rights, rings, tables)
    }

    pub fn signal(&mut self, handle: u32) -> i64 {
        raw::signal(&mut self.pair, handle)
    }

    /// End 1's ring.
    pub fn ring(&self) -> &[u8] {
        &self.rings[0]
    }

    /// Makes the call. Whatever it finds in user memory and in a plain slice is undefined.
    pub fn call(&mut self, call: &Call) -> i64 {
        marks::make_undefined(&mut self.memory);
        marks::make_undefined(&mut self.plain);
        let end = lent_end(call);
        let (ring, table) = lent_lengths(call.lend, &self.shape);
        let host = Host {
            pair: &mut self.pair,
            ring: &mut self.rings[end][..ring],
            table: &mut self.tables[end][..table],
            base: self.shape.base,
            memory: &mut self.memory,
            plain: &mut self.plain,
            out: &mut self.out,
        };
        host.call(call)
    }

    /// The bytes that a call delivered, where no count landed over them.
    pub fn delivered(&self, call: &Call, word: i64) -> &[u8] {
        let count = usize::try_from(word).unwrap_or(0);
        match call.what {
            What::Read { .. } => &self.plain[..count],
            What::UserRead(transfer) if transfer.count_at == 0 && count > 0 => {
                let start = (transfer.address - self.shape.base) as usize;
                &self.memory[start..start + count]
            }
            _ => &[],
        }
    }

    /// Whether each byte of the record, which has no padding, and of what was last put out is defined.
    pub fn is_defined(&self) -> bool {
        marks::is_defined(&[self.out]) && marks::is_defined(std::slice::from_ref(&self.pair))
    }
}
