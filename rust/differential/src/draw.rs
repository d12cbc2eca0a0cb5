//! Arguments of calls, drawn at random around the boundaries.

use crate::random::Random;
use crate::waits::PLACES;

pub const ALL: u32 = u32::MAX;

/// Draws arguments for the calls on one pair.
pub struct Draw {
    pub random: Random,
    pub capacity: u64,
    /// How many in a hundred arguments are unusual ones.
    odd: u64,
    /// The keys drawn so far.
    keys: Vec<u64>,
}

impl Draw {
    /// Arguments for a pair of a capacity.
    pub fn new(mut random: Random, capacity: u64) -> Draw {
        let odd = random.pick(&[0, 2, 2, 5, 20]);
        Draw { random, capacity, odd, keys: Vec::new() }
    }

    /// Whether the next argument is to be an unusual one.
    pub fn is_odd(&mut self) -> bool {
        self.random.percent(self.odd)
    }

    pub fn handle(&mut self) -> u32 {
        if self.is_odd() {
            self.random.pick(&[0, 3, 4, 7, 257, 0x10001, ALL])
        } else {
            self.random.pick(&[1, 2])
        }
    }

    pub fn target(&mut self) -> u32 {
        if self.is_odd() {
            self.random.pick(&[3, 4, 257, ALL])
        } else {
            self.random.pick(&[0, 1, 2])
        }
    }

    pub fn shutdown_options(&mut self) -> u32 {
        if self.is_odd() {
            self.random.pick(&[4, 5, 6, 7, 8, 11, 0x100, ALL - 1, ALL])
        } else {
            self.random.below(4) as u32
        }
    }

    pub fn threshold(&mut self) -> u64 {
        let capacity = self.capacity;
        if self.is_odd() {
            return self.random.pick(&[capacity + 1, 1 << 32, (1 << 32) + 1, 1 << 63, u64::MAX]);
        }
        match self.random.below(4) {
            0 => self.random.pick(&[0, 1, capacity - 1, capacity]),
            _ => self.random.below(capacity.min(12) + 1),
        }
    }

    /// A key. So many in a hundred were drawn before, or are alike in their
    /// lower 32 bits.
    fn key(&mut self, again: u64) -> u64 {
        if !self.keys.is_empty() && self.random.percent(again) {
            return self.random.pick(&self.keys) ^ self.random.pick(&[0, 0, 0, 0, 0, 0, 0, 1 << 32]);
        }
        let key = match self.random.below(4) {
            0 => self.random.pick(&[0, 1, 1 << 32, u64::MAX]),
            1 => self.random.next(),
            _ => self.random.below(100),
        };
        self.keys.push(key);
        key
    }

    /// The key of a cancel, mostly one of a wait.
    pub fn cancel_key(&mut self) -> u64 {
        self.key(90)
    }

    /// Key, mask and edge byte of a wait.
    pub fn wait(&mut self) -> (u64, u32, u8) {
        let names = [0x1, 0x2, 0x4, 0x10, 0x20, 0x400, 0x800];
        let mask = match self.random.below(10) {
            0..5 => self.random.pick(&names),
            5..8 => self.random.pick(&names) | self.random.pick(&names),
            8 => self.random.pick(&[0, 0x8, 0xc37, 0xff00_0000, 0x8000_0000, ALL]),
            _ => self.random.next() as u32,
        };
        let key = self.key(30);
        let edge = if self.is_odd() { self.random.pick(&[2, 3, 255]) } else { self.random.pick(&[0, 1]) };
        (key, mask, edge)
    }

    /// Handles, keys and masks of about as many waits as there are places. For
    /// an edge, most of them do not fire.
    pub fn many_waits(&mut self) -> Vec<(u32, u64, u32)> {
        let number = self.random.pick(&[PLACES - 1, PLACES, PLACES + 1]);
        let mask = self.random.pick(&[0, 1, 4, 0x400]);
        (0..number).map(|_| (self.random.pick(&[1, 2]), self.key(60), mask)).collect()
    }
}
