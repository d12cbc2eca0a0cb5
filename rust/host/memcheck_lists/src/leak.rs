//! Calls that do leak a byte of a ring, each in one way, to show that memcheck reports it.

use std::arch::asm;
use std::hint::black_box;

#[derive(Clone, Copy, PartialEq)]
pub enum Leak {
    /// A conditional jump that depends on the byte.
    Jump,
    /// An address that depends on the byte.
    Address,
    /// An answer that is computed from the byte.
    Answer,
}

static NUMBERS: [i64; 256] = [0; 256];

impl Leak {
    pub fn named(name: &str) -> Option<Leak> {
        match name {
            "jump" => Some(Leak::Jump),
            "address" => Some(Leak::Address),
            "answer" => Some(Leak::Answer),
            _ => None,
        }
    }

    /// The word that such a call answers.
    #[inline(never)]
    pub fn call(self, ring: &[u8]) -> i64 {
        match self {
            Leak::Jump => jump(ring[0]),
            Leak::Address => black_box(&NUMBERS)[usize::from(ring[0])],
            Leak::Answer => ring[0].into(),
        }
    }
}

fn jump(byte: u8) -> i64 {
    if byte > 127 {
        // SAFETY: it does nothing. The compiler cannot leave it out, and so not the jump around it either.
        unsafe { asm!("nop", options(nomem, nostack, preserves_flags)) };
    }
    0
}
