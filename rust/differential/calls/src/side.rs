//! What either side of the comparison does and shows.

use crate::call::{Call, Shape};
use differential::waits::Source;

/// A side's answer to a call.
#[derive(Clone, Debug, PartialEq)]
pub struct Answer {
    /// The count, 0 or the status.
    pub word: i64,
    /// The thresholds, the info record or the packet of a call that is done.
    pub numbers: Vec<u64>,
    /// A read's or peek's whole buffer after the call, done or refused.
    pub buffer: Vec<u8>,
}

impl Answer {
    pub fn word(word: i64) -> Answer {
        Answer { word, numbers: Vec::new(), buffer: Vec::new() }
    }

    /// The numbers count only where the call is done.
    pub fn numbers(word: i64, numbers: &[u64]) -> Answer {
        Answer { numbers: if word < 0 { Vec::new() } else { numbers.to_vec() }, ..Answer::word(word) }
    }
}

impl Answer {
    /// A call that is refused before it finds its end.
    pub fn refused(call: &Call, status: i64) -> Answer {
        match call {
            Call::Read { count, .. } | Call::Peek { count, .. } => {
                Answer { buffer: buffer(*count), ..Answer::word(status) }
            }
            _ => Answer::word(status),
        }
    }
}

/// A buffer before a read.
pub fn buffer(count: u64) -> Vec<u8> {
    vec![0x5a; count as usize]
}

/// A packet.
#[derive(Clone, Debug, PartialEq)]
pub struct Packet {
    pub source: Source,
    pub trigger: u32,
    pub observed: u32,
}

/// All that can be asked of a pair between two calls. A closed end shows nothing.
#[derive(Clone, Debug, PartialEq)]
pub struct Look {
    pub signals: [Option<u32>; 2],
    pub infos: [Option<[u64; 6]>; 2],
    pub thresholds: [Option<[u64; 2]>; 2],
    /// Oldest first.
    pub packets: Vec<Packet>,
    /// Those that have not fired, oldest first.
    pub waits: Vec<Source>,
    /// All of user memory.
    pub memory: Vec<u8>,
}

/// A pair.
pub trait Side {
    fn call(&mut self, call: &Call) -> Answer;
    fn look(&mut self) -> Look;
}

/// Makes a pair.
pub type Make = dyn Fn(&Shape) -> Box<dyn Side> + Sync;
