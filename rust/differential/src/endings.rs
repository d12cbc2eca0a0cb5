//! How scripts end, and the names of the ways, so that a run can say which it
//! covered.

use script::record::{Damage, Stop, FILL};
use script::table::SHAPES;

/// How a script ends.
pub enum Ending {
    /// Behind its last record; it has so many.
    Whole(u64),
    /// At a create that was refused; so many bytes are behind it.
    Refused(usize),
    Stopped(Stop),
}

impl Ending {
    pub fn name(&self) -> &'static str {
        match self {
            Ending::Whole(0) => "script ends without a record",
            Ending::Whole(_) => "script ends behind its last record",
            Ending::Refused(0) => "script ends at a refused create, its last record",
            Ending::Refused(_) => "script ends at a refused create, bytes behind it",
            Ending::Stopped(stop) => stop_name(stop),
        }
    }
}

fn stop_name(stop: &Stop) -> &'static str {
    match stop {
        Stop::Damaged(Damage::Tag(_)) => "stop at a tag of 13 or more",
        Stop::Damaged(Damage::CutHead(2)) => "stop at a record cut inside its length",
        Stop::Damaged(Damage::CutHead(_)) => "stop at a record cut after its tag",
        Stop::Damaged(Damage::CutBody(0)) => "stop at a record cut before its body",
        Stop::Damaged(Damage::CutBody(_)) => "stop at a record cut inside its body",
        Stop::Damaged(Damage::Length { tag, length }) => wrong_length(*tag, *length),
        Stop::SecondCreate => "stop at a second create",
        Stop::NoCreate => "stop at a first record that is no create",
    }
}

fn wrong_length(tag: u8, length: usize) -> &'static str {
    /// By tag; of a fill, where its length is too large.
    const NAMES: [&str; SHAPES.len()] = [
        "stop at a create of a wrong length",
        "stop at a write of a wrong length",
        "stop at a read of a wrong length",
        "stop at a disposition of a wrong length",
        "stop at a shutdown of a wrong length",
        "stop at a read threshold of a wrong length",
        "stop at a write threshold of a wrong length",
        "stop at an info of a wrong length",
        "stop at a close of a wrong length",
        "stop at a wait of a wrong length",
        "stop at a take of a wrong length",
        "stop at a fill of more than 4096 bytes",
        "stop at a cancel of a wrong length",
    ];
    match tag {
        FILL if length <= 8 => "stop at a fill without bytes",
        _ => NAMES[tag as usize],
    }
}
