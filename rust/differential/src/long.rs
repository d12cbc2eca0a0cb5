//! A script longer than twice what the script program reads at once.

use crate::machine::BASE;
use crate::random::Random;
use crate::record::{script_of, Record, Transfer};
use script::record::{join, pieces, HEAD, MOST_FILL};
use script::text::{encode, Missing};

/// What the script program reads at once.
pub const BUFFER: usize = 131072;
/// The size of the address before the bytes of a fill.
const ADDRESS: usize = 8;
/// What a write moves, and the room for it once the worked example has read.
const MOVED: u64 = 7;
/// Their lines are more than the script program writes at once.
const TAKES: usize = 10000;

/// The worked example of document 01, with other records between its read and
/// its close: fills, writes and reads, then takes. The first buffer ends among
/// the bytes of a fill. The second begins with that fill and ends behind the tag
/// of a write. The third begins with that write and has all the takes.
pub fn script() -> Vec<u8> {
    let worked = include_str!("../../../examples/worked.txt");
    let worked = encode(worked, Missing::Mistake).expect("the text form");
    let mut first = pieces(&worked);
    let last = first.split_off(6);
    let mut random = Random::new(1, 0);
    let mut script = join(&first);
    let mut cut = 0;
    while script.len() < BUFFER {
        cut = script.len();
        round(&mut script, &mut random, MOST_FILL);
    }
    let end = cut + BUFFER - 1;
    let before = HEAD + ADDRESS;
    while end - script.len() > before + MOST_FILL {
        round(&mut script, &mut random, MOST_FILL / 2);
    }
    let number = end - script.len() - before;
    round(&mut script, &mut random, number);
    script.extend(script_of(&vec![Record::Take; TAKES]));
    script.extend(join(&last));
    script
}

/// A fill, a write of its last bytes, and a read of all that is queued.
fn round(script: &mut Vec<u8>, random: &mut Random, number: usize) {
    let transfer = |handle, address, count| Transfer { handle, options: 0, address, count, count_at: 0 };
    let bytes = random.bytes(number);
    Record::Fill { address: BASE, bytes }.encode(script);
    Record::Write(transfer(1, BASE + number as u64 - MOVED, MOVED)).encode(script);
    Record::Read(transfer(2, BASE, MOVED + 1)).encode(script);
}
