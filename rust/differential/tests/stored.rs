//! The files of the repository that were written by the programs here are what
//! they write now.

use differential::{sample, stream};
use script::text::{encode, Missing};
use std::collections::HashSet;

/// For each script its name, the script and its listing.
const STORED: &[u8] = include_bytes!("../../../crates/replay/stdin");

#[test]
fn the_worked_example_is_its_text_encoded() {
    let text = include_str!("../../../examples/worked.txt");
    let script = encode(text, Missing::Mistake).expect("the text form");
    assert_eq!(script, include_bytes!("../../../examples/worked.script"));
}

#[test]
fn replayed_scripts_are_those_of_the_sample() {
    assert!(sample::stored(&sample::scripts()) == STORED, "stdin is not the sample");
}

/// `replay` prints the name of a script whose listing differs.
#[test]
fn no_name_and_no_script_is_stored_twice() {
    let parts = stream::parts(STORED).expect("whole parts");
    for (what, place) in [("name", 0), ("script", 1)] {
        let mut seen = HashSet::new();
        for entry in parts.chunks(3) {
            assert!(seen.insert(&entry[place]), "{what} of {}", String::from_utf8_lossy(&entry[0]));
        }
    }
}
