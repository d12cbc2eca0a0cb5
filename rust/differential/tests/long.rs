//! The long script of the repository, and where its buffers end.

use differential::long::{self, BUFFER};
use differential::oracle::listing;
use differential::record::Record;
use script::record::{pieces, Piece, HEAD};

/// The record across a place of a script, and where it begins.
fn across(script: &[u8], place: usize) -> (Record, usize) {
    let mut from = 0;
    for piece in pieces(script) {
        let Piece::Record(record) = piece else { break };
        let mut bytes = Vec::new();
        record.encode(&mut bytes);
        if from + bytes.len() > place {
            return (Record::from(record), from);
        }
        from += bytes.len();
    }
    panic!("no record across {place}");
}

#[test]
fn the_program_is_tested_with_the_long_script() {
    let script = long::script();
    assert!(script == include_bytes!("../../../crates/socket_script/stdin"), "stdin is not the long script");
    assert_eq!(listing(&script), include_str!("../../../crates/socket_script/stdout"));
}

/// What the script program writes at once.
const OUTPUT: usize = 262144;

#[test]
fn a_buffer_ends_among_the_bytes_of_a_fill_and_one_behind_a_tag() {
    let script = long::script();
    let (fill, cut) = across(&script, BUFFER);
    assert!(matches!(fill, Record::Fill { .. }) && BUFFER - cut > HEAD + 8);
    let (write, from) = across(&script, cut + BUFFER);
    assert!(matches!(write, Record::Write(_)) && from + 1 == cut + BUFFER);
    assert!(script.len() > 2 * BUFFER && script.len() - from < BUFFER);
    assert!(listing(&script).len() - listing(&script[..from]).len() > OUTPUT);
}
