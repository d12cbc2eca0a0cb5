//! A difference is found and cut down; equal programs have none.

use differential::compare::{compare, Program};
use differential::oracle::listing;
use differential::sample;
use differential::source::Source;
use script::record::{join, pieces, Piece};
use script::table::SHAPES;
use script::text::decode;

fn random(count: u64) -> Source {
    Source::Random { seed: 5, count }
}

#[test]
fn the_oracle_equals_itself() {
    let program = Program::new(vec![env!("CARGO_BIN_EXE_oracle").to_string()]);
    let (tally, difference) = compare(&random(60), &program, 2);
    assert!(difference.is_none());
    assert_eq!(tally.scripts, 60);
}

/// A program that says −20 where −22 is due.
#[test]
fn a_wrong_status_is_cut_to_two_records() {
    let wrong = |script: &[u8]| listing(script).replace(" -22 ", " -20 ").into_bytes();
    let (_, difference) = compare(&random(1000), &wrong, 1);
    let difference = difference.expect("the wrong status is found");
    let lines = decode(&difference.script);
    assert_eq!(lines.lines().count(), 2, "{lines}");
    let (line, expected, found) = difference.line();
    assert_eq!(line, 2);
    assert!(expected.starts_with("1 -22 ") && found.starts_with("1 -20 "), "{expected}, {found}");
}

/// A program that takes bit 0x10 for 0x40 in packets.
#[test]
fn a_wrong_packet_is_cut_to_few_records() {
    let wrong =
        |script: &[u8]| listing(script).replace(" 00000010 00000012\n", " 00000010 00000042\n").into_bytes();
    let (_, difference) = compare(&random(4000), &wrong, 1);
    let lines = decode(&difference.expect("the wrong packet is found").script);
    assert!(lines.lines().count() <= 4, "{lines}");
}

/// A program that takes the first tag that no record has for that of a record.
/// It stops at a create all the same, since there is one before.
#[test]
fn a_tag_that_is_taken_for_another_is_seen_by_the_stored_scripts() {
    let scripts: Vec<Vec<u8>> = sample::scripts().into_iter().map(|(_, script)| script).collect();
    let tags = 1..SHAPES.len() as u8;
    for tag in tags {
        let taken = |script: &[u8]| {
            let mut pieces = pieces(script);
            match pieces.last_mut() {
                Some(Piece::Raw(bytes)) if bytes[0] == SHAPES.len() as u8 => bytes[0] = tag,
                _ => {}
            }
            join(&pieces)
        };
        assert!(scripts.iter().any(|script| listing(script) != listing(&taken(script))), "{tag}");
    }
}

/// A program that fails, here after it has read its script.
#[test]
fn a_failing_program_differs() {
    let words = ["sh", "-c", "cat > /dev/null; echo record word end1 end2; exit 3"];
    let program = Program::new(words.map(String::from).to_vec());
    let (_, difference) = compare(&random(3), &program, 1);
    let difference = difference.expect("the failure is found");
    assert_eq!(difference.script, Vec::<u8>::new());
    assert_eq!(difference.line().2, "(ended with exit status: 3)");
}
