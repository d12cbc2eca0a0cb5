//! The stored scripts: their text encodes to the same bytes, and their listings fit them.

mod support;

use script::explain::explain;
use script::text::{decode, encode, Missing};
use script::trace::trace;
use support::stored;

#[test]
fn text_and_bytes_agree() {
    for entry in stored() {
        let text = decode(&entry.script);
        let again =
            encode(&text, Missing::Mistake).unwrap_or_else(|what| panic!("{}: {what}\n{text}", entry.name));
        assert_eq!(again, entry.script, "{}", entry.name);
    }
}

#[test]
fn listings_fit() {
    for entry in stored() {
        let mut said = Vec::new();
        let outcome = explain(&entry.script, &entry.listing, &mut said).expect("a vector takes it");
        assert_eq!(outcome.number, 0, "{}:\n{}", entry.name, String::from_utf8_lossy(&said));
    }
}

/// The listing of another script does not fit, unless it is the same.
#[test]
fn listings_of_other_scripts_do_not_fit() {
    let stored = stored();
    for (entry, other) in
        stored.iter().zip(&stored[1..]).filter(|(entry, other)| entry.listing != other.listing)
    {
        let outcome = trace(&entry.script, &other.listing, &mut |_| {});
        assert!(outcome.number > 0, "{} and the listing of {}", entry.name, other.name);
    }
}

/// Edits that are tried of each listing.
const EDITS: u64 = 40;

/// Numbers that depend on the seed alone.
fn random(seed: &mut u64) -> u64 {
    *seed = seed.wrapping_mul(6364136223846793005).wrapping_add(1442695040888963407);
    *seed >> 33
}

/// A listing in which one letter is another one does not fit.
#[test]
fn edited_listings_do_not_fit() {
    let mut seed = 1;
    for entry in stored().iter().filter(|entry| entry.listing.len() < 10_000) {
        for _ in 0..EDITS {
            let at = random(&mut seed) as usize % entry.listing.len();
            let letter = b"0123456789abcdef -\n"[random(&mut seed) as usize % 19];
            let mut edited = entry.listing.clone().into_bytes();
            if std::mem::replace(&mut edited[at], letter) == letter {
                continue;
            }
            let edited = String::from_utf8(edited).expect("text");
            let outcome = trace(&entry.script, &edited, &mut |_| {});
            assert!(outcome.number > 0, "{}: byte {at} of\n{edited}", entry.name);
        }
    }
}
