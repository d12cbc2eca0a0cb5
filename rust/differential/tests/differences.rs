//! The scripts of docs/DIFFERENCES.md are among the cases, and their last lines
//! are those that stand behind them. The tables of the recorded run are what is
//! counted now.

use differential::cases::cases;
use differential::compare::cover;
use differential::oracle::listing;
use differential::source::Source;
use differential::tables::tables;
use script::text::{decode, encode, Missing};

const DIFFERENCES: &str = include_str!("../../../docs/DIFFERENCES.md");

/// Each script with the text behind it, up to the next.
fn scripts() -> Vec<(Vec<u8>, &'static str)> {
    let mut scripts = Vec::new();
    let mut rest = DIFFERENCES;
    while let Some(start) = rest.find("    create ") {
        let script = &rest[start..];
        let length = script.find("\n\n").expect("text behind a script");
        rest = &script[length..];
        let behind = &rest[..rest.find("    create ").unwrap_or(rest.len())];
        scripts.push((encode(&script[..length], Missing::Zero).expect("the text form"), behind));
    }
    scripts
}

#[test]
fn scripts_have_the_lines_shown() {
    let scripts = scripts();
    assert_eq!(scripts.len(), 15);
    for (script, behind) in scripts {
        let listing = listing(&script);
        let last = listing.lines().last().expect("a listing");
        assert!(behind.contains(&format!("`{last}`")), "{}{last}\n{behind}", decode(&script));
    }
}

/// A case may go on behind the script.
#[test]
fn scripts_are_stored() {
    let cases = cases();
    let stored = |script: &[u8]| {
        cases.iter().any(|case| case.name.starts_with("difference ") && case.script.starts_with(script))
    };
    for (script, _) in scripts() {
        assert!(stored(&script), "not among the cases:\n{}", decode(&script));
    }
}

#[test]
fn tables_are_those_of_the_recorded_run() {
    for table in tables(&cover(&Source::Random { seed: 1, count: 100_000 }, 2)) {
        assert!(DIFFERENCES.contains(&table), "not in docs/DIFFERENCES.md:\n{table}");
    }
}
