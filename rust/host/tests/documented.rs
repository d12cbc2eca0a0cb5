//! The documentation of each call of `raw` names the statuses that it can have: those that the random
//! sequences see, and INTERNAL for a damaged record. Create tests no record; signal is no call of a sequence.

mod support;

use murgwethan::Status;
use std::collections::{BTreeMap, BTreeSet};
use support::answers::ANSWERS;

const CALLS: &str = include_str!("../src/raw/calls.rs");
/// How a status is named in the documentation.
const NAMED: &str = "](crate::Status::";

/// The statuses that a text names.
fn named(text: &str) -> BTreeSet<i64> {
    let names = text.split(NAMED).skip(1).filter_map(|rest| rest.split(')').next());
    let number =
        |name: &str| Status::ALL.iter().find(|status| format!("{status:?}") == name).map(|s| s.number());
    names.map(|name| number(name).unwrap_or_else(|| panic!("no status {name}"))).collect()
}

/// The statuses under the heading of errors, by the name of the function.
fn documented() -> BTreeMap<&'static str, BTreeSet<i64>> {
    let parts: Vec<&str> = CALLS.split("pub fn ").collect();
    let pairs = parts.iter().zip(parts.iter().skip(1));
    pairs
        .map(|(before, after)| {
            let name = after.split('(').next().unwrap_or_default();
            let errors = before.rsplit_once("/// # Errors\n").map_or("", |(_, errors)| errors);
            (name, named(errors))
        })
        .collect()
}

/// The statuses that a call can have.
fn expected() -> BTreeMap<&'static str, BTreeSet<i64>> {
    let of_runs = ANSWERS.iter().filter(|(name, _)| *name != "peek").map(|(name, answers)| {
        let statuses = answers.iter().copied().filter(|answer| *answer < 0);
        (*name, statuses.chain([Status::Internal.number()]).collect())
    });
    let others = [
        ("create", BTreeSet::from([Status::InvalidArgs.number()])),
        ("signal", BTreeSet::from([Status::Internal, Status::BadHandle].map(Status::number))),
    ];
    of_runs.chain(others).collect()
}

#[test]
fn every_call_tells_the_statuses_that_it_can_have() {
    assert_eq!(documented(), expected());
}
