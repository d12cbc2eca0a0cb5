//! Random scripts and stored scripts reach every status that documents 01 and
//! 02 (i) give a call of the script program, and every branch that has a name.

use differential::branches::BRANCHES;
use differential::compare::cover;
use differential::sample;
use differential::source::Source;
use differential::tally::Tally;
use script::table::SHAPES;
use std::collections::BTreeSet;

/// 0 stands for a call that is done.
const STATUSES: [&[i64]; SHAPES.len()] = [
    &[0, -10],
    &[0, -10, -11, -14, -20, -22, -24, -30],
    &[0, -10, -11, -20, -22, -24, -30],
    &[0, -10, -11, -20, -30],
    &[0, -11, -30],
    &[0, -10, -11],
    &[0, -10, -11, -24],
    &[0, -11],
    &[0, -11],
    &[0, -3, -10, -11],
    &[0, -22],
    &[0, -10],
    &[0, -11, -25],
];

fn assert_all(tally: &Tally) {
    for (tag, shape) in SHAPES.iter().enumerate() {
        assert_eq!(tally.statuses(tag), STATUSES[tag], "{}", shape.name);
    }
    assert!(BRANCHES.is_sorted_by(|one, next| one < next), "the list has its names once, in order");
    let (reached, all) = (tally.branches(), BTreeSet::from(BRANCHES));
    let missing: Vec<_> = all.difference(&reached).collect();
    let unlisted: Vec<_> = reached.difference(&all).collect();
    assert!(missing.is_empty() && unlisted.is_empty(), "missing {missing:?}, not listed {unlisted:?}");
    let endings = BRANCHES.iter().filter(|name| name.starts_with("script ") || name.starts_with("stop "));
    let ended: u64 = endings.map(|name| tally.times(name)).sum();
    assert_eq!(ended, tally.scripts, "every script ends in one way");
}

#[test]
fn random_scripts_reach_every_status_and_branch() {
    assert_all(&cover(&Source::Random { seed: 11, count: 50_000 }, 2));
}

#[test]
fn stored_scripts_reach_every_status_and_branch() {
    let scripts = sample::scripts().into_iter().map(|(_, script)| script).collect();
    assert_all(&cover(&Source::Scripts(scripts), 1));
}
