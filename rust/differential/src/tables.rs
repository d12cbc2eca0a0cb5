//! What a run covered, as docs/DIFFERENCES.md shows it.

use crate::branches::BRANCHES;
use crate::tally::{with_commas, Tally};
use script::table::SHAPES;
use std::collections::BTreeSet;
use std::ops::Range;

/// How the names of branches begin that stand together: those of each call in
/// the order of the tags, those of no certain call, and the endings of scripts.
const GROUPS: [&[&str]; 16] = [
    &["create "],
    &["write ", "write's "],
    &["read ", "read's ", "peek "],
    &["disposition "],
    &["shutdown "],
    &["read threshold "],
    &["write threshold "],
    &["info "],
    &["close "],
    &["wait "],
    &["take "],
    &["fill "],
    &["cancel "],
    &["a "],
    &["script "],
    &["stop "],
];
/// The first group of endings.
const ENDINGS: usize = 14;
/// Branches in a row of a table.
const IN_A_ROW: usize = 2;

/// Numbers of scripts and records; then three tables: calls by statuses,
/// branches of calls, endings of scripts.
pub fn tables(tally: &Tally) -> [String; 4] {
    [
        tally.summary() + "\n",
        statuses(tally),
        branches(tally, ["Branch", "Times"], 0..ENDINGS),
        branches(tally, ["Ending", "Scripts"], ENDINGS..GROUPS.len()),
    ]
}

fn statuses(tally: &Tally) -> String {
    let all: BTreeSet<i64> = tally.refused.iter().flat_map(|refused| refused.keys().copied()).collect();
    let heads = all.iter().rev().map(|status| format!("−{}", -status));
    let heads: Vec<String> = ["Call".to_string(), "done".to_string()].into_iter().chain(heads).collect();
    let mut table = row(&heads) + &rule(heads.len(), heads.len());
    for (tag, shape) in SHAPES.iter().enumerate() {
        let mut cells = vec![shape.name.to_string(), with_commas(tally.done[tag])];
        let refused =
            |status| tally.refused[tag].get(status).map_or(String::new(), |times| with_commas(*times));
        cells.extend(all.iter().rev().map(refused));
        table += &row(&cells);
    }
    table
}

fn branches(tally: &Tally, heads: [&str; 2], groups: Range<usize>) -> String {
    let heads: Vec<String> = heads.repeat(IN_A_ROW).into_iter().map(String::from).collect();
    let mut table = row(&heads) + &rule(heads.len(), 2);
    for place in groups {
        let names: Vec<&str> = BRANCHES.into_iter().filter(|name| group(name) == place).collect();
        for names in names.chunks(IN_A_ROW) {
            let cells = names.iter().flat_map(|name| [name.to_string(), with_commas(tally.times(name))]);
            let mut cells: Vec<String> = cells.collect();
            cells.resize(heads.len(), String::new());
            table += &row(&cells);
        }
    }
    table
}

/// The group whose beginning is the longest that a name has.
fn group(name: &str) -> usize {
    let length = |beginning: &&str| if name.starts_with(beginning) { beginning.len() } else { 0 };
    let longest = |place: &usize| GROUPS[*place].iter().map(length).max();
    (0..GROUPS.len()).max_by_key(longest).expect("there are groups")
}

fn row(cells: &[String]) -> String {
    let cell = |cell: &String| if cell.is_empty() { "| ".to_string() } else { format!("| {cell} ") };
    cells.iter().map(cell).collect::<String>() + "|\n"
}

/// The line below the heads. Of so many columns each the first is for text, the
/// others for numbers.
fn rule(columns: usize, each: usize) -> String {
    let part = |column| if column % each == 0 { "|---" } else { "|---:" };
    (0..columns).map(part).collect::<String>() + "|\n"
}
