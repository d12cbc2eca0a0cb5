//! `tables SCRIPTS`: runs scripts through the oracle alone and prints what they
//! cover: numbers of scripts and records, calls by statuses, branches of calls,
//! and endings of scripts, as tables of docs/DIFFERENCES.md.

use differential::command::run;
use differential::compare::cover;
use differential::source::{Source, USAGE};
use differential::tables::tables;
use std::process::ExitCode;

fn main() -> ExitCode {
    let usage = format!(
        "usage: tables SCRIPTS

Runs scripts through the original alone, and prints what they cover as tables.

SCRIPTS  {USAGE}"
    );
    run(&usage, |words| {
        let source = Source::parse(&words)?;
        print!("{}", tables(&cover(&source, 2)).join("\n"));
        Ok(ExitCode::SUCCESS)
    })
}
