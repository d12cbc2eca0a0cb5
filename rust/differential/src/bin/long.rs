//! `long`: writes the long script to standard output.

use differential::command::{no_words, run};
use differential::long;
use std::io::{self, Write};
use std::process::ExitCode;

const USAGE: &str = "usage: long

Writes the long script, with which the script program is tested, to standard output.";

fn main() -> ExitCode {
    run(USAGE, |words| {
        no_words(&words)?;
        io::stdout().write_all(&long::script())?;
        Ok(ExitCode::SUCCESS)
    })
}
