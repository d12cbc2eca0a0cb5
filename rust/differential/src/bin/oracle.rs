//! Script on standard input, listing by the original on standard output.

use differential::command::{no_words, run};
use differential::oracle::listing;
use std::io::{self, Read, Write};
use std::process::ExitCode;

const USAGE: &str = "usage: oracle

Runs the script on standard input through the original, and writes its listing to standard output.";

fn main() -> ExitCode {
    run(USAGE, |words| {
        no_words(&words)?;
        let mut script = Vec::new();
        io::stdin().read_to_end(&mut script)?;
        io::stdout().write_all(listing(&script).as_bytes())?;
        Ok(ExitCode::SUCCESS)
    })
}
