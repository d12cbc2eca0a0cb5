//! `script encode`, `script decode`, `script explain`, `script page`: scripts of calls on a socket pair as text,
//! and their listings in words and as a page.

mod commands;

use commands::{Asked, Failure};
use std::process::ExitCode;

fn main() -> ExitCode {
    let words: Vec<_> = std::env::args_os().skip(1).collect();
    let done = match commands::asked(&words) {
        Ok(Asked::Help(help)) => commands::write(None, help.as_bytes()),
        Ok(Asked::Run(run)) => commands::run(&run),
        Err(usage) => {
            eprint!("{usage}");
            return ExitCode::from(2);
        }
    };
    match done {
        Ok(()) => ExitCode::SUCCESS,
        Err(Failure(what)) => {
            eprintln!("{what}");
            ExitCode::FAILURE
        }
    }
}
