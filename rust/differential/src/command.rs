//! What the programs have in common: `--help`, wrong words, and what fails.

use std::io;
use std::process::ExitCode;

/// What ends a program early.
pub enum Stop {
    /// The words of its command line are wrong.
    Words(String),
    /// Something failed.
    Failed(String),
}

impl From<String> for Stop {
    fn from(what: String) -> Stop {
        Stop::Words(what)
    }
}

impl From<io::Error> for Stop {
    fn from(error: io::Error) -> Stop {
        Stop::Failed(error.to_string())
    }
}

/// Runs a program over the words of its command line. `--help` prints the usage
/// and nothing else; wrong words get it on standard error, and status 2.
pub fn run(usage: &str, program: impl FnOnce(Vec<String>) -> Result<ExitCode, Stop>) -> ExitCode {
    let words: Vec<String> = std::env::args().skip(1).collect();
    if words == ["--help"] {
        println!("{usage}");
        return ExitCode::SUCCESS;
    }
    match program(words) {
        Ok(code) => code,
        Err(Stop::Words(what)) => {
            eprintln!("{what}\n{usage}");
            ExitCode::from(2)
        }
        Err(Stop::Failed(what)) => {
            eprintln!("{what}");
            ExitCode::FAILURE
        }
    }
}

/// For a program that takes no words.
pub fn no_words(words: &[String]) -> Result<(), Stop> {
    match words {
        [] => Ok(()),
        [word, ..] => Err(Stop::Words(format!("a word that is not expected: {word}"))),
    }
}
