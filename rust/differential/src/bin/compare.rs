//! Compares the oracle with a program on many scripts. Prints the first
//! difference with a small script that shows it, and counts.

use differential::command::{self, Stop};
use differential::compare::{compare, Difference, Program};
use differential::source::{Source, USAGE};
use script::text::decode;
use std::process::ExitCode;
use std::time::Instant;

/// Where `rt` links the program, from this package's folder.
const PROGRAM: &str = "../../crates/socket_script/out/socket_script";

fn main() -> ExitCode {
    let usage = format!(
        "usage: compare [--workers N] SCRIPTS [-- PROGRAM [ARGUMENT...]]

Runs scripts through the original and through PROGRAM, prints what was covered and the first
difference, cut down, and ends with 1 where there is one.

SCRIPTS  {USAGE}
PROGRAM  takes a script on standard input (default: {PROGRAM})
N        scripts at a time (default 2)"
    );
    command::run(&usage, run)
}

fn run(mut words: Vec<String>) -> Result<ExitCode, Stop> {
    let mut program = vec![PROGRAM.to_string()];
    if let Some(place) = words.iter().position(|word| word == "--") {
        program = words.split_off(place).split_off(1);
    }
    let mut workers = 2;
    if words.first().is_some_and(|word| word == "--workers") {
        let number = words.get(1).and_then(|word| word.parse().ok());
        workers = number.ok_or("--workers takes a number".to_string())?;
        words.drain(..2);
    }
    if program.is_empty() {
        return Err(Stop::Words("no program after --".to_string()));
    }
    let source = Source::parse(&words)?;
    let start = Instant::now();
    let (tally, difference) = compare(&source, &Program::new(program), workers);
    let seconds = start.elapsed().as_secs_f64();
    print!("{tally}");
    println!("{:.1} s, {:.0} scripts a second", seconds, tally.scripts as f64 / seconds);
    match difference {
        None => {
            println!("no difference");
            Ok(ExitCode::SUCCESS)
        }
        Some(difference) => {
            show(&difference);
            Ok(ExitCode::FAILURE)
        }
    }
}

fn show(difference: &Difference) {
    let (line, expected, found) = difference.line();
    println!("script {} differs; cut down:", difference.number);
    print!("{}", decode(&difference.script));
    println!("line {} of the listing:", line + 1);
    println!("oracle:  {expected}");
    println!("program: {found}");
}
