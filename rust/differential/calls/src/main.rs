//! `calls plain SEED COUNT [C]`, `calls memory SEED COUNT [C]`: makes random
//! lists of calls on the exported pair and on the original, compares after every
//! call, and prints the first difference with a small list that shows it, and
//! counts.

use calls::compare::compare;
use calls::exported::exported;
use calls::generate::Source;
use differential::command::{run, Stop};
use std::process::ExitCode;
use std::time::Instant;

const WORKERS: usize = 2;
const USAGE: &str = "usage: calls plain|memory SEED COUNT [C]

Makes COUNT random lists of calls through the exported calls and through the original, compares after
every call, and ends with 1 at a difference. plain: without user memory; memory: with it. C, from 1 to
262144, is the capacity of every pair; else it is drawn.";

/// The source of lists and their number.
fn asked(words: &[String]) -> Option<(Source, u64)> {
    let (first, rest) = words.split_first()?;
    let memory = match first.as_str() {
        "plain" => false,
        "memory" => true,
        _ => return None,
    };
    let numbers: Vec<u64> = rest.iter().map(|word| word.parse().ok()).collect::<Option<_>>()?;
    match numbers[..] {
        [seed, count] => Some((Source { seed, capacity: None, memory }, count)),
        [seed, count, capacity @ 1..=262_144] => {
            Some((Source { seed, capacity: Some(capacity as u32), memory }, count))
        }
        _ => None,
    }
}

fn main() -> ExitCode {
    run(USAGE, |words| {
        let asked = asked(&words);
        let (source, count) = asked.ok_or_else(|| {
            Stop::Words("two or three numbers are expected behind plain or memory".to_string())
        })?;
        Ok(compare_lists(source, count))
    })
}

fn compare_lists(source: Source, count: u64) -> ExitCode {
    let start = Instant::now();
    let (tally, difference) = compare(source, count, &exported, WORKERS);
    print!("{tally}");
    println!("{:.1} s", start.elapsed().as_secs_f64());
    let Some(difference) = difference else {
        println!("no difference");
        return ExitCode::SUCCESS;
    };
    println!("list {} differs after its last call; cut down:", difference.number);
    print!("{}", difference.list);
    println!("{}", difference.part.what);
    println!("original: {}", difference.part.original);
    println!("exported: {}", difference.part.other);
    ExitCode::FAILURE
}
