//! Makes a fixed list of calls over bytes that are drawn from a seed, and prints a sum of the answers.
//! The script `instructions` counts what two seeds take.

#[path = "../tests/support/mod.rs"]
mod support;

use std::process::ExitCode;
use support::calls::{Call, Most, Shape};
use support::numbers::Numbers;
use support::sides::Sides;

/// A sum that any other answer changes.
fn mixed(sum: u64, number: u64) -> u64 {
    (sum ^ number).wrapping_mul(0x0000_0100_0000_01b3)
}

/// Small pairs, and every fiftieth so large that a copy takes several blocks.
fn shape_of(number: u64, numbers: &mut Numbers) -> Shape {
    let shape = Shape::random(numbers);
    if number % 50 != 0 {
        return shape;
    }
    Shape { capacity: 9000, base: 65_536, memory: 10_000, ..shape }
}

const USAGE: &str = "usage: same_calls [SEED]
Makes a fixed list of calls over bytes that are drawn from the seed, a number, 1 if none is given, and prints
a sum of the answers. SEQUENCES asks for fewer sequences of calls than 200.";

fn main() -> ExitCode {
    let words: Vec<String> = std::env::args().skip(1).collect();
    let seed = match words.as_slice() {
        [] => Some(1),
        [word] if word == "--help" => {
            println!("{USAGE}");
            return ExitCode::SUCCESS;
        }
        [word] => word.parse().ok(),
        _ => None,
    };
    let Some(seed) = seed else {
        eprintln!("{USAGE}");
        return ExitCode::from(2);
    };
    let (calls, sum) = make_calls(seed);
    println!("{calls} calls, sum of answers, signals and records {sum:016x}");
    ExitCode::SUCCESS
}

/// How many calls were made over the bytes of a seed, and the sum of their answers.
fn make_calls(seed: u64) -> (u64, u64) {
    let (mut sum, mut calls) = (0, 0);
    for number in 0..support::sequences(200) {
        let mut numbers = Numbers::new(number);
        let shape = shape_of(number, &mut numbers);
        let mut sides = Sides::new(shape, seed);
        for _ in 0..200 {
            let word = sides.call(&Call::random(&mut numbers, &shape, Most::Neither));
            sum = sides.signals().iter().fold(mixed(sum, word as u64), |sum, word| mixed(sum, *word as u64));
            sum = sides.out().iter().fold(sum, |sum, number| mixed(sum, *number));
            calls += 1;
        }
    }
    (calls, sum)
}
