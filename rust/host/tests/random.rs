//! Random sequences of calls through the host's calls and through a model written from document 01, with
//! cancel from 02 (i).

mod support;

use std::collections::BTreeMap;
use support::answers::ANSWERS;
use support::calls::{Call, Most, Shape};
use support::numbers::Numbers;
use support::sequences;
use support::sides::Sides;

/// How often each call had each answer; counts above 0 are taken together.
type Seen = BTreeMap<(&'static str, i64), u64>;

/// Sequences enough to see every answer.
const SEQUENCES: u64 = 3000;

fn run_sequence(number: u64, seen: &mut Seen) {
    let mut numbers = Numbers::new(number);
    let shape = Shape::random(&mut numbers);
    let most = numbers.pick(&[Most::Bytes, Most::Waits, Most::Neither]);
    let mut sides = Sides::new(shape, !number);
    for _ in 0..400 {
        let call = Call::random(&mut numbers, &shape, most);
        let word = sides.call(&call);
        *seen.entry((call.what.name(), word.min(1))).or_default() += 1;
    }
}

#[test]
fn every_call_answers_as_the_model_does() {
    let mut seen = Seen::new();
    for number in 0..sequences(SEQUENCES) {
        run_sequence(number, &mut seen);
    }
    for ((name, answer), count) in &seen {
        println!("{name} {answer}: {count}");
    }
    let expected = |name: &str, answer: i64| {
        ANSWERS.iter().any(|(call, answers)| *call == name && answers.contains(&answer))
    };
    for (name, answer) in seen.keys() {
        assert!(expected(name, *answer), "{name} answered {answer}");
    }
    if sequences(SEQUENCES) == SEQUENCES {
        for (name, answers) in ANSWERS {
            for answer in answers {
                assert!(seen.contains_key(&(name, *answer)), "{name} never answered {answer}");
            }
        }
    }
}

#[test]
fn the_largest_pair_answers_as_the_model_does() {
    for kind in [0, 1] {
        let shape = Shape { kind, capacity: 262_144, rights: [7, 7], beyond: 3, base: 4096, memory: 300_000 };
        let mut numbers = Numbers::new(kind.into());
        let mut sides = Sides::new(shape, 7);
        let calls = if sequences(SEQUENCES) == SEQUENCES { 300 } else { 20 };
        for _ in 0..calls {
            sides.call(&Call::random(&mut numbers, &shape, Most::Bytes));
        }
    }
}
