//! Runs random lists of the exported calls while memcheck takes every byte of rings, user memory and plain slices
//! for undefined. The script `memcheck` starts it under valgrind and says what is shown.

mod kept;
mod leak;
mod marks;
mod support;

use kept::Kept;
use leak::Leak;
use std::collections::BTreeMap;
use std::process::ExitCode;
use support::calls::{Call, Most, Shape, What};
use support::numbers::Numbers;

const USAGE: &str = "usage: memcheck_lists [--leak jump|address|answer] LISTS

Runs LISTS lists of 20 to 200 calls, under valgrind alone. With --leak the program itself leaks
a byte of a ring after each call, in the way named.";

/// How often each exported call was done and refused, and how many delivered bytes were looked at.
#[derive(Default)]
struct Tally {
    calls: BTreeMap<&'static str, [u64; 2]>,
    delivered: u64,
}

struct Arguments {
    leak: Option<Leak>,
    lists: u64,
}

fn arguments(words: &[String]) -> Option<Arguments> {
    let (leak, lists) = match words {
        [lists] => (None, lists),
        [option, name, lists] if option == "--leak" => (Some(Leak::named(name)?), lists),
        _ => return None,
    };
    Some(Arguments { leak, lists: lists.parse().ok()? })
}

/// Small pairs, and every tenth so large that a copy takes several blocks.
fn shape_of(number: u64, numbers: &mut Numbers) -> Shape {
    let shape = Shape::random(numbers);
    if number % 10 != 0 {
        return shape;
    }
    Shape { capacity: 9000, base: 65_536, memory: 10_000, ..shape }
}

/// The name of the exported call.
fn exported(what: &What) -> &'static str {
    match what {
        What::Read { .. } => "read",
        _ => what.name(),
    }
}

/// Counts an answer, which must be defined; only then may anything depend on it.
fn count(tally: &mut Tally, name: &'static str, word: i64) -> Result<(), String> {
    if !marks::is_defined(&[word]) {
        return Err(format!("the answer of {name} depends on a byte"));
    }
    tally.calls.entry(name).or_default()[usize::from(word < 0)] += 1;
    Ok(())
}

/// One call, and what it must leave: defined numbers everywhere, and undefined bytes where it delivered some.
fn run_call(kept: &mut Kept, call: &Call, leak: Option<Leak>, tally: &mut Tally) -> Result<(), String> {
    let name = exported(&call.what);
    let word = kept.call(call);
    count(tally, name, word)?;
    if !kept.is_defined() {
        return Err(format!("what {name} left in the record or put out depends on a byte"));
    }
    let delivered = kept.delivered(call, word);
    if marks::undefined_bytes(delivered) != delivered.len() {
        return Err(format!("{name} delivered bytes that memcheck takes for defined"));
    }
    tally.delivered += delivered.len() as u64;
    for handle in [0, 1, 2, 3] {
        count(tally, "signal", kept.signal(handle))?;
    }
    match leak {
        Some(leak) => count(tally, "leak", leak.call(kept.ring())),
        None => Ok(()),
    }
}

fn run_list(number: u64, leak: Option<Leak>, tally: &mut Tally) -> Result<(), String> {
    let mut numbers = Numbers::new(number);
    let shape = shape_of(number, &mut numbers);
    let most = numbers.pick(&[Most::Bytes, Most::Waits, Most::Neither]);
    let mut kept = Kept::new(shape);
    for kind in [2, shape.kind] {
        count(tally, "create", kept.create(kind))?;
    }
    // In short lists most queues are still open to writes; in long ones the places of waits fill.
    for _ in 0..numbers.pick(&[20, 50, 200]) {
        run_call(&mut kept, &Call::random(&mut numbers, &shape, most), leak, tally)?;
    }
    Ok(())
}

fn run(arguments: &Arguments) -> Result<Tally, String> {
    if !marks::on_valgrind() {
        return Err("not under valgrind: the script rust/host/memcheck starts this program".into());
    }
    let mut tally = Tally::default();
    for number in 0..arguments.lists {
        run_list(number, arguments.leak, &mut tally)?;
    }
    if tally.delivered == 0 {
        return Err("no list delivered a byte".into());
    }
    Ok(tally)
}

fn print(tally: &Tally) {
    for (name, [done, refused]) in &tally.calls {
        println!("{name}: {done} done, {refused} refused");
    }
    println!("delivered bytes, all undefined: {}", tally.delivered);
}

fn main() -> ExitCode {
    let words: Vec<String> = std::env::args().skip(1).collect();
    if words == ["--help"] {
        println!("{USAGE}");
        return ExitCode::SUCCESS;
    }
    let Some(arguments) = arguments(&words) else {
        eprintln!("{USAGE}");
        return ExitCode::from(2);
    };
    match run(&arguments) {
        Ok(tally) => {
            print(&tally);
            ExitCode::SUCCESS
        }
        Err(reason) => {
            eprintln!("{reason}");
            ExitCode::FAILURE
        }
    }
}
