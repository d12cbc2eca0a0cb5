//! Makes lists of calls on two sides, and finds a small list for the first
//! difference.

use crate::call::{Call, List, Shape};
use crate::generate::Source;
use crate::original::original;
use crate::side::{Answer, Look, Make, Side};
use crate::tally::Tally;
use differential::compare::search;
use differential::shrink::{shrink_list, smaller};
use std::fmt::Debug;

/// Where the sides part.
#[derive(Debug)]
pub struct Difference {
    pub number: u64,
    /// The list cut down; its last call shows the difference.
    pub list: List,
    pub part: Part,
}

/// What differs after a call.
#[derive(Debug)]
pub struct Part {
    pub what: &'static str,
    pub original: String,
    pub other: String,
}

/// Compares lists on some threads. The tally counts the lists that were compared.
pub fn compare(source: Source, count: u64, make: &Make, workers: usize) -> (Tally, Option<Difference>) {
    let differs = |number, tally: &mut Tally| run(&source.list(number), make, tally).is_err();
    let (tallies, first) = search(count, workers, differs);
    let mut total = Tally::default();
    tallies.into_iter().for_each(|tally| total.add(tally));
    (total, first.map(|number| cut(number, source.list(number), make)))
}

/// Makes the calls of a list on both sides, then takes all packets and reads all
/// bytes. At a difference it gives the list up to the call that shows it.
fn run(list: &List, make: &Make, tally: &mut Tally) -> Result<(), (List, Part)> {
    let shape = &list.shape;
    tally.count_list(shape);
    let mut sides = [original(shape), make(shape)];
    let mut made = List { shape: *shape, calls: Vec::new() };
    let mut call = |call: &Call| {
        made.calls.push(call.clone());
        step(&mut sides, call, tally).map_err(|part| (made.clone(), part))
    };
    list.calls.iter().try_for_each(|one| call(one).map(drop))?;
    while call(&Call::Take)? >= 0 {}
    for handle in [1, 2] {
        while call(&Call::Read { handle, count: shape.capacity.into() })? > 0 {}
    }
    Ok(())
}

/// Makes a call on both sides and gives its word, or what differs.
fn step(sides: &mut [Box<dyn Side>; 2], call: &Call, tally: &mut Tally) -> Result<i64, Part> {
    let [original, other] = sides;
    let (expected, found) = (original.call(call), other.call(call));
    tally.count(call, expected.word);
    same_answers(&expected, &found)?;
    same_looks(&original.look(), &other.look())?;
    Ok(expected.word)
}

fn same<T: PartialEq + Debug>(what: &'static str, original: &T, other: &T) -> Result<(), Part> {
    if original == other {
        return Ok(());
    }
    Err(Part { what, original: format!("{original:?}"), other: format!("{other:?}") })
}

fn same_answers(original: &Answer, other: &Answer) -> Result<(), Part> {
    same("word", &original.word, &other.word)?;
    same("numbers", &original.numbers, &other.numbers)?;
    same_bytes("buffer, at its first difference", &original.buffer, &other.buffer)
}

/// They can be many: the first that differs is enough.
fn same_bytes(what: &'static str, original: &[u8], other: &[u8]) -> Result<(), Part> {
    if original == other {
        return Ok(());
    }
    let at = original.iter().zip(other).take_while(|(one, two)| one == two).count();
    same(what, &(at, original.get(at)), &(at, other.get(at)))
}

fn same_looks(original: &Look, other: &Look) -> Result<(), Part> {
    same("signals", &original.signals, &other.signals)?;
    same("infos", &original.infos, &other.infos)?;
    same("thresholds", &original.thresholds, &other.thresholds)?;
    same("packets", &original.packets, &other.packets)?;
    same("waits", &original.waits, &other.waits)?;
    same_bytes("user memory, at its first difference", &original.memory, &other.memory)
}

fn cut(number: u64, list: List, make: &Make) -> Difference {
    let difference = |list: &List| run(list, make, &mut Tally::default()).err();
    let (mut list, mut part) = difference(&list).expect("the list differs");
    loop {
        let before = list.clone();
        let shape = list.shape;
        let shows = |calls: &[Call]| difference(&List { shape, calls: calls.to_vec() }).is_some();
        let calls = shrink_list(list.calls, Call::simpler, shows);
        let smaller = smaller(shape.capacity.into(), 1).map(|capacity| capacity as u32);
        let shapes = smaller.chain([shape.capacity]).map(|capacity| Shape { capacity, ..shape });
        let mut tried = shapes.map(|shape| List { shape, calls: calls.clone() });
        (list, part) = tried.find_map(|list| difference(&list)).unwrap_or((before.clone(), part));
        if list == before {
            return Difference { number, list, part };
        }
    }
}
