//! The exported calls equal the original's; a wrong side is found and cut down.

use calls::call::{Call, Shape};
use calls::compare::{compare, Difference};
use calls::exported::exported;
use calls::generate::Source;
use calls::side::{Answer, Look, Make, Side};
use calls::tally::Tally;

fn compared(memory: bool, capacity: Option<u32>, count: u64, make: &Make) -> (Tally, Option<Difference>) {
    compare(Source { seed: 3, capacity, memory }, count, make, 2)
}

#[test]
fn small_pairs_have_no_difference_and_every_answer() {
    for memory in [false, true] {
        let (tally, difference) = compared(memory, None, 2000, &exported);
        assert!(difference.is_none(), "{difference:?}");
        assert_eq!((tally.missing(), tally.unexpected()), (vec![], vec![]));
    }
}

#[test]
fn the_largest_pair_has_no_difference() {
    for memory in [false, true] {
        let (tally, difference) = compared(memory, Some(262_144), 20, &exported);
        assert!(difference.is_none(), "{difference:?}");
        assert_eq!(tally.lists, 20);
    }
}

/// The exported calls with one thing changed.
struct Wrong {
    right: Box<dyn Side>,
    answer: fn(&Call, &mut Answer),
    look: fn(&mut Look),
}

impl Side for Wrong {
    fn call(&mut self, call: &Call) -> Answer {
        let mut answer = self.right.call(call);
        (self.answer)(call, &mut answer);
        answer
    }

    fn look(&mut self) -> Look {
        let mut look = self.right.look();
        (self.look)(&mut look);
        look
    }
}

/// The smallest list and what it shows.
fn cut_list(memory: bool, answer: fn(&Call, &mut Answer), look: fn(&mut Look)) -> (String, &'static str) {
    let wrong =
        move |shape: &Shape| Box::new(Wrong { right: exported(shape), answer, look }) as Box<dyn Side>;
    let (_, difference) = compared(memory, None, 2000, &wrong);
    let difference = difference.expect("the wrong side is found");
    (difference.list.to_string(), difference.part.what)
}

#[test]
fn a_wrong_status_is_cut_to_one_call() {
    let no_packet = |call: &Call, answer: &mut Answer| {
        if *call == Call::Take && answer.word == -22 {
            answer.word = -20;
        }
    };
    let (list, what) = cut_list(false, no_packet, |_| {});
    let lines: Vec<&str> = list.lines().collect();
    assert!(lines[0].contains(" capacity=1 "), "{list}");
    assert_eq!((&lines[1..], what), (&["take"][..], "word"));
}

#[test]
fn a_wrong_byte_is_cut_to_a_write_and_a_read() {
    let last_byte = |call: &Call, answer: &mut Answer| {
        if let (Call::Peek { .. }, Some(byte)) = (call, answer.buffer.last_mut()) {
            *byte ^= u8::from(answer.word > 0);
        }
    };
    let (list, what) = cut_list(false, last_byte, |_| {});
    let lines: Vec<&str> = list.lines().collect();
    assert!(lines[0].contains(" capacity=1 ") && lines[2].starts_with("peek "), "{list}");
    assert_eq!(lines.len(), 3, "{list}");
    assert_eq!(what, "buffer, at its first difference");
}

#[test]
fn a_wrong_number_of_a_cancel_is_cut_to_a_wait_and_a_cancel() {
    let one_less = |call: &Call, answer: &mut Answer| {
        if matches!(call, Call::Cancel { .. }) && answer.word > 0 {
            answer.word -= 1;
        }
    };
    let (list, what) = cut_list(false, one_less, |_| {});
    let lines: Vec<&str> = list.lines().collect();
    assert!(lines[1].starts_with("wait ") && lines[2].starts_with("cancel "), "{list}");
    assert_eq!((lines.len(), what), (3, "word"), "{list}");
}

#[test]
fn waits_in_another_order_are_cut_to_two_waits() {
    let (list, what) = cut_list(false, |_, _| {}, |look| look.waits.reverse());
    let lines: Vec<&str> = list.lines().collect();
    assert!(lines[1..].iter().all(|line| line.starts_with("wait ")), "{list}");
    assert_eq!((lines.len(), what), (3, "waits"), "{list}");
}

#[test]
fn a_wrong_threshold_is_cut_to_its_call() {
    let (list, what) = cut_list(
        false,
        |_, _| {},
        |look| {
            if let Some([_, write]) = &mut look.thresholds[1] {
                *write = write.saturating_sub(1);
            }
        },
    );
    let lines: Vec<&str> = list.lines().collect();
    assert_eq!((lines[1], lines.len()), ("set_write_threshold 2 threshold=1", 2), "{list}");
    assert_eq!(what, "thresholds");
}

#[test]
fn a_wrong_byte_of_memory_is_cut_to_one_call() {
    let (list, what) = cut_list(true, |_, _| {}, |look| look.memory.iter_mut().for_each(|byte| *byte |= 1));
    assert_eq!(what, "user memory, at its first difference");
    assert_eq!(list.lines().count(), 2, "{list}");
}
