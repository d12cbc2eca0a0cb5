//! Two runs of the same calls over different bytes: nothing but the delivered bytes may differ.

mod support;

use support::calls::{Call, Most, Shape};
use support::numbers::Numbers;
use support::sides::Sides;

#[test]
fn what_is_answered_does_not_depend_on_bytes() {
    for number in 0..support::sequences(1000) {
        let mut numbers = Numbers::new(number);
        let shape = Shape::random(&mut numbers);
        let (mut first, mut second) = (Sides::new(shape, 1), Sides::new(shape, 2));
        for _ in 0..200 {
            let call = Call::random(&mut numbers, &shape, Most::Neither);
            let words = [first.call(&call), second.call(&call)];
            assert_eq!(words[0], words[1], "{call:?}");
            assert_eq!(first.out(), second.out(), "info, thresholds or packet of {call:?}");
            assert_eq!(first.signals(), second.signals(), "signals after {call:?}");
            assert_eq!(first.record(), second.record(), "record after {call:?}");
        }
    }
}
