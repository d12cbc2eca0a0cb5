//! The example says what is stored beside it.

#[allow(dead_code)] // Its `main` is not called here.
#[path = "../examples/rows.rs"]
mod rows;

#[test]
fn the_example_says_what_is_stored() {
    let mut said = Vec::new();
    rows::run(&mut said).expect("a vector takes any bytes");
    let stored = include_str!("../examples/rows.stdout");
    assert_eq!(String::from_utf8(said).expect("text"), stored);
}
