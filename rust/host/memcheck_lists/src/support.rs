//! What the tests of rust/host share: calls, drawn at random, and made by the host's calls.
#![allow(dead_code)] // Not all of it is used here.

#[path = "../../tests/support/calls.rs"]
pub mod calls;
#[path = "../../tests/support/host.rs"]
pub mod host;
#[path = "../../tests/support/numbers.rs"]
pub mod numbers;
