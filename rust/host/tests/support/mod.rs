//! What the tests share: a model written from document 01, with cancel from 02 (i), calls, slices with guards
//! around them, new pairs.
#![allow(dead_code)] // No test uses all of it.

pub mod answers;
pub mod calls;
pub mod guarded;
pub mod host;
pub mod model;
pub mod numbers;
pub mod pairs;
pub mod sides;
pub mod source;

/// How many sequences a test runs; the variable `SEQUENCES` asks for fewer, for a slow machine.
pub fn sequences(usual: u64) -> u64 {
    let asked = std::env::var("SEQUENCES").ok().and_then(|text| text.parse().ok());
    asked.unwrap_or(usual).min(usual)
}
