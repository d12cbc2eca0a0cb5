//! What several tests use: the stored scripts with their listings, and the program.

#![allow(dead_code)]

use std::process::{Command, Output, Stdio};

/// For each stored script its name, the script and its listing, each after its four-byte length.
const STORED: &[u8] = include_bytes!("../../../../crates/replay/stdin");

/// The worked example.
pub const WORKED: &[u8] = include_bytes!("../../../../examples/worked.script");
pub const WORKED_LISTING: &str = include_str!("../../../../examples/worked.listing");

pub struct Stored {
    pub name: String,
    pub script: Vec<u8>,
    pub listing: String,
}

/// The stored scripts, and the long one that the script program is tested with.
pub fn stored() -> Vec<Stored> {
    let mut rest = STORED;
    let mut parts = Vec::new();
    while let Some((head, behind)) = rest.split_first_chunk::<4>() {
        let (part, behind) = behind.split_at(u32::from_le_bytes(*head) as usize);
        parts.push(part.to_vec());
        rest = behind;
    }
    let text = |part: &[u8]| String::from_utf8(part.to_vec()).expect("text");
    let mut stored: Vec<Stored> = parts
        .chunks(3)
        .map(|entry| Stored { name: text(&entry[0]), script: entry[1].clone(), listing: text(&entry[2]) })
        .collect();
    stored.push(Stored {
        name: "long".to_string(),
        script: include_bytes!("../../../../crates/socket_script/stdin").to_vec(),
        listing: include_str!("../../../../crates/socket_script/stdout").to_string(),
    });
    assert_eq!(stored.len(), 917, "the stored scripts and the long one");
    stored
}

/// Runs the program in the checkout's folder with words and an input.
pub fn script(words: &[&str], input: &[u8]) -> Output {
    use std::io::Write;
    let mut child = Command::new(env!("CARGO_BIN_EXE_script"))
        .args(words)
        .current_dir(concat!(env!("CARGO_MANIFEST_DIR"), "/../.."))
        .stdin(Stdio::piped())
        .stdout(Stdio::piped())
        .stderr(Stdio::piped())
        .spawn()
        .expect("the program starts");
    // A program that is told wrong words ends without reading.
    let _ = child.stdin.take().expect("piped").write_all(input);
    child.wait_with_output().expect("the program ends")
}
