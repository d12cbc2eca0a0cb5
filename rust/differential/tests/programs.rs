//! Every program answers `--help` with its usage alone, and wrong words with
//! usage on standard error and status 2.

use std::process::{Command, Output, Stdio};

const PROGRAMS: [(&str, &str); 6] = [
    ("compare", env!("CARGO_BIN_EXE_compare")),
    ("generate", env!("CARGO_BIN_EXE_generate")),
    ("long", env!("CARGO_BIN_EXE_long")),
    ("oracle", env!("CARGO_BIN_EXE_oracle")),
    ("sample", env!("CARGO_BIN_EXE_sample")),
    ("tables", env!("CARGO_BIN_EXE_tables")),
];

fn output(program: &str, words: &[&str]) -> Output {
    let mut command = Command::new(program);
    command.args(words).stdin(Stdio::null()).output().unwrap_or_else(|error| panic!("{program}: {error}"))
}

fn text(bytes: &[u8]) -> String {
    String::from_utf8_lossy(bytes).into_owned()
}

#[test]
fn help_is_the_usage() {
    for (name, program) in PROGRAMS {
        let output = output(program, &["--help"]);
        let said = text(&output.stdout);
        assert!(said.starts_with(&format!("usage: {name}")), "{name} --help: {said}");
        assert_eq!((output.status.code(), text(&output.stderr)), (Some(0), String::new()), "{name} --help");
    }
}

#[test]
fn wrong_words_are_refused() {
    for (name, program) in PROGRAMS {
        let output = output(program, &["--wrong"]);
        assert_eq!((output.status.code(), text(&output.stdout)), (Some(2), String::new()), "{name} --wrong");
        let said = text(&output.stderr);
        assert!(said.contains(&format!("usage: {name}")), "{name} --wrong: {said}");
    }
    for words in [&["random", "1"][..], &["random", "x", "1"], &["file", "/no/such/file"]] {
        let output = output(env!("CARGO_BIN_EXE_generate"), words);
        assert_eq!((output.status.code(), text(&output.stdout)), (Some(2), String::new()), "{words:?}");
    }
}

/// A file that cannot be written is told in one line.
#[test]
fn a_wrong_path_is_told() {
    let output = output(env!("CARGO_BIN_EXE_sample"), &["/no/such/folder/file"]);
    let said = text(&output.stderr);
    assert_eq!((output.status.code(), said.lines().count()), (Some(1), 1), "{said}");
    assert!(said.contains("/no/such/folder/file"), "{said}");
}
