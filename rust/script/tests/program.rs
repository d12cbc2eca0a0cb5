//! The program: its words, its help, its messages and its exit statuses, and the worked example.

mod support;

use std::process::Output;
use support::script;

const TEXT: &str = "examples/worked.txt";
const SCRIPT: &str = "examples/worked.script";
const LISTING: &str = "examples/worked.listing";
const COMMANDS: [&str; 4] = ["encode", "decode", "explain", "page"];

/// The exit status, what stands on standard output, and what stands on standard error.
fn told(output: Output) -> (i32, String, String) {
    let text = |bytes| String::from_utf8(bytes).expect("text");
    (output.status.code().expect("an exit status"), text(output.stdout), text(output.stderr))
}

/// What is stored of the worked example is what is written now.
#[test]
fn the_worked_example_is_explained_and_drawn_as_stored() {
    let file =
        |name: &str| std::fs::read(format!("{}/../../{name}", env!("CARGO_MANIFEST_DIR"))).expect(name);
    for (words, stored) in [
        (&["encode", TEXT][..], SCRIPT),
        (&["explain", SCRIPT, LISTING], "examples/worked.explained"),
        (&["page", SCRIPT, LISTING], "examples/worked.html"),
    ] {
        let output = script(words, &[]);
        assert!(output.status.success() && output.stderr.is_empty(), "{words:?}");
        assert!(output.stdout == file(stored), "{words:?} does not write {stored}");
    }
    let (_, text, _) = told(script(&["decode", SCRIPT], &[]));
    let stored = String::from_utf8(file(TEXT)).expect("text");
    assert_eq!(text, stored.lines().skip(1).map(|line| format!("{line}\n")).collect::<String>());
}

#[test]
fn help_is_all_that_is_written() {
    let mut asked = vec![vec!["--help"], vec!["-h"]];
    asked.extend(COMMANDS.map(|command| vec![command, "--help"]));
    asked.push(vec!["page", "no/such", "--help"]);
    for words in asked {
        let (status, help, errors) = told(script(&words, &[]));
        assert!(
            status == 0 && errors.is_empty() && help.starts_with("usage: script "),
            "{words:?}: {help}{errors}"
        );
    }
}

#[test]
fn wrong_words_get_the_usage() {
    let wrong: [&[&str]; 11] = [
        &[],
        &["push"],
        &["--zero"],
        &["encode", "--other"],
        &["encode", TEXT, TEXT],
        &["encode", "-o"],
        &["decode", "--zero", SCRIPT],
        &["explain", SCRIPT],
        &["explain", SCRIPT, LISTING, LISTING],
        &["page"],
        &["page", "-x", SCRIPT, LISTING],
    ];
    for words in wrong {
        let (status, output, usage) = told(script(words, &[]));
        assert!(
            status == 2 && output.is_empty() && usage.contains("usage: script"),
            "{words:?}: {output}{usage}"
        );
    }
}

#[test]
fn a_wrong_path_is_told_in_a_line() {
    let wrong: [&[&str]; 6] = [
        &["encode", "no/such"],
        &["decode", "no/such"],
        &["explain", "no/such", LISTING],
        &["page", SCRIPT, "no/such"],
        &["decode", "examples"],
        &["encode", "-o", "no/such", TEXT],
    ];
    for words in wrong {
        let (status, output, error) = told(script(words, &[]));
        let path = if words.contains(&"examples") { "examples" } else { "no/such" };
        let good = error.starts_with("script: cannot ") && error.contains(&format!(" {path}: "));
        assert!(status == 1 && output.is_empty() && good && error.lines().count() == 1, "{words:?}: {error}");
    }
}

#[test]
fn output_that_fails_is_told_once() {
    for words in [&["page", "-o", "/dev/full", SCRIPT, LISTING][..], &["encode", TEXT, "-o", "/dev/full"]] {
        let (status, _, error) = told(script(words, &[]));
        assert_eq!((status, error.lines().count()), (1, 1), "{error}");
        assert!(error.starts_with("script: cannot write /dev/full: "), "{error}");
    }
}

#[test]
fn standard_input_is_taken() {
    let (status, text, _) = told(script(&["decode"], &[10, 0, 0]));
    assert!(status == 0 && text.ends_with("\ntake\n"), "{text}");
    assert_eq!(script(&["encode", "-"], b"take").stdout, [10, 0, 0]);
    assert_eq!(script(&["encode", "--zero"], b"info").stdout, [7, 4, 0, 0, 0, 0, 0]);
    let listing = support::WORKED_LISTING.as_bytes();
    assert!(script(&["explain", SCRIPT, "-"], listing).status.success());
}

#[test]
fn mistakes_are_told_with_the_file_and_nothing_is_written() {
    let (status, output, errors) = told(script(&["encode"], b"take\ntake 1\ninfo"));
    assert!(status == 1 && output.is_empty());
    let lines: Vec<&str> = errors.lines().collect();
    assert_eq!(lines.len(), 2, "{errors}");
    assert_eq!(lines[0], "standard input: line 2, column 6: found `1`, expected nothing behind `take`");
    assert_eq!(lines[1], "standard input: line 3, column 5: `info` lacks `handle`");
}

#[test]
fn a_listing_that_does_not_fit_has_another_exit_status() {
    let listing = support::WORKED_LISTING.replace("7 -24", "7 -22");
    for command in ["explain", "page"] {
        let (status, output, error) = told(script(&[command, SCRIPT, "-"], listing.as_bytes()));
        assert_eq!((status, error.as_str()), (1, "the listing does not fit the script in 1 place\n"));
        let output = output.replace("<wbr>", "");
        assert!(output.contains("the word is -22, expected PEER_CLOSED (-24)"), "{command}");
    }
    let (status, _, error) = told(script(&["explain", SCRIPT, "-"], b"\xff"));
    assert!(status == 1 && error.starts_with("standard input: line 1, column 1: "), "{error}");
}

#[test]
fn a_text_in_the_place_of_a_script_is_told() {
    for command in ["explain", "page"] {
        let (status, output, error) = told(script(&[command, TEXT, LISTING], &[]));
        assert!(status == 1 && output.is_empty());
        assert_eq!(error, "script: examples/worked.txt is text; script encode makes a script of it\n");
    }
}
