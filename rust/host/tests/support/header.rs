//! The C header: its records and functions in Rust's words, and programs in C over it.

use crate::support::source::{Function, Record, Typed};
use std::path::{Path, PathBuf};
use std::process::Command;

pub const TEXT: &str = include_str!("../../include/murgwethan.h");
/// How the name of a record begins.
const STRUCT: &str = "struct murgwethan_";
/// How the declaration of a function begins.
const FUNCTION: &str = "int64_t murgwethan_";

/// The records, with the names and types that Rust has for them.
pub fn records() -> Vec<Record> {
    let text = without_comments();
    let starts = text.match_indices(STRUCT).map(|(at, _)| &text[at + STRUCT.len()..]);
    let bodies = starts.filter_map(|rest| {
        let (name, rest) = rest.split_once(" {")?;
        let is_name = name.chars().all(|c| c.is_ascii_lowercase());
        is_name.then_some((name, rest.split_once('}')?.0))
    });
    bodies
        .map(|(name, body)| {
            let fields = body.split(';').map(str::trim).filter(|field| !field.is_empty());
            Record { name: capitalized(name), by_c: true, fields: fields.map(field).collect() }
        })
        .collect()
}

/// The functions, with the types that Rust has for their parameters.
pub fn functions() -> Vec<Function> {
    let text = without_comments();
    let starts = text.match_indices(FUNCTION).map(|(at, _)| &text[at + FUNCTION.len()..]);
    let mut list: Vec<Function> = starts
        .map(|rest| {
            let (name, rest) = rest.split_once('(').expect("parameters");
            let (parameters, _) = rest.split_once(");").expect("the end of the parameters");
            Function {
                name: format!("murgwethan_{name}"),
                parameters: parameters.split(',').map(parameter).collect(),
                result: "i64".to_string(),
            }
        })
        .collect();
    list.sort_by(|a, b| a.name.cmp(&b.name));
    list
}

/// The names of all constants.
pub fn constants() -> Vec<String> {
    let lines = TEXT.lines().filter_map(|line| line.trim().split_once(" = "));
    lines.map(|(name, _)| name.to_string()).filter(|name| name.starts_with("MURGWETHAN_")).collect()
}

fn without_comments() -> String {
    let mut parts = TEXT.split("/*");
    let first = parts.next().unwrap_or_default().to_string();
    parts.fold(first, |text, part| text + part.split_once("*/").expect("a comment's end").1)
}

fn capitalized(name: &str) -> String {
    let (first, rest) = name.split_at(1);
    first.to_uppercase() + rest
}

/// The type, the name and the number of entries of a declaration.
fn parts(text: &str) -> (String, &str, Option<&str>) {
    let (kind, name) = text.trim().rsplit_once(' ').unwrap_or_else(|| panic!("no type in `{text}`"));
    let (name, entries) = match name.strip_suffix(']').and_then(|name| name.split_once('[')) {
        Some((name, entries)) => (name, Some(entries)),
        None => (name, None),
    };
    let stars = name.len() - name.trim_start_matches('*').len();
    (format!("{kind}{}", &name[..stars]), &name[stars..], entries)
}

fn field(text: &str) -> Typed {
    let (kind, name, entries) = parts(text);
    let kind = in_rust(&kind);
    (name.to_string(), entries.map_or(kind.clone(), |entries| format!("[{kind}; {entries}]")))
}

/// An array as a parameter is a pointer to its first entry, as `&mut` of an array is in Rust.
fn parameter(text: &str) -> Typed {
    let (kind, name, entries) = parts(text);
    let kind = in_rust(&kind);
    (name.to_string(), entries.map_or(kind.clone(), |entries| format!("&mut [{kind}; {entries}]")))
}

/// The type that Rust has for one of the header.
fn in_rust(kind: &str) -> String {
    if let Some(record) = kind.strip_prefix(STRUCT) {
        return match record.strip_suffix('*') {
            Some(record) => format!("&mut {}", capitalized(record)),
            None => capitalized(record),
        };
    }
    if let Some(entry) = kind.strip_suffix('*') {
        return match entry.strip_prefix("const ") {
            Some(entry) => format!("*const {}", in_rust(entry)),
            None => format!("*mut {}", in_rust(entry)),
        };
    }
    let known = [
        ("bool", "bool"),
        ("uint8_t", "u8"),
        ("uint16_t", "u16"),
        ("uint32_t", "u32"),
        ("uint64_t", "u64"),
        ("size_t", "usize"),
    ];
    let found = known.iter().find(|(name, _)| *name == kind);
    found.unwrap_or_else(|| panic!("an unknown type `{kind}`")).1.to_string()
}

/// Compiles a program over the header, links it with the archive and runs it: what it prints. The options
/// name the language.
pub fn run(compiler: &str, options: &[&str], source: &Path, program: &str) -> String {
    let program: PathBuf = Path::new(env!("CARGO_TARGET_TMPDIR")).join(program);
    let include = concat!("-I", env!("CARGO_MANIFEST_DIR"), "/include");
    let mut compile = Command::new(compiler);
    compile.args(options).args(["-Wall", "-Wextra", "-Werror", "-pedantic", include, "-o"]).arg(&program);
    // The archive is no text of that language.
    compile.arg(source).args(["-x", "none", env!("MURGWETHAN_ARCHIVE")]);
    let output = compile.output().unwrap_or_else(|error| panic!("{compiler}: {error}"));
    let said = String::from_utf8_lossy(&output.stderr);
    assert!(output.status.success(), "{compiler} {options:?} {}: {said}", source.display());
    let output =
        Command::new(&program).output().unwrap_or_else(|error| panic!("{}: {error}", program.display()));
    let said = String::from_utf8_lossy(&output.stdout).into_owned();
    assert!(output.status.success(), "{}: {said}", source.display());
    said
}
