//! The declarations in `src/raw.rs` and `src/raw/exports.rs` are those of the library: the records in
//! Rattle's source, the functions that the crate `host_c` exports, and what the archive defines and needs. So
//! are those in `include/murgwethan.h`, as a C compiler sees them.

#[path = "support/header.rs"]
mod header;
mod support;

use murgwethan::{raw, Disposition, Rights, Shutdown, Signals, Status, MOST_CAPACITY, PLACES};
use std::collections::{BTreeMap, BTreeSet};
use std::fs;
use std::mem::{align_of, offset_of, size_of};
use std::path::Path;
use std::process::Command;
use support::source::{self, Record};

const RECORDS: &str = include_str!("../src/raw.rs");
const EXPORTS: &str = include_str!("../src/raw/exports.rs");
/// How the declaration of an exported function begins.
const EXPORTED: &str = "pub extern \"C\" fn ";

/// A record's name, its fields' offsets, its size and its alignment, as this crate has them.
type Laid = (&'static str, Vec<usize>, usize, usize);

macro_rules! laid {
    ($name:ident { $($field:ident),* }) => {
        (
            stringify!($name),
            vec![$(offset_of!(raw::$name, $field)),*],
            size_of::<raw::$name>(),
            align_of::<raw::$name>(),
        )
    };
}

fn laid_records() -> [Laid; 7] {
    [
        laid!(Span { start, count }),
        laid!(Queue { bytes, lengths }),
        laid!(Thresholds { read, write }),
        laid!(Endpoint { closed, read_disabled, rights, signals, thresholds, queue }),
        laid!(Place { key, mask, observed, end }),
        laid!(Places { packets, waits, table }),
        laid!(Pair { one, two, datagram, spare1, spare2, capacity, places }),
    ]
}

/// The only record of that name which is laid out by C's rules.
fn record_named<'r>(records: &'r [Record], name: &str) -> &'r Record {
    let mut found = records.iter().filter(|record| record.name == name && record.by_c);
    let record = found.next().unwrap_or_else(|| panic!("no record {name} laid out by C's rules"));
    assert!(found.next().is_none(), "two records {name}");
    record
}

#[test]
fn records_are_those_of_the_library() {
    let theirs = source::records(&source::rattle_source("definition"));
    let ours = source::records(RECORDS);
    for (name, offsets, size, alignment) in laid_records() {
        let record = record_named(&theirs, name);
        assert_eq!(record_named(&ours, name).fields, record.fields, "fields of {name}");
        let laid = source::layout(record, &theirs);
        assert_eq!((offsets, size, alignment), laid, "offsets, size and alignment of {name}");
    }
}

#[test]
fn functions_are_those_of_the_library() {
    let exported = source::functions(&source::rattle_source("host_c"), &[EXPORTED]);
    let expected: Vec<_> = exported.iter().map(source::as_c_sees).collect();
    assert_eq!(source::functions(EXPORTS, &["pub fn ", "pub safe fn "]), expected);
}

#[test]
fn exports_have_the_contracts_of_the_calls() {
    let calls = source::contracts(&source::rattle_source("host"), "pub fn murgwethan_");
    assert!(calls.iter().all(|call| call.contains("->i64ensures{")), "a call without a contract");
    let exported = source::contracts(&source::rattle_source("host_c"), "pub extern \"C\" fn murgwethan_");
    assert_eq!(exported, calls);
    let declared = source::functions(EXPORTS, &["pub fn ", "pub safe fn "]);
    assert!(!declared.is_empty(), "no call is declared");
    assert_eq!(calls.len(), declared.len(), "as many contracts as declared calls");
}

/// The symbols that `nm` lists for the archive with these options.
fn symbols(options: &[&str]) -> BTreeSet<String> {
    let archive = env!("MURGWETHAN_ARCHIVE");
    let output = Command::new("nm").args(options).arg(archive).output().expect("nm of binutils");
    assert!(output.status.success(), "nm {options:?} {archive}");
    let text = String::from_utf8(output.stdout).expect("names");
    let symbols = text.lines().filter(|line| !line.ends_with(':'));
    let names = symbols.filter_map(|line| line.split_whitespace().next_back());
    names.map(str::to_string).collect()
}

#[test]
fn the_archive_needs_memory_functions_only() {
    let allowed = ["memcpy", "memmove", "memset", "memcmp"].map(str::to_string).into();
    let needed = symbols(&["-u"]);
    assert!(needed.is_subset(&allowed), "the archive needs {needed:?}");
}

#[test]
fn the_archive_defines_the_exported_calls_only() {
    let exported = source::functions(&source::rattle_source("host_c"), &[EXPORTED]);
    let names: BTreeSet<_> = exported.into_iter().map(|function| function.name).collect();
    assert_eq!(symbols(&["-g", "--defined-only"]), names);
}

#[test]
fn the_header_declares_the_functions_of_the_library() {
    let exported = source::functions(&source::rattle_source("host_c"), &[EXPORTED]);
    let expected: Vec<_> = exported.iter().map(source::as_c_sees).collect();
    assert_eq!(header::functions(), expected);
}

/// A program that prints a line for each of the numbers that the header settles.
fn program_of(lines: &[(String, String)]) -> String {
    let prints = lines
        .iter()
        .map(|(name, number)| format!("    printf(\"{name} %lld\\n\", (long long)({number}));\n"));
    let prints: String = prints.collect();
    format!("#include \"murgwethan.h\"\n#include <stdio.h>\nint main(void) {{\n{prints}    return 0;\n}}\n")
}

/// The numbers that a C compiler has for names, each by what it is computed from.
fn in_c(lines: &[(String, String)], name: &str) -> BTreeMap<String, i64> {
    let source = Path::new(env!("CARGO_TARGET_TMPDIR")).join(format!("{name}.c"));
    fs::write(&source, program_of(lines)).expect("a folder for the program");
    let said = header::run("cc", &["-std=c99"], &source, name);
    let numbers = said.lines().filter_map(|line| line.split_once(' '));
    numbers.map(|(name, number)| (name.to_string(), number.parse().expect("a number"))).collect()
}

#[test]
fn the_header_has_the_records_of_the_library() {
    let theirs = source::records(&source::rattle_source("definition"));
    let (mut asked, mut expected) = (Vec::new(), BTreeMap::new());
    let records = header::records();
    assert_eq!(records.len(), laid_records().len());
    for (name, ..) in laid_records() {
        let record = record_named(&theirs, name);
        assert_eq!(record_named(&records, name).fields, record.fields, "fields of {name}");
        let (offsets, size, _) = source::layout(record, &theirs);
        let in_c = format!("struct murgwethan_{}", name.to_lowercase());
        asked.push((name.to_string(), format!("sizeof({in_c})")));
        expected.insert(name.to_string(), size as i64);
        for ((field, _), offset) in record.fields.iter().zip(offsets) {
            asked.push((format!("{name}.{field}"), format!("offsetof({in_c}, {field})")));
            expected.insert(format!("{name}.{field}"), offset as i64);
        }
    }
    assert_eq!(in_c(&asked, "records"), expected);
}

/// The names of a word's bits, with their numbers.
fn bits(prefix: &str, shown: impl Fn(u32) -> Option<String>) -> Vec<(String, i64)> {
    let bits = (0..u32::BITS).map(|at| 1 << at);
    let named =
        bits.filter_map(|bit| Some((shown(bit)?.split_once('(')?.1.trim_end_matches(')').to_string(), bit)));
    let named = named.filter(|(name, _)| !name.starts_with("0x"));
    named.map(|(name, bit)| (format!("{prefix}{name}"), i64::from(bit))).collect()
}

/// The constants that the header has to have.
fn expected_constants() -> BTreeMap<String, i64> {
    let statuses = Status::ALL.map(|status| (format!("ERR_{}", status.name()), status.number()));
    let signals = bits("SIGNAL_", |bit| Some(format!("{:?}", Signals::from_bits(bit))));
    let rights = bits("RIGHT_", |bit| Rights::from_bits(bit).map(|rights| format!("{rights:?}")));
    let others = [
        ("STREAM", 0),
        ("DATAGRAM", 1),
        ("UNCHANGED", Disposition::Unchanged as i64),
        ("DISABLE", Disposition::Disable as i64),
        ("ENABLE", Disposition::Enable as i64),
        ("SHUTDOWN_WRITE", Shutdown::Write as i64),
        ("SHUTDOWN_READ", Shutdown::Read as i64),
        ("PEEK", 8),
        ("PLACES", PLACES as i64),
        ("MOST_CAPACITY", MOST_CAPACITY as i64),
    ];
    let others = others.map(|(name, number)| (name.to_string(), number));
    let all = statuses.into_iter().chain(signals).chain(rights).chain(others);
    all.map(|(name, number)| (format!("MURGWETHAN_{name}"), number)).collect()
}

#[test]
fn the_header_has_the_constants_of_this_crate() {
    let asked: Vec<_> = header::constants().into_iter().map(|name| (name.clone(), name)).collect();
    assert_eq!(in_c(&asked, "constants"), expected_constants());
}

#[test]
fn programs_in_c_make_calls() {
    let source = Path::new(env!("CARGO_MANIFEST_DIR")).join("tests/support/calls.c");
    for language in ["-std=c99", "-std=c11", "-std=c17"] {
        assert_eq!(header::run("cc", &[language], &source, &format!("calls{language}")), "");
    }
    if Command::new("c++").arg("--version").output().is_err() {
        println!("c++ is missing: the header was compiled as C only");
        return;
    }
    assert_eq!(header::run("c++", &["-std=c++17", "-x", "c++"], &source, "calls-c++"), "");
}
