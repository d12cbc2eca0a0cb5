//! Where a listing does not fit its script, it is told; each line of the worked example with one edit.

mod support;

use script::explain::explain;
use script::text::{encode, Missing};
use support::{WORKED, WORKED_LISTING};

/// What is said of a script and a listing that do not fit.
fn mismatches(script: &[u8], listing: &str) -> Vec<String> {
    let mut said = Vec::new();
    let outcome = explain(script, listing, &mut said).expect("a vector takes it");
    let said = String::from_utf8(said).expect("text");
    let told = said.lines().filter_map(|line| line.trim_start().strip_prefix("DOES NOT FIT"));
    let told: Vec<String> = told.map(str::to_string).collect();
    assert_eq!(told.len(), outcome.number, "{said}");
    told
}

/// What is edited in the worked example's listing, and what is said first.
const EDITS: [(&str, &str, &str); 26] = [
    (
        "\n1 0 ",
        "\n01 0 ",
        ": line 3, column 1: found `01`, expected a record's number or `stop`, for record 1 (`wait`)",
    ),
    ("record word end1 end2\n", "record\n", ": line 1, column 1: expected `record word end1 end2`"),
    ("record word end1 end2\n", "", ": line 1, column 1: expected `record word end1 end2`"),
    ("\n0 0 ", "\n0 1 ", " (line 2 of the listing): the word is 1, expected 0"),
    ("\n0 0 ", "\n0 -10 ", " (line 2 of the listing): the word is -10, but nothing refuses the call"),
    (
        "1 0 00000002 00000002",
        "1 0 00000002 00000003",
        " (line 3 of the listing): end2 has \
        READABLE|WRITABLE, expected WRITABLE",
    ),
    (
        "1 0 00000002 00000002",
        "1 0 0000002 00000002",
        ": line 3, column 5: found `0000002`, expected a \
        signal word, 8 hexadecimal digits, or `-`, for record 1 (`wait`)",
    ),
    (
        "1 0 00000002 00000002",
        "1 0 00000002 0000000A",
        ": line 3, column 14: found `0000000A`, expected a \
        signal word, 8 hexadecimal digits, or `-`, for record 1 (`wait`)",
    ),
    (
        "1 0 00000002 00000002",
        "1 0 00000002",
        ": line 3, column 13: expected a signal word, 8 hexadecimal \
        digits, or `-`, for record 1 (`wait`)",
    ),
    (
        "1 0 00000002 00000002",
        "1 0 00000002 00000002 7",
        ": line 3, column 23: found `7`, expected the \
        end of the line, for record 1 (`wait`)",
    ),
    ("2 3 00000002", "2 2 00000002", " (line 4 of the listing): the word is 2, expected 3"),
    ("2 3 00000002", "3 3 00000002", ": line 4: found record 3, expected record 2 (`fill`)"),
    (
        "2 3 00000002",
        "2 03 00000002",
        ": line 4, column 3: found `03`, expected an answer's word, a count \
        or a status, for record 2 (`fill`)",
    ),
    ("3 3 00000002 00000003", "3 2 00000002 00000003", " (line 5 of the listing): the word is 2, expected 3"),
    (
        "3 3 00000002 00000003",
        "3 3 00000000 00000003",
        " (line 5 of the listing): end1 has no signal, \
        expected WRITABLE",
    ),
    ("3 3 00000002 00000003", "stop 61", ": line 5: found `stop 61`, but record 3 (`write`) is whole"),
    (
        "0000000000000005 00000001",
        "0000000000000006 00000001",
        " (line 6 of the listing): expected the \
        packet 0000000000000005 00000001 00000003",
    ),
    (
        "0000000000000005 00000001",
        "000000000000005 00000001",
        ": line 6, column 23: found \
        `000000000000005`, expected key, 16 hexadecimal digits, for record 4 (`take`)",
    ),
    (
        "4 0 00000002 00000003 0000000000000005 00000001 00000003",
        "4 -22 00000002 00000003",
        " (line 6 of the listing): the word is -22, but nothing refuses the call",
    ),
    (
        "00000003 6162",
        "00000003 6163",
        " (line 7 of the listing): byte 1 of those delivered is not the one that is queued there",
    ),
    (
        "00000003 6162",
        "00000003 616263",
        ": line 7, column 23: found `616263`, expected 2 bytes \
        delivered, in hexadecimal, for record 5 (`read`)",
    ),
    (
        "6 0 00000004 -",
        "6 0 00000004 00000000",
        " (line 8 of the listing): end2 has a word, expected `-`: \
        the end is closed",
    ),
    ("6 0 00000004 -", "6 0 - -", " (line 8 of the listing): end1 is `-`, expected a word: the end is open"),
    (
        "7 -24",
        "7 -22",
        " (line 9 of the listing): the word is -22, expected PEER_CLOSED (-24): the other \
        end is closed",
    ),
    ("7 -24 00000004 -\n", "", ": the listing has ended before the line of record 7 (`write`)"),
    (
        "7 -24 00000004 -\n",
        "7 -24 00000004 -\n8 0 - -\n",
        ": line 10: found `8 0 - -`, but the script has ended",
    ),
];

#[test]
fn an_edit_of_the_worked_example_is_told() {
    assert_eq!(mismatches(WORKED, WORKED_LISTING), Vec::<String>::new());
    for (before, behind, told) in EDITS {
        assert_eq!(WORKED_LISTING.matches(before).count(), 1, "{before}");
        let edited = WORKED_LISTING.replacen(before, behind, 1);
        assert_eq!(mismatches(WORKED, &edited).first().map(String::as_str), Some(told), "{edited}");
    }
    let cut = WORKED_LISTING.trim_end();
    assert_eq!(mismatches(WORKED, cut), [": the last line of the listing is cut: it has no newline"]);
}

#[test]
fn another_place_of_a_stop_is_told() {
    let text = "create kind=0 capacity=8 rights1=7 rights2=7\nraw 0d0000";
    let script = encode(text, Missing::Mistake).expect("a script");
    let listing = |last: &str| format!("record word end1 end2\n0 0 00000002 00000002\n{last}");
    assert!(mismatches(&script, &listing("stop 13\n")).is_empty());
    let told = mismatches(&script, &listing("stop 14\n"));
    assert_eq!(told, [": line 3: found `stop 14`, expected `stop 13`: no record has tag 13"]);
    let told = mismatches(&script, &listing(""));
    assert_eq!(told, [": the listing has ended before `stop 13`: no record has tag 13"]);
}

/// What is edited in the listing of cancels of end1's key 7, and what is said first. End2 has that key too,
/// and a packet of end1 one that is alike in its lower 32 bits.
const CANCEL_EDITS: [(&str, &str, &str); 6] = [
    ("\n5 2 ", "\n5 3 ", " (line 7 of the listing): the word is 3, expected 2"),
    ("\n5 2 ", "\n5 0 ", " (line 7 of the listing): the word is 0, expected 2"),
    ("\n5 2 ", "\n5 -25 ", " (line 7 of the listing): the word is -25, but nothing refuses the call"),
    (
        "\n6 -25 ",
        "\n6 0 ",
        " (line 8 of the listing): the word is 0, expected NOT_FOUND (-25): \
        the end has no wait and no packet with this key",
    ),
    (
        "\n6 -25 ",
        "\n6 -11 ",
        " (line 8 of the listing): the word is -11, expected NOT_FOUND (-25): \
        the end has no wait and no packet with this key",
    ),
    (
        "0000000100000007",
        "0000000000000007",
        " (line 9 of the listing): expected the packet 0000000100000007 00000002 00000002",
    ),
];

#[test]
fn a_cancel_that_does_not_fit_the_waits_and_packets_is_told() {
    let text = "create kind=0 capacity=8 rights1=0 rights2=0\n\
        wait 1 key=7 mask=PEER_CLOSED edge=0\nwait 2 key=7 mask=PEER_CLOSED edge=0\n\
        wait 1 key=0x100000007 mask=WRITABLE edge=0\nwait 1 key=7 mask=WRITABLE edge=0\n\
        cancel 1 key=7\ncancel 1 key=7\ntake\ntake";
    let script = encode(text, Missing::Mistake).expect("a script");
    let words = [0, 0, 0, 0, 0, 2, -25, 0, -22].into_iter().enumerate();
    let lines: String = words.map(|(at, word)| format!("{at} {word} 00000002 00000002\n")).collect();
    let packet = "7 0 00000002 00000002 0000000100000007 00000002 00000002\n";
    let lines = lines.replace("7 0 00000002 00000002\n", packet);
    let listing = format!("record word end1 end2\n{lines}");
    assert_eq!(mismatches(&script, &listing), Vec::<String>::new());
    for (before, behind, told) in CANCEL_EDITS {
        let edited = listing.replacen(before, behind, 1);
        assert_eq!(mismatches(&script, &edited).first().map(String::as_str), Some(told), "{edited}");
    }
}

#[test]
fn an_info_record_that_does_not_fit_the_queues_is_told() {
    let text =
        "create kind=1 capacity=8 rights1=7 rights2=7\nwrite 1 options=0 address=65536 count=3 count_at=0\n\
        write 1 options=0 address=65536 count=2 count_at=0\ninfo 2";
    let script = encode(text, Missing::Mistake).expect("a script");
    let listing = |info: &str| {
        let lines =
            "record word end1 end2\n0 0 00000002 00000002\n1 3 00000002 00000003\n2 2 00000002 00000003\n";
        format!("{lines}3 0 00000002 00000003 {info}\n")
    };
    assert!(mismatches(&script, &listing("1 8 5 3 8 0")).is_empty());
    let told = mismatches(&script, &listing("1 8 5 5 8 0"));
    assert_eq!(told, [" (line 5 of the listing): expected the info record 1 8 5 3 8 0"]);
}

/// The first edit leaves nothing else to tell.
#[test]
fn a_wrong_header_is_told_alone() {
    let expected = [": line 1, column 1: expected `record word end1 end2`"];
    for header in ["", "record\n"] {
        let listing = WORKED_LISTING.replacen("record word end1 end2\n", header, 1);
        assert_eq!(mismatches(WORKED, &listing), expected, "{header}");
    }
    assert_eq!(mismatches(&[], ""), expected);
}

#[test]
fn a_create_that_has_to_be_refused_is_told_and_what_follows_it_too() {
    let text = "create kind=0 capacity=0 rights1=7 rights2=7\nfill 65536 61\ninfo 1";
    let script = encode(text, Missing::Mistake).expect("a script");
    let listing = "record word end1 end2\n0 0 00000002 00000002\n1 1 00000002 00000002\n2 -11 - -\n";
    let told = mismatches(&script, listing);
    assert!(
        told[0].contains("the word is 0, expected INVALID_ARGS (-10): the capacity is not from 1"),
        "{told:?}"
    );
    assert_eq!(told.len(), 5, "{told:?}");
}

/// `1 byte`, and the letters of a fill as they are, whatever they look like.
#[test]
fn one_byte_is_said_so_and_letters_are_left_alone() {
    let letters = "{address} 1 bytes";
    let hex: String = letters.bytes().map(|byte| format!("{byte:02x}")).collect();
    let write = "write end1 options=0 address=65536 count=1 count_at=0";
    let text =
        format!("create kind=0 capacity=1 rights1=0 rights2=0\nfill 65536 {hex}\nfill 65536 41\n{write}");
    let script = encode(&text, Missing::Mistake).expect("a script");
    let listing =
        "record word end1 end2\n0 0 00000002 00000002\n1 17 00000002 00000002\n2 1 00000002 00000002\n\
        3 -30 00000002 00000002\n";
    let mut said = Vec::new();
    explain(&script, listing, &mut said).expect("a vector takes it");
    let said = String::from_utf8(said).expect("text");
    assert!(said.contains(&format!("fill memory at 65536 with {hex} \"{letters}\"")), "{said}");
    assert!(said.contains("done: 1 byte put") && said.contains("write 1 byte of memory"), "{said}");
}

#[test]
fn digits_are_those_that_the_program_writes() {
    let text = "create kind=0 capacity=8 rights1=7 rights2=7\nfill 65536 ab\n\
        write 1 options=0 address=65536 count=1 count_at=0\nread 2 options=0 address=65536 count=8 count_at=0\n\
        info 2";
    let script = encode(text, Missing::Mistake).expect("a script");
    let listing = |bytes: &str, info: &str| {
        let lines =
            "record word end1 end2\n0 0 00000002 00000002\n1 1 00000002 00000002\n2 1 00000002 00000003\n";
        format!("{lines}3 1 00000002 00000002 {bytes}\n4 0 00000002 00000002 {info}\n")
    };
    assert!(mismatches(&script, &listing("ab", "0 8 0 0 8 0")).is_empty());
    let told = mismatches(&script, &listing("AB", "0 8 0 0 8 0"));
    assert!(told[0].contains("found `AB`, expected 1 bytes delivered, in hexadecimal"), "{told:?}");
    let told = mismatches(&script, &listing("ab", "0 08 0 0 8 0"));
    assert!(told[0].contains("found `08`, expected capacity, a decimal number"), "{told:?}");
}
