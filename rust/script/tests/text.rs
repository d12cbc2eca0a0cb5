//! The text form: names and numbers, mistakes with their places, repeats, scripts that stop.

use script::record::{Record, MOST_FILL};
use script::table::SHAPES;
use script::text::{decode, encode, line_of, text_of, Missing, MOST_BYTES};

fn bytes(text: &str) -> Vec<u8> {
    encode(text, Missing::Mistake).unwrap_or_else(|mistakes| panic!("{text}\n{mistakes}"))
}

fn mistakes(text: &str) -> String {
    encode(text, Missing::Mistake).expect_err(text).to_string()
}

/// A line by names, and the same by numbers.
const ALIKE: [(&str, &str); 13] = [
    (
        "create kind=stream capacity=8 rights1=read|write rights2=manage",
        "create kind=0 capacity=8 rights1=3 rights2=4",
    ),
    (
        "create kind=datagram capacity=8 rights1=0 rights2=7",
        "create kind=1 capacity=0x8 rights1=0 rights2=0x7",
    ),
    ("wait end2 key=5 mask=READABLE|PEER_CLOSED edge=0", "wait 2 key=5 mask=5 edge=0"),
    ("wait end1 key=0 mask=WRITABLE|0x8 edge=1", "wait handle=1 mask=0xa key=0 edge=1"),
    ("wait end1 key=0 mask=READ_THRESHOLD|WRITE_THRESHOLD edge=0", "wait 1 key=0 mask=0xc00 edge=0"),
    ("wait end1 key=0 mask=PEER_WRITE_DISABLED|WRITE_DISABLED edge=0", "wait 1 key=0 mask=48 edge=0"),
    ("read end2 options=peek address=1 count=2 count_at=3", "read 2 count_at=3 count=2 address=1 options=8"),
    ("disposition end1 own=disable peer=enable", "disposition 1 own=1 peer=2"),
    ("disposition end1 own=none peer=none", "disposition 1 own=0 peer=0"),
    ("shutdown end1 options=write|read", "shutdown 1 options=3"),
    ("fill 65536 0aFF", "fill 0x10000 0aff"),
    ("cancel end1 key=0x100000005", "cancel key=4294967301 handle=1"),
    ("raw 0d0000", "raw 0d 00 00"),
];

#[test]
fn names_stand_for_numbers() {
    for (named, numbers) in ALIKE {
        assert_eq!(bytes(named), bytes(numbers), "{named}");
    }
    assert_eq!(bytes("info end1"), [7, 4, 0, 1, 0, 0, 0]);
    assert_eq!(bytes("cancel end2 key=5"), [12, 12, 0, 2, 0, 0, 0, 5, 0, 0, 0, 0, 0, 0, 0]);
    assert_eq!(bytes("\u{feff}take\r\n # nothing\r\n\r\ntake # again"), [10, 0, 0, 10, 0, 0]);
}

/// What is wrong, and all that is said of it.
const MISTAKES: [(&str, &str); 26] = [
    (
        "take\npush 1",
        "line 2, column 1: found `push`, expected a record: create, write, read, \
        disposition, shutdown, read_threshold, write_threshold, info, close, wait, take, fill, cancel or raw",
    ),
    (
        "wait end2 key=5 mask=READABEL edge=0",
        "line 1, column 22: found `READABEL`, expected a signal \
        (READABLE, WRITABLE, PEER_CLOSED, PEER_WRITE_DISABLED, WRITE_DISABLED, READ_THRESHOLD, \
        WRITE_THRESHOLD), several joined by |, or a number from 0 to 4294967295",
    ),
    (
        "wait end2 key=5 mask=READABLE|peek edge=0",
        "line 1, column 31: found `peek`, expected a signal \
        (READABLE, WRITABLE, PEER_CLOSED, PEER_WRITE_DISABLED, WRITE_DISABLED, READ_THRESHOLD, \
        WRITE_THRESHOLD), several joined by |, or a number from 0 to 4294967295",
    ),
    (
        "read end2 options=peek| address=1 count=2 count_at=3",
        "line 1, column 24: expected an option \
        (peek), several joined by |, or a number from 0 to 4294967295",
    ),
    (
        "create kind=pipe capacity=8 rights1=7 rights2=7",
        "line 1, column 13: found `pipe`, expected a kind \
        (stream, datagram) or a number from 0 to 4294967295",
    ),
    (
        "create kind=0 capacity=8 rights1=256 rights2=7",
        "line 1, column 34: found `256`, expected a right \
        (read, write, manage), several joined by |, or a number from 0 to 255",
    ),
    (
        "close end3",
        "line 1, column 7: found `end3`, expected an end (end1, end2) or a number from 0 to \
        4294967295",
    ),
    (
        "disposition 1 own=off peer=0",
        "line 1, column 19: found `off`, expected a disposition (none, \
        disable, enable) or a number from 0 to 4294967295",
    ),
    (
        "read_threshold 1 threshold=18446744073709551616",
        "line 1, column 28: found `18446744073709551616`, \
        expected a number from 0 to 18446744073709551615",
    ),
    (
        "wait 2 key=+5 mask=1 edge=0",
        "line 1, column 12: found `+5`, expected a number from 0 to \
        18446744073709551615",
    ),
    (
        "wait 2 key=0x mask=1 edge=0",
        "line 1, column 12: found `0x`, expected a number from 0 to \
        18446744073709551615",
    ),
    ("wait 2 key=5 mask=1", "line 1, column 20: `wait` lacks `edge=`"),
    ("close   # which?", "line 1, column 6: `close` lacks `handle`"),
    ("wait 2 key=5 key=6 mask=1 edge=0", "line 1, column 14: `key` is given twice"),
    ("wait 2 handle=1 key=6 mask=1 edge=0", "line 1, column 8: `handle` is given twice"),
    ("cancel 1", "line 1, column 9: `cancel` lacks `key=`"),
    (
        "cancel 1 key=5 mask=1",
        "line 1, column 16: found `mask=1`, expected an argument of `cancel`: handle, key=",
    ),
    ("close 1 2", "line 1, column 9: found `2`, expected an argument of `close`: handle"),
    ("take 1", "line 1, column 6: found `1`, expected nothing behind `take`"),
    (
        "write 1 size=3",
        "line 1, column 9: found `size=3`, expected an argument of `write`: handle, \
        options=, address=, count=, count_at=",
    ),
    ("fill 65536", "line 1, column 11: `fill` lacks its bytes in hexadecimal, two digits each"),
    ("fill 65536 61 62", "line 1, column 15: the bytes of `fill` are given twice"),
    ("fill 65536 616x", "line 1, column 15: found `x`, expected bytes in hexadecimal, two digits each"),
    ("raw 0c0", "line 1, column 5: found `0c0`, expected bytes in hexadecimal, two digits each"),
    ("many * take", "line 1, column 1: found `many`, expected how often the line stands, a number from 1"),
    ("  0 * take", "line 1, column 3: found `0`, expected how often the line stands, a number from 1"),
];

#[test]
fn a_mistake_is_told_with_line_and_column() {
    for (text, what) in MISTAKES {
        assert_eq!(mistakes(text), what, "{text}");
    }
    let long = format!("fill 65536 {}", "00".repeat(MOST_FILL + 1));
    assert_eq!(mistakes(&long), "line 1, column 12: found 4097 bytes, expected 1 to 4096");
    let behind = mistakes("3 *");
    assert!(behind.starts_with("line 1, column 4: expected a record: create, "), "{behind}");
    let accents = mistakes("take\ntake é");
    assert_eq!(accents, "line 2, column 6: found `é`, expected nothing behind `take`");
}

#[test]
fn every_line_with_a_mistake_is_told_up_to_twenty() {
    assert_eq!(mistakes("push\ntake\npull\n").lines().count(), 2);
    assert_eq!(mistakes(&"push\n".repeat(30)).lines().count(), 20);
}

#[test]
fn bytes_that_are_no_text_are_told_with_line_and_column() {
    let told = text_of(b"take\nta\xffke").expect_err("no text").to_string();
    assert_eq!(told, "line 2, column 3: found a byte that is no UTF-8, expected the text of a script");
}

#[test]
fn what_is_left_out_can_be_zero() {
    let short = encode("create capacity=8\nwait", Missing::Zero).expect("both");
    assert_eq!(short, bytes("create kind=0 capacity=8 rights1=0 rights2=0\nwait 0 key=0 mask=0 edge=0"));
    assert!(encode("wait 1 key=1 key=1", Missing::Zero).is_err());
    assert!(encode("fill 65536", Missing::Zero).is_err());
}

/// A create, so that the script program does not stop at the first line.
const CREATE: &str = "create kind=stream capacity=8 rights1=read rights2=write\n";

#[test]
fn repeats_are_written_and_read() {
    let text = format!("{CREATE}take\ninfo 1\n2*take\n take\ninfo 1\ninfo 1\n");
    let again = format!("{CREATE}take\ninfo end1\n3 * take\ninfo end1\ninfo end1\n");
    assert_eq!(decode(&bytes(&text)), again);
    let many = format!("{CREATE}1000000 * take\n");
    assert_eq!(bytes(&many).len(), 13 + 3_000_000);
    assert_eq!(decode(&bytes(&many)), many);
}

#[test]
fn a_repeat_that_is_too_large_is_a_mistake() {
    let fill = format!("fill 65536 {}", "41".repeat(MOST_FILL));
    let size = bytes(&fill).len();
    let most = MOST_BYTES / size;
    for times in [most as u64, 1 << 40, u64::MAX] {
        let what = "times: a script has at most 67108864 bytes";
        let told = format!("line 2, column 2: found `{times}`, expected at most {} {what}", most - 1);
        assert_eq!(mistakes(&format!("{fill}\n {times} * {fill}")), told);
    }
    assert_eq!(bytes(&format!("{most} * {fill}")).len(), size * most);
}

/// A script that stops, and the comment that says why.
#[test]
fn a_comment_says_why_a_script_stops() {
    let stops = [
        ("raw 0d0000\n", "no record has tag 13"),
        ("raw 0c0b00\n", "a body of 11 bytes is wrong for `cancel`, which has 12"),
        ("raw 0a\n", "a record is cut: 1 of the 3 bytes of its tag and length are there"),
        ("raw 07030001\n", "a body of 3 bytes is wrong for `info`, which has 4"),
        ("raw 0b0800\n", "a body of 8 bytes is wrong for `fill`, which has 9 to 4104"),
        ("raw 07040001\n", "a record is cut: 1 bytes of its body are there"),
        (CREATE, "only the first record is a create"),
    ];
    for (line, why) in stops {
        let text = format!("{CREATE}# The script program stops here (stop 13): {why}.\n{line}");
        assert_eq!(decode(&bytes(&text)), text);
    }
    let first = "# The script program stops here (stop 0): the first record has to be a create.\ntake\n";
    assert_eq!(decode(&bytes(first)), first);
    let why = "# The script program stops here (stop 16): only the first record is a create.\n";
    let twice = format!("{CREATE}take\n{why}{CREATE}take\n{CREATE}raw 0c\n");
    assert_eq!(decode(&bytes(&twice)), twice);
}

/// A record of each row, with its least values, its largest ones, and ones that are all different.
#[test]
fn every_row_goes_both_ways() {
    for (tag, shape) in SHAPES.iter().enumerate() {
        let different = (1..).map(|number: u64| number * 0x0102_0304_0506_0708);
        let values = [
            vec![0; shape.fields.len()],
            vec![u64::MAX; shape.fields.len()],
            different.take(shape.fields.len()).collect(),
        ];
        for values in values {
            let values = values.iter().zip(shape.fields).map(|(value, field)| value & field.most()).collect();
            let bytes = vec![0x5a; shape.bytes.map_or(0, |(least, _)| least)];
            let record = Record { tag: tag as u8, values, bytes };
            let mut encoded = Vec::new();
            record.encode(&mut encoded);
            assert_eq!(Record::decode(&encoded), Ok((record.clone(), encoded.len())));
            assert_eq!(self::bytes(&line_of(&record)), encoded, "{}", line_of(&record));
        }
    }
}
