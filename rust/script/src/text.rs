//! The text form of scripts: one record a line, as
//! `write end1 options=0 address=65536 count=3 count_at=0`. A first argument that is a handle or an address
//! stands without its name. Values are names, or numbers in decimal or in hexadecimal after 0x; bits are
//! joined by `|`. `raw` and hexadecimal digits stand for bytes that are no record; `#` begins a comment.
//! `128 * take` stands for 128 such lines.

use crate::mistake::{Mistake, Mistakes, Word};
use crate::names::Values;
use crate::record::{next_piece, next_record, Field, Piece, Record, Shape, Stop, CREATE};
use crate::table::SHAPES;
use std::fmt::Write;

/// From how many equal lines on their number is written.
const MANY: usize = 3;
/// The most bytes that a script may have, so that a large repeat cannot use up the memory.
pub const MOST_BYTES: usize = 1 << 26;
/// The most mistakes that are told.
const MOST_MISTAKES: usize = 20;

/// What an argument that is left out means.
#[derive(Clone, Copy, Debug, PartialEq)]
pub enum Missing {
    /// It is a mistake.
    Mistake,
    /// It is 0.
    Zero,
}

/// The text of a script. It encodes to the same bytes. Where the script program stops, a comment says why.
pub fn decode(script: &[u8]) -> String {
    let mut text = String::new();
    let mut same: Option<(Piece, usize)> = None;
    let (mut at, mut created, mut stopped) = (0, false, false);
    while at < script.len() {
        let stop = if stopped { None } else { next_record(&script[at..], created).err() };
        let (piece, size) = next_piece(&script[at..]);
        created |= matches!(&piece, Piece::Record(record) if record.tag == CREATE);
        match &mut same {
            Some((last, times)) if *last == piece && stop.is_none() => *times += 1,
            _ => put_lines(&mut text, same.replace((piece, 1))),
        }
        if let Some(stop) = stop {
            put_stop(&mut text, at, stop);
            stopped = true;
        }
        at += size;
    }
    put_lines(&mut text, same);
    text
}

fn put_stop(text: &mut String, at: usize, stop: Stop) {
    writeln!(text, "# The script program stops here (stop {at}): {stop}.").unwrap();
}

fn put_lines(text: &mut String, same: Option<(Piece, usize)>) {
    let Some((piece, times)) = same else { return };
    let line = match &piece {
        Piece::Record(record) => line_of(record),
        Piece::Raw(bytes) => format!("raw {}", hex(bytes)),
    };
    if times >= MANY {
        writeln!(text, "{times} * {line}").unwrap();
    } else {
        (0..times).for_each(|_| writeln!(text, "{line}").unwrap());
    }
}

/// The line of a record.
pub fn line_of(record: &Record) -> String {
    let shape = record.shape();
    let mut line = shape.name.to_string();
    for (place, (field, value)) in shape.fields.iter().zip(&record.values).enumerate() {
        if !is_bare(shape, place) {
            write!(line, " {}={}", field.name, field.values.text(*value)).unwrap();
        } else {
            write!(line, " {}", field.values.text(*value)).unwrap();
        }
    }
    if shape.bytes.is_some() {
        write!(line, " {}", hex(&record.bytes)).unwrap();
    }
    line
}

/// Whether an argument may stand without its name.
fn is_bare(shape: &Shape, place: usize) -> bool {
    place == 0 && ["handle", "address"].contains(&shape.fields[place].name)
}

/// Lower-case hexadecimal digits.
pub fn hex(bytes: &[u8]) -> String {
    let mut text = String::with_capacity(2 * bytes.len());
    for byte in bytes {
        write!(text, "{byte:02x}").unwrap();
    }
    text
}

/// The text of some bytes, or where they are no UTF-8.
pub fn text_of(bytes: &[u8]) -> Result<&str, Mistakes> {
    std::str::from_utf8(bytes).map_err(|error| {
        let good = String::from_utf8_lossy(&bytes[..error.valid_up_to()]);
        let line = good.matches('\n').count() + 1;
        let column = good.rsplit('\n').next().unwrap_or("").chars().count() + 1;
        let what = "found a byte that is no UTF-8, expected the text of a script".to_string();
        Mistakes(vec![Mistake { line, column, what }])
    })
}

/// The bytes of a script given as text, or the mistakes in it.
pub fn encode(text: &str, missing: Missing) -> Result<Vec<u8>, Mistakes> {
    let mut script = Vec::new();
    let mut mistakes = Vec::new();
    let text = text.strip_prefix('\u{feff}').unwrap_or(text);
    for (number, line) in text.lines().enumerate() {
        let line = line.split('#').next().unwrap_or("");
        let line = Word { text: line, line: number + 1, column: 1 };
        if let Err(mistake) = put_line(&mut script, line, missing) {
            mistakes.push(mistake);
        }
        if mistakes.len() == MOST_MISTAKES {
            break;
        }
    }
    if mistakes.is_empty() {
        Ok(script)
    } else {
        Err(Mistakes(mistakes))
    }
}

/// Appends the bytes of a line, as often as it says.
fn put_line(script: &mut Vec<u8>, line: Word, missing: Missing) -> Result<(), Mistake> {
    if line.words().is_empty() {
        return Ok(());
    }
    let (times, repeat, line) = match line.split_once('*') {
        Some((before, line)) => (times_of(before)?, before.words()[0], line),
        None => (1, line, line),
    };
    let mut bytes = Vec::new();
    piece_of(line, missing)?.encode(&mut bytes);
    let most = (MOST_BYTES - script.len()) / bytes.len();
    if times > most as u64 {
        let expected = format!("at most {most} times: a script has at most {MOST_BYTES} bytes");
        return Err(repeat.unexpected(expected));
    }
    (0..times).for_each(|_| script.extend(&bytes));
    Ok(())
}

/// How often a line stands.
fn times_of(before: Word) -> Result<u64, Mistake> {
    let words = before.words();
    let word = words.last().copied().unwrap_or(before);
    let expected = "how often the line stands, a number from 1";
    if words.len() > 1 {
        return Err(words[0].unexpected(expected));
    }
    number_of(word.text).filter(|times| *times > 0).ok_or_else(|| word.unexpected(expected))
}

fn piece_of(line: Word, missing: Missing) -> Result<Piece, Mistake> {
    let words = line.words();
    let names = || SHAPES.iter().map(|shape| shape.name).collect::<Vec<_>>().join(", ");
    let Some((name, arguments)) = words.split_first() else {
        return Err(line.end().unexpected(format!("a record: {} or raw", names())));
    };
    if name.text == "raw" {
        return raw_of(line, arguments).map(Piece::Raw);
    }
    match SHAPES.iter().position(|shape| shape.name == name.text) {
        Some(tag) => record_of(tag as u8, line, arguments, missing).map(Piece::Record),
        None => Err(name.unexpected(format!("a record: {} or raw", names()))),
    }
}

fn raw_of(line: Word, words: &[Word]) -> Result<Vec<u8>, Mistake> {
    if words.is_empty() {
        return Err(line.end().unexpected("bytes in hexadecimal, two digits each"));
    }
    let parts: Result<Vec<_>, _> = words.iter().map(bytes_of).collect();
    Ok(parts?.concat())
}

fn record_of(tag: u8, line: Word, words: &[Word], missing: Missing) -> Result<Record, Mistake> {
    let shape = &SHAPES[tag as usize];
    let mut values: Vec<Option<u64>> = vec![None; shape.fields.len()];
    let mut bytes = None;
    for (place, word) in words.iter().enumerate() {
        let Some((field, value)) = argument_of(shape, place, word)? else {
            bytes = Some(tail_of(shape, word, bytes.is_some())?);
            continue;
        };
        if values[field].replace(value_of(&shape.fields[field], value)?).is_some() {
            return Err(word.mistake(format!("`{}` is given twice", shape.fields[field].name)));
        }
    }
    let lacks = |name: &str| line.end().mistake(format!("`{}` lacks {name}", shape.name));
    for (place, value) in values.iter_mut().enumerate() {
        match missing {
            Missing::Mistake if value.is_none() => {
                return Err(lacks(&format!("`{}`", argument(shape, place))))
            }
            _ => *value = value.or(Some(0)),
        }
    }
    if shape.bytes.is_some() && bytes.is_none() {
        return Err(lacks("its bytes in hexadecimal, two digits each"));
    }
    Ok(Record { tag, values: values.into_iter().flatten().collect(), bytes: bytes.unwrap_or_default() })
}

/// How an argument is written.
fn argument(shape: &Shape, place: usize) -> String {
    let name = shape.fields[place].name;
    if is_bare(shape, place) {
        name.to_string()
    } else {
        format!("{name}=")
    }
}

/// The place of the argument that a word gives, and its value; none if the word is the bytes behind them.
fn argument_of<'a>(
    shape: &Shape,
    place: usize,
    word: &Word<'a>,
) -> Result<Option<(usize, Word<'a>)>, Mistake> {
    match word.split_once('=') {
        Some((name, value)) => {
            let known = shape.fields.iter().position(|field| field.name == name.text);
            known.map(|field| Some((field, value))).ok_or_else(|| word.unexpected(arguments(shape)))
        }
        None if place == 0 && !shape.fields.is_empty() && is_bare(shape, 0) => Ok(Some((0, *word))),
        None if shape.bytes.is_some() => Ok(None),
        None => Err(word.unexpected(arguments(shape))),
    }
}

/// What may stand behind a record's name, for a message.
fn arguments(shape: &Shape) -> String {
    let mut names: Vec<String> = (0..shape.fields.len()).map(|place| argument(shape, place)).collect();
    if shape.bytes.is_some() {
        names.push("bytes in hexadecimal".to_string());
    }
    match names.is_empty() {
        true => format!("nothing behind `{}`", shape.name),
        false => format!("an argument of `{}`: {}", shape.name, names.join(", ")),
    }
}

/// The bytes behind the arguments.
fn tail_of(shape: &Shape, word: &Word, twice: bool) -> Result<Vec<u8>, Mistake> {
    if twice {
        return Err(word.mistake(format!("the bytes of `{}` are given twice", shape.name)));
    }
    let (least, most) = shape.bytes.unwrap_or((0, 0));
    let bytes = bytes_of(word)?;
    match (least..=most).contains(&bytes.len()) {
        true => Ok(bytes),
        false => Err(word.mistake(format!("found {} bytes, expected {least} to {most}", bytes.len()))),
    }
}

/// The value of an argument, by name or as a number.
fn value_of(field: &Field, word: Word) -> Result<u64, Mistake> {
    let parts = match field.values {
        Values::Bits { .. } => word.split(|letter| letter == '|'),
        _ => vec![word],
    };
    let mut value = 0;
    for part in parts {
        let number = field.values.named(part.text).or_else(|| number_of(part.text));
        let number = number.filter(|number| *number <= field.most());
        value |= number.ok_or_else(|| part.unexpected(field.values.expected(field.most())))?;
    }
    Ok(value)
}

/// A number in decimal, or in hexadecimal after 0x.
fn number_of(text: &str) -> Option<u64> {
    let (digits, radix) = match text.strip_prefix("0x") {
        Some(digits) => (digits, 16),
        None => (text, 10),
    };
    // `from_str_radix` takes a sign too.
    let good = digits.chars().all(|digit| digit.is_digit(radix));
    good.then(|| u64::from_str_radix(digits, radix).ok()).flatten()
}

/// The bytes of hexadecimal digits.
fn bytes_of(word: &Word) -> Result<Vec<u8>, Mistake> {
    let expected = "bytes in hexadecimal, two digits each";
    let strange = word.text.chars().enumerate().find(|(_, digit)| !digit.is_ascii_hexdigit());
    if let Some((at, digit)) = strange {
        let place = Word { column: word.column + at, ..*word };
        return Err(place.mistake(format!("found `{digit}`, expected {expected}")));
    }
    bytes_from_hex(word.text).ok_or_else(|| word.unexpected(expected))
}

/// The bytes of an even number of hexadecimal digits.
pub(crate) fn bytes_from_hex(digits: &str) -> Option<Vec<u8>> {
    let values: Option<Vec<u32>> = digits.chars().map(|digit| digit.to_digit(16)).collect();
    let values = values.filter(|values| values.len() % 2 == 0)?;
    Some(values.chunks(2).map(|pair| (pair[0] << 4 | pair[1]) as u8).collect())
}
