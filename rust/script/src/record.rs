//! The records of a script and their bytes: a one-byte tag, a two-byte length and a body, all little-endian.

use crate::names::Values;
use crate::pair::{Call, Pair};
use crate::table::SHAPES;
use std::fmt;
use std::ops::RangeInclusive;

/// An argument of a record.
pub struct Field {
    /// Its name in the text form.
    pub name: &'static str,
    /// Its size in bytes, at most 8.
    pub size: usize,
    /// How its values are written.
    pub values: Values,
}

/// What the line of a done call adds behind the two words.
pub enum Adds {
    /// Nothing.
    Nothing,
    /// As many bytes as the word says, in hexadecimal, if any.
    Bytes,
    /// Numbers.
    Numbers(&'static [Part]),
}

/// A number that a line adds.
pub struct Part {
    /// What it is.
    pub name: &'static str,
    /// Its hexadecimal digits; 0 stands for decimal.
    pub digits: usize,
    /// How its values are written.
    pub values: Values,
}

/// Why a call is refused.
pub struct Refusal {
    /// The status.
    pub status: i64,
    /// The reason in words.
    pub reason: &'static str,
    /// Whether the reason is there.
    pub holds: fn(&Pair, &Record) -> bool,
}

/// The end of a call's handle, or the other one.
#[derive(Clone, Copy, Debug, PartialEq)]
pub enum Side {
    /// The end of the handle.
    Own,
    /// The other end.
    Peer,
}

/// One kind of record: a row of the table.
pub struct Shape {
    /// Its name in the text form.
    pub name: &'static str,
    /// Its arguments, in the order of the body.
    pub fields: &'static [Field],
    /// How many bytes follow the arguments, at least and at most.
    pub bytes: Option<(usize, usize)>,
    /// The call in words: phrases in which `{count}` stands for the argument of this name. A phrase
    /// behind the first is left out where one of its arguments is 0.
    pub says: &'static [&'static str],
    /// A done answer in words. `{}` stands for the word, and where it is missing the word is 0.
    pub done: &'static str,
    /// What the line of a done call adds.
    pub adds: Adds,
    /// The reasons to refuse the call, in the order in which they are tested.
    pub refusals: &'static [Refusal],
    /// The changes that a done call makes to the signal words, in their order: whose, and of which bits.
    pub changes: &'static [(Side, u32)],
    /// What a done call does to queues, thresholds, waits, packets and memory.
    pub follow: fn(&mut Pair, &Call, &mut Vec<String>),
}

/// The tag of a create.
pub const CREATE: u8 = 0;
/// The tag of a fill.
pub const FILL: u8 = 11;
/// A fill carries 1 to this many bytes.
pub const MOST_FILL: usize = 4096;
/// Tag and length before a body.
pub const HEAD: usize = 3;

impl Field {
    /// The largest value.
    pub fn most(&self) -> u64 {
        u64::MAX >> (64 - 8 * self.size)
    }
}

impl Shape {
    /// The size of the arguments together.
    pub fn size(&self) -> usize {
        self.fields.iter().map(|field| field.size).sum()
    }

    /// The lengths that a body may have.
    pub fn lengths(&self) -> RangeInclusive<usize> {
        let (least, most) = self.bytes.unwrap_or((0, 0));
        self.size() + least..=self.size() + most
    }
}

/// Why some bytes do not begin with a record. The tests are made in this order.
#[derive(Clone, Copy, Debug, PartialEq)]
pub enum Damage {
    /// No record has this tag.
    Tag(u8),
    /// Only so many bytes of tag and length are there.
    CutHead(usize),
    /// No record of the tag has this length.
    Length {
        /// The tag.
        tag: u8,
        /// The length.
        length: usize,
    },
    /// Only so many bytes of the body are there.
    CutBody(usize),
}

/// A record: its tag, the values of its arguments, and the bytes behind them.
#[derive(Clone, Debug, PartialEq)]
pub struct Record {
    /// The place of its shape in the table.
    pub tag: u8,
    /// As many as the shape has arguments, each of at most the argument's size.
    pub values: Vec<u64>,
    /// The bytes behind the arguments.
    pub bytes: Vec<u8>,
}

impl Record {
    /// The row of the table.
    pub fn shape(&self) -> &'static Shape {
        &SHAPES[self.tag as usize]
    }

    /// The value of an argument; 0 if the record has none of this name.
    pub fn value(&self, name: &str) -> u64 {
        let place = self.shape().fields.iter().position(|field| field.name == name);
        place.map_or(0, |place| self.values[place])
    }

    /// Appends the record's bytes.
    pub fn encode(&self, out: &mut Vec<u8>) {
        let shape = self.shape();
        let length = (shape.size() + self.bytes.len()) as u16;
        out.push(self.tag);
        out.extend(length.to_le_bytes());
        for (field, value) in shape.fields.iter().zip(&self.values) {
            out.extend(&value.to_le_bytes()[..field.size]);
        }
        out.extend(&self.bytes);
    }

    /// The first record of some bytes and its size, or why there is none.
    pub fn decode(input: &[u8]) -> Result<(Record, usize), Damage> {
        let Some((&tag, rest)) = input.split_first() else { return Err(Damage::CutHead(0)) };
        let shape = SHAPES.get(tag as usize).ok_or(Damage::Tag(tag))?;
        let (length, rest) = rest.split_first_chunk().ok_or(Damage::CutHead(input.len()))?;
        let length = u16::from_le_bytes(*length) as usize;
        if !shape.lengths().contains(&length) {
            return Err(Damage::Length { tag, length });
        }
        let mut body = rest.get(..length).ok_or(Damage::CutBody(rest.len()))?;
        let mut values = Vec::with_capacity(shape.fields.len());
        for field in shape.fields {
            let (bytes, rest) = body.split_at(field.size);
            let mut value = [0; 8];
            value[..field.size].copy_from_slice(bytes);
            values.push(u64::from_le_bytes(value));
            body = rest;
        }
        Ok((Record { tag, values, bytes: body.to_vec() }, HEAD + length))
    }
}

/// Why a script stops at some bytes.
#[derive(Clone, Copy, Debug, PartialEq)]
pub enum Stop {
    /// There is no whole record.
    Damaged(Damage),
    /// A create behind the first record.
    SecondCreate,
    /// Another first record than a create.
    NoCreate,
}

/// The first record of some bytes and its size, or why a script stops there. `created` says whether a
/// create came before.
pub fn next_record(bytes: &[u8], created: bool) -> Result<(Record, usize), Stop> {
    let (record, size) = Record::decode(bytes).map_err(Stop::Damaged)?;
    match (record.tag == CREATE, created) {
        (true, true) => Err(Stop::SecondCreate),
        (false, false) => Err(Stop::NoCreate),
        _ => Ok((record, size)),
    }
}

impl fmt::Display for Damage {
    fn fmt(&self, f: &mut fmt::Formatter<'_>) -> fmt::Result {
        match *self {
            Damage::Tag(tag) => write!(f, "no record has tag {tag}"),
            Damage::CutHead(number) => {
                write!(f, "a record is cut: {number} of the {HEAD} bytes of its tag and length are there")
            }
            Damage::Length { tag, length } => {
                let shape = &SHAPES[tag as usize];
                let lengths = shape.lengths();
                write!(
                    f,
                    "a body of {length} bytes is wrong for `{}`, which has {}",
                    shape.name,
                    lengths.start()
                )?;
                match lengths.start() == lengths.end() {
                    true => Ok(()),
                    false => write!(f, " to {}", lengths.end()),
                }
            }
            Damage::CutBody(number) => write!(f, "a record is cut: {number} bytes of its body are there"),
        }
    }
}

impl fmt::Display for Stop {
    fn fmt(&self, f: &mut fmt::Formatter<'_>) -> fmt::Result {
        match self {
            Stop::Damaged(damage) => damage.fmt(f),
            Stop::SecondCreate => write!(f, "only the first record is a create"),
            Stop::NoCreate => write!(f, "the first record has to be a create"),
        }
    }
}

/// One part of a script: a whole record, or the damaged rest.
#[derive(Clone, Debug, PartialEq)]
pub enum Piece {
    /// A record.
    Record(Record),
    /// Bytes that do not begin with a record.
    Raw(Vec<u8>),
}

impl Piece {
    /// Appends the part's bytes.
    pub fn encode(&self, out: &mut Vec<u8>) {
        match self {
            Piece::Record(record) => record.encode(out),
            Piece::Raw(bytes) => out.extend(bytes),
        }
    }
}

/// The first part of some bytes and its size.
pub fn next_piece(bytes: &[u8]) -> (Piece, usize) {
    match Record::decode(bytes) {
        Ok((record, size)) => (Piece::Record(record), size),
        Err(_) => (Piece::Raw(bytes.to_vec()), bytes.len()),
    }
}

/// The records of a script as far as they decode, then the rest.
pub fn pieces(script: &[u8]) -> Vec<Piece> {
    let mut pieces = Vec::new();
    let mut at = 0;
    while at < script.len() {
        let (piece, size) = next_piece(&script[at..]);
        pieces.push(piece);
        at += size;
    }
    pieces
}

/// The bytes of the parts, one after the other.
pub fn join(pieces: &[Piece]) -> Vec<u8> {
    let mut script = Vec::new();
    pieces.iter().for_each(|piece| piece.encode(&mut script));
    script
}
