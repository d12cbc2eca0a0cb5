//! The records of a script with typed arguments, for the machine that makes
//! their calls. Their bytes, their names and their text form are those of
//! `script`.

use script::record::{CREATE, FILL};

/// Arguments of a write or a read over user memory.
#[derive(Clone, Debug, PartialEq)]
pub struct Transfer {
    pub handle: u32,
    pub options: u32,
    pub address: u64,
    pub count: u64,
    pub count_at: u64,
}

#[derive(Clone, Debug, PartialEq)]
pub enum Record {
    Create { kind: u32, capacity: u32, rights: [u8; 2] },
    Write(Transfer),
    Read(Transfer),
    Disposition { handle: u32, own: u32, peer: u32 },
    Shutdown { handle: u32, options: u32 },
    ReadThreshold { handle: u32, threshold: u64 },
    WriteThreshold { handle: u32, threshold: u64 },
    Info { handle: u32 },
    Close { handle: u32 },
    Wait { handle: u32, key: u64, mask: u32, edge: u8 },
    Take,
    Fill { address: u64, bytes: Vec<u8> },
    Cancel { handle: u32, key: u64 },
}

impl Record {
    /// Tag, values of the fields in order, and the bytes after them.
    pub fn values(&self) -> (u8, Vec<u64>, &[u8]) {
        let transfer = |t: &Transfer| vec![t.handle.into(), t.options.into(), t.address, t.count, t.count_at];
        let (tag, values) = match self {
            Record::Create { kind, capacity, rights: [one, two] } => {
                (CREATE, vec![(*kind).into(), (*capacity).into(), (*one).into(), (*two).into()])
            }
            Record::Write(t) => (1, transfer(t)),
            Record::Read(t) => (2, transfer(t)),
            Record::Disposition { handle, own, peer } => {
                (3, vec![(*handle).into(), (*own).into(), (*peer).into()])
            }
            Record::Shutdown { handle, options } => (4, vec![(*handle).into(), (*options).into()]),
            Record::ReadThreshold { handle, threshold } => (5, vec![(*handle).into(), *threshold]),
            Record::WriteThreshold { handle, threshold } => (6, vec![(*handle).into(), *threshold]),
            Record::Info { handle } => (7, vec![(*handle).into()]),
            Record::Close { handle } => (8, vec![(*handle).into()]),
            Record::Wait { handle, key, mask, edge } => {
                (9, vec![(*handle).into(), *key, (*mask).into(), (*edge).into()])
            }
            Record::Take => (10, vec![]),
            Record::Fill { address, bytes } => return (FILL, vec![*address], bytes),
            Record::Cancel { handle, key } => (12, vec![(*handle).into(), *key]),
        };
        (tag, values, &[])
    }

    /// The record with a tag, values that fit its fields, and bytes.
    pub fn from_values(tag: u8, values: &[u64], bytes: Vec<u8>) -> Record {
        let word = |place: usize| values[place] as u32;
        let transfer = || Transfer {
            handle: word(0),
            options: word(1),
            address: values[2],
            count: values[3],
            count_at: values[4],
        };
        match tag {
            0 => Record::Create {
                kind: word(0),
                capacity: word(1),
                rights: [values[2] as u8, values[3] as u8],
            },
            1 => Record::Write(transfer()),
            2 => Record::Read(transfer()),
            3 => Record::Disposition { handle: word(0), own: word(1), peer: word(2) },
            4 => Record::Shutdown { handle: word(0), options: word(1) },
            5 => Record::ReadThreshold { handle: word(0), threshold: values[1] },
            6 => Record::WriteThreshold { handle: word(0), threshold: values[1] },
            7 => Record::Info { handle: word(0) },
            8 => Record::Close { handle: word(0) },
            9 => Record::Wait { handle: word(0), key: values[1], mask: word(2), edge: values[3] as u8 },
            10 => Record::Take,
            FILL => Record::Fill { address: values[0], bytes },
            12 => Record::Cancel { handle: word(0), key: values[1] },
            _ => panic!("the machine has no call for tag {tag}"),
        }
    }

    /// Appends the record's bytes.
    pub fn encode(&self, out: &mut Vec<u8>) {
        let (tag, values, bytes) = self.values();
        script::record::Record { tag, values, bytes: bytes.to_vec() }.encode(out);
    }
}

impl From<script::record::Record> for Record {
    fn from(record: script::record::Record) -> Record {
        Record::from_values(record.tag, &record.values, record.bytes)
    }
}

/// The bytes of some records.
pub fn script_of(records: &[Record]) -> Vec<u8> {
    let mut script = Vec::new();
    for record in records {
        record.encode(&mut script);
    }
    script
}
