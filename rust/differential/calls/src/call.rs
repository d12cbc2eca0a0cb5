//! The calls and lists of them.

use differential::random::Random;
use differential::record::Transfer;
use differential::shrink::smaller;
use std::fmt;

/// A call with its arguments. Dispositions are 0 none, 1 disable, 2 enable.
#[derive(Clone, Debug, PartialEq)]
pub enum Call {
    /// The bytes are drawn from the seed.
    Write {
        handle: u32,
        count: u64,
        seed: u64,
    },
    Read {
        handle: u32,
        count: u64,
    },
    Peek {
        handle: u32,
        count: u64,
    },
    SetDisposition {
        handle: u32,
        own: u32,
        peer: u32,
    },
    Shutdown {
        handle: u32,
        read: bool,
        write: bool,
    },
    SetReadThreshold {
        handle: u32,
        threshold: u64,
    },
    SetWriteThreshold {
        handle: u32,
        threshold: u64,
    },
    Thresholds {
        handle: u32,
    },
    Info {
        handle: u32,
    },
    Wait {
        handle: u32,
        key: u64,
        mask: u32,
        edge: u8,
    },
    Take,
    Cancel {
        handle: u32,
        key: u64,
    },
    Close {
        handle: u32,
    },
    UserWrite(Transfer),
    UserRead(Transfer),
    UserSetDisposition {
        handle: u32,
        own: u32,
        peer: u32,
    },
    UserShutdown {
        handle: u32,
        options: u32,
    },
}

/// The calls without user memory.
pub const PLAIN: usize = 13;

/// Every answer that a call can have in a run, those of the plain calls first;
/// 1 stands for a count above 0.
pub const ANSWERS: [(&str, &[i64]); PLAIN + 4] = [
    ("write", &[1, 0, -10, -11, -14, -20, -22, -24]),
    ("read", &[1, 0, -11, -20, -22, -24]),
    ("peek", &[1, 0, -11, -20, -22, -24]),
    ("set_disposition", &[0, -11, -20]),
    ("shutdown", &[0, -11]),
    ("set_read_threshold", &[0, -10, -11]),
    ("set_write_threshold", &[0, -10, -11, -24]),
    ("thresholds", &[0, -11]),
    ("info", &[0, -11]),
    ("wait", &[0, -3, -10, -11]),
    ("take", &[0, -22]),
    ("cancel", &[1, -11, -25]),
    ("close", &[0, -11]),
    ("user_write", &[1, 0, -10, -11, -14, -20, -22, -24, -30]),
    ("user_read", &[1, 0, -10, -11, -20, -22, -24, -30]),
    ("user_set_disposition", &[0, -10, -11, -20, -30]),
    ("user_shutdown", &[0, -11, -30]),
];

type Values = Vec<(&'static str, u64)>;

impl Call {
    pub fn name(&self) -> &'static str {
        match self {
            Call::Write { .. } => "write",
            Call::Read { .. } => "read",
            Call::Peek { .. } => "peek",
            Call::SetDisposition { .. } => "set_disposition",
            Call::Shutdown { .. } => "shutdown",
            Call::SetReadThreshold { .. } => "set_read_threshold",
            Call::SetWriteThreshold { .. } => "set_write_threshold",
            Call::Thresholds { .. } => "thresholds",
            Call::Info { .. } => "info",
            Call::Wait { .. } => "wait",
            Call::Take => "take",
            Call::Cancel { .. } => "cancel",
            Call::Close { .. } => "close",
            Call::UserWrite(_) => "user_write",
            Call::UserRead(_) => "user_read",
            Call::UserSetDisposition { .. } => "user_set_disposition",
            Call::UserShutdown { .. } => "user_shutdown",
        }
    }

    /// The handle, of a call that has one.
    pub fn handle(&self) -> u32 {
        self.values().first().map_or(0, |(_, handle)| *handle as u32)
    }

    /// The arguments by name, the handle first.
    fn values(&self) -> Values {
        let on = |handle: u32| ("handle", u64::from(handle));
        match *self {
            Call::UserWrite(ref t) | Call::UserRead(ref t) => {
                let rest = [("address", t.address), ("count", t.count), ("count_at", t.count_at)];
                [vec![on(t.handle), ("options", t.options.into())], rest.to_vec()].concat()
            }
            Call::SetDisposition { handle, own, peer } | Call::UserSetDisposition { handle, own, peer } => {
                vec![on(handle), ("own", own.into()), ("peer", peer.into())]
            }
            Call::UserShutdown { handle, options } => vec![on(handle), ("options", options.into())],
            Call::Write { handle, count, seed } => vec![on(handle), ("count", count), ("seed", seed)],
            Call::Read { handle, count } | Call::Peek { handle, count } => {
                vec![on(handle), ("count", count)]
            }
            Call::Shutdown { handle, read, write } => {
                vec![on(handle), ("read", read.into()), ("write", write.into())]
            }
            Call::SetReadThreshold { handle, threshold } | Call::SetWriteThreshold { handle, threshold } => {
                vec![on(handle), ("threshold", threshold)]
            }
            Call::Wait { handle, key, mask, edge } => {
                vec![on(handle), ("key", key), ("mask", mask.into()), ("edge", edge.into())]
            }
            Call::Thresholds { handle } | Call::Info { handle } | Call::Close { handle } => vec![on(handle)],
            Call::Cancel { handle, key } => vec![on(handle), ("key", key)],
            Call::Take => vec![],
        }
    }

    /// The same call with other values of its arguments.
    fn with(&self, values: &[u64]) -> Call {
        let handle = values.first().map_or(0, |value| *value as u32);
        let transfer = || Transfer {
            handle,
            options: values[1] as u32,
            address: values[2],
            count: values[3],
            count_at: values[4],
        };
        match self {
            Call::UserWrite(_) => Call::UserWrite(transfer()),
            Call::UserRead(_) => Call::UserRead(transfer()),
            Call::UserSetDisposition { .. } => {
                Call::UserSetDisposition { handle, own: values[1] as u32, peer: values[2] as u32 }
            }
            Call::UserShutdown { .. } => Call::UserShutdown { handle, options: values[1] as u32 },
            Call::Write { .. } => Call::Write { handle, count: values[1], seed: values[2] },
            Call::Read { .. } => Call::Read { handle, count: values[1] },
            Call::Peek { .. } => Call::Peek { handle, count: values[1] },
            Call::SetDisposition { .. } => {
                Call::SetDisposition { handle, own: values[1] as u32, peer: values[2] as u32 }
            }
            Call::Shutdown { .. } => Call::Shutdown { handle, read: values[1] != 0, write: values[2] != 0 },
            Call::SetReadThreshold { .. } => Call::SetReadThreshold { handle, threshold: values[1] },
            Call::SetWriteThreshold { .. } => Call::SetWriteThreshold { handle, threshold: values[1] },
            Call::Thresholds { .. } => Call::Thresholds { handle },
            Call::Info { .. } => Call::Info { handle },
            Call::Wait { .. } => {
                Call::Wait { handle, key: values[1], mask: values[2] as u32, edge: values[3] as u8 }
            }
            Call::Take => Call::Take,
            Call::Cancel { .. } => Call::Cancel { handle, key: values[1] },
            Call::Close { .. } => Call::Close { handle },
        }
    }

    /// The call with one number made smaller, smallest first.
    pub fn simpler(&self) -> Vec<Call> {
        let named = self.values();
        let values: Vec<u64> = named.iter().map(|(_, value)| *value).collect();
        let mut calls = Vec::new();
        for (place, (name, value)) in named.iter().enumerate() {
            for less in smaller(*value, if *name == "handle" { 1 } else { 0 }) {
                let mut fewer = values.clone();
                fewer[place] = less;
                calls.push(self.with(&fewer));
            }
        }
        calls
    }
}

/// The bytes of a write.
pub fn bytes(count: u64, seed: u64) -> Vec<u8> {
    Random::new(seed, 0).bytes(count as usize)
}

impl fmt::Display for Call {
    fn fmt(&self, f: &mut fmt::Formatter<'_>) -> fmt::Result {
        write!(f, "{}", self.name())?;
        for (name, value) in self.values() {
            match name {
                "handle" => write!(f, " {value}")?,
                _ => write!(f, " {name}={value}")?,
            }
        }
        Ok(())
    }
}

/// User memory: where it begins and how long it is.
#[derive(Clone, Copy, Debug, PartialEq)]
pub struct Memory {
    pub base: u64,
    pub length: usize,
}

impl Memory {
    /// What it holds at first.
    pub fn contents(&self) -> Vec<u8> {
        bytes(self.length as u64, 1)
    }
}

/// What a pair is made with.
#[derive(Clone, Copy, Debug, PartialEq)]
pub struct Shape {
    pub kind: u32,
    pub capacity: u32,
    pub rights: [u8; 2],
    /// None for a list of plain calls.
    pub memory: Option<Memory>,
}

/// A new pair and the calls on it.
#[derive(Clone, Debug, PartialEq)]
pub struct List {
    pub shape: Shape,
    pub calls: Vec<Call>,
}

impl fmt::Display for List {
    fn fmt(&self, f: &mut fmt::Formatter<'_>) -> fmt::Result {
        let Shape { kind, capacity, rights: [one, two], memory } = self.shape;
        write!(f, "create kind={kind} capacity={capacity} rights1={one} rights2={two}")?;
        if let Some(Memory { base, length }) = memory {
            write!(f, ", memory of {length} bytes at {base}")?;
        }
        writeln!(f)?;
        self.calls.iter().try_for_each(|call| writeln!(f, "{call}"))
    }
}
