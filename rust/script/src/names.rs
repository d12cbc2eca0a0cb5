//! The names of values: signals, rights, kinds, handles, dispositions, statuses.

/// A name and the number that it stands for.
pub type Name = (&'static str, u64);

/// How the values of an argument are written.
#[derive(Clone, Copy, Debug)]
pub enum Values {
    /// A number.
    Number,
    /// One of the names, or a number.
    One {
        /// What the names are of.
        what: &'static str,
        /// The names.
        names: &'static [Name],
    },
    /// Bits by name, joined by `|`, or a number.
    Bits {
        /// What the names are of.
        what: &'static str,
        /// The names.
        names: &'static [Name],
        /// Says in words that no bit is set.
        none: &'static str,
    },
}

/// READABLE: bytes are queued to be read.
pub const READABLE: u32 = 0x1;
/// WRITABLE: there is space to write to.
pub const WRITABLE: u32 = 0x2;
/// PEER_CLOSED: the other end is closed.
pub const PEER_CLOSED: u32 = 0x4;
/// PEER_WRITE_DISABLED: the other end may not write.
pub const PEER_WRITE_DISABLED: u32 = 0x10;
/// WRITE_DISABLED: this end may not write.
pub const WRITE_DISABLED: u32 = 0x20;
/// READ_THRESHOLD: as many bytes are queued as the read threshold says.
pub const READ_THRESHOLD: u32 = 0x400;
/// WRITE_THRESHOLD: there is as much space as the write threshold says.
pub const WRITE_THRESHOLD: u32 = 0x800;

/// The bits of a signal word.
pub const SIGNALS: &[Name] = &[
    ("READABLE", READABLE as u64),
    ("WRITABLE", WRITABLE as u64),
    ("PEER_CLOSED", PEER_CLOSED as u64),
    ("PEER_WRITE_DISABLED", PEER_WRITE_DISABLED as u64),
    ("WRITE_DISABLED", WRITE_DISABLED as u64),
    ("READ_THRESHOLD", READ_THRESHOLD as u64),
    ("WRITE_THRESHOLD", WRITE_THRESHOLD as u64),
];

/// What the bits mean, in the order of `SIGNALS`.
pub const MEANINGS: [&str; SIGNALS.len()] = [
    "bytes are queued to be read",
    "there is space to write to",
    "the other end is closed",
    "the other end may not write",
    "this end may not write",
    "as many bytes are queued as the read threshold says",
    "there is as much space as the write threshold says",
];

/// A signal word, or the mask of a wait.
pub const SIGNAL_WORD: Values = Values::Bits { what: "a signal", names: SIGNALS, none: "no signal" };
/// A rights word.
pub const RIGHTS: Values = Values::Bits {
    what: "a right",
    names: &[("read", READ_RIGHT), ("write", WRITE_RIGHT), ("manage", MANAGE_RIGHT)],
    none: "none",
};
/// The kind of a pair.
pub const KIND: Values = Values::One { what: "a kind", names: &[("stream", STREAM), ("datagram", DATAGRAM)] };
/// A handle.
pub const HANDLE: Values = Values::One { what: "an end", names: &[("end1", 1), ("end2", 2)] };
/// What a disposition does to a target.
pub const DISPOSITION: Values =
    Values::One { what: "a disposition", names: &[("none", 0), ("disable", 1), ("enable", ENABLE)] };
/// The options of a read.
pub const READ_OPTIONS: Values = Values::Bits { what: "an option", names: &[("peek", PEEK)], none: "none" };
/// The options of a shutdown.
pub const SHUTDOWN_OPTIONS: Values = Values::Bits {
    what: "an option",
    names: &[("write", SHUT_WRITE), ("read", SHUT_READ)],
    none: "neither write nor read",
};

/// The right to read.
pub const READ_RIGHT: u64 = 1;
/// The right to write.
pub const WRITE_RIGHT: u64 = 2;
/// The right to set dispositions.
pub const MANAGE_RIGHT: u64 = 4;
/// The kind of a stream pair.
pub const STREAM: u64 = 0;
/// The kind of a datagram pair.
pub const DATAGRAM: u64 = 1;
/// The disposition that enables writing.
pub const ENABLE: u64 = 2;
/// The option that makes a read a peek.
pub const PEEK: u64 = 8;

/// The option that shuts writing down.
pub const SHUT_WRITE: u64 = 1;
/// The option that shuts reading down.
pub const SHUT_READ: u64 = 2;

/// The statuses of refused calls.
pub const STATUSES: [(i64, &str); 10] = [
    (-1, "INTERNAL"),
    (-3, "NO_RESOURCES"),
    (-10, "INVALID_ARGS"),
    (-11, "BAD_HANDLE"),
    (-14, "OUT_OF_RANGE"),
    (-20, "BAD_STATE"),
    (-22, "SHOULD_WAIT"),
    (-24, "PEER_CLOSED"),
    (-25, "NOT_FOUND"),
    (-30, "ACCESS_DENIED"),
];

/// A status by name and number.
pub fn status(number: i64) -> String {
    match STATUSES.iter().find(|(known, _)| *known == number) {
        Some((_, name)) => format!("{name} ({number})"),
        None => format!("{number}, which is no status"),
    }
}

/// The names of the bits of a signal word that are set, in the order of the bits; the others as one number.
pub fn signals(word: u32) -> Vec<String> {
    let known = SIGNALS.iter().filter(|(_, bit)| u64::from(word) & bit != 0);
    let mut names: Vec<String> = known.map(|(name, _)| name.to_string()).collect();
    let rest = u64::from(word) & !all(SIGNALS);
    if rest != 0 {
        names.push(format!("{rest:#x}"));
    }
    names
}

fn all(names: &[Name]) -> u64 {
    names.iter().fold(0, |bits, (_, bit)| bits | bit)
}

impl Values {
    /// A value as the text form has it: by name where every bit has one, else as a number.
    pub fn text(&self, value: u64) -> String {
        match self {
            Values::One { names, .. } => {
                let known = names.iter().find(|(_, number)| *number == value);
                known.map_or_else(|| number(value), |(name, _)| name.to_string())
            }
            Values::Bits { names, .. } if value != 0 && value & !all(names) == 0 => {
                let set: Vec<&str> =
                    names.iter().filter(|(_, bit)| value & bit != 0).map(|(name, _)| *name).collect();
                set.join("|")
            }
            Values::Bits { .. } if value > 9 => format!("{value:#x}"),
            _ => number(value),
        }
    }

    /// A value in words.
    pub fn words(&self, value: u64) -> String {
        match self {
            Values::Bits { none, .. } if value == 0 => none.to_string(),
            _ => self.text(value),
        }
    }

    /// What can be written, for a message.
    pub fn expected(&self, most: u64) -> String {
        let listed = |names: &[Name]| names.iter().map(|(name, _)| *name).collect::<Vec<_>>().join(", ");
        match self {
            Values::Number => format!("a number from 0 to {most}"),
            Values::One { what, names } => format!("{what} ({}) or a number from 0 to {most}", listed(names)),
            Values::Bits { what, names, .. } => {
                format!("{what} ({}), several joined by |, or a number from 0 to {most}", listed(names))
            }
        }
    }

    /// The number that a name stands for.
    pub fn named(&self, text: &str) -> Option<u64> {
        match self {
            Values::Number => None,
            Values::One { names, .. } | Values::Bits { names, .. } => {
                names.iter().find(|(name, _)| *name == text).map(|(_, number)| *number)
            }
        }
    }
}

/// A number as text; one near the end of 64 bits is easier to read in hexadecimal.
fn number(value: u64) -> String {
    if value > u64::MAX / 2 {
        format!("{value:#x}")
    } else {
        value.to_string()
    }
}
