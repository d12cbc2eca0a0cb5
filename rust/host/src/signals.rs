//! The signal word of an end.

use crate::flags::flags;

flags! {
    /// Signals of an end, or the mask of a wait. The bits are those of Zircon's public header; a mask may
    /// have others too, which no socket sets.
    ///
    /// A wait fires once the end's word [intersects](Signals::intersects) its mask. `!` is over all 32 bits.
    ///
    /// ```
    /// use murgwethan::Signals;
    ///
    /// let word = Signals::READABLE | Signals::WRITABLE;
    /// assert!(word.contains(Signals::READABLE));
    /// assert_eq!(word & !Signals::WRITABLE, Signals::READABLE);
    /// assert_eq!(format!("{word:?} {word:#x}"), "Signals(READABLE | WRITABLE) 0x3");
    /// ```
    Signals of u32::MAX;
    /// Bytes are queued to be read.
    READABLE = 0x1;
    /// There is space to write to.
    WRITABLE = 0x2;
    /// The other end is closed.
    PEER_CLOSED = 0x4;
    /// The other end may not write.
    PEER_WRITE_DISABLED = 0x10;
    /// This end may not write.
    WRITE_DISABLED = 0x20;
    /// As many bytes are queued as the read threshold says.
    READ_THRESHOLD = 0x400;
    /// There is as much space as the write threshold says.
    WRITE_THRESHOLD = 0x800;
}

impl Signals {
    /// The signals of a word.
    pub const fn from_bits(bits: u32) -> Signals {
        Signals(bits)
    }
}
