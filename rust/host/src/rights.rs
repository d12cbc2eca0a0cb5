//! The rights word of an end.

use crate::flags::flags;

flags! {
    /// The rights of an end. Only the calls over user memory ask for them. There is no other bit: `!` is
    /// over these three.
    ///
    /// ```
    /// use murgwethan::Rights;
    ///
    /// assert_eq!(!Rights::MANAGE, Rights::READ | Rights::WRITE);
    /// assert_eq!(format!("{:?}", !Rights::MANAGE), "Rights(READ | WRITE)");
    /// ```
    Rights of 7;
    /// To read and peek.
    READ = 0x1;
    /// To write and shut down.
    WRITE = 0x2;
    /// To change the disposition.
    MANAGE = 0x4;
}

impl Rights {
    /// All three.
    pub const ALL: Rights = Rights(7);

    /// The rights of a word, if it has no other bit.
    pub const fn from_bits(bits: u32) -> Option<Rights> {
        if bits <= Rights::ALL.0 {
            Some(Rights(bits))
        } else {
            None
        }
    }
}
