//! Stand-in for the rights of a handle, with the public header's numbers.

use bitflags::bitflags;

bitflags! {
    /// What a handle allows.
    pub struct Rights: u32 {
        const READ = 1 << 2;
        const WRITE = 1 << 3;
        const WAIT = 1 << 14;
        const MANAGE_SOCKET = 1 << 20;
        const DEFAULT_SOCKET = Self::READ.bits | Self::WRITE.bits | Self::WAIT.bits | Self::MANAGE_SOCKET.bits;
    }
}
