//! The original's system calls on sockets.

pub use crate::object::*;
pub use crate::task::Thread;
pub use crate::user::{UserInPtr, UserOutPtr};
pub use crate::{ZxError, ZxResult};

#[path = "../../target/zcore/syscall/socket.rs"]
mod socket;

/// A system call made by a thread.
pub struct Syscall<'a> {
    pub thread: &'a Thread,
}
