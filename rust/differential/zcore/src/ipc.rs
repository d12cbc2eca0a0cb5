//! The original's sockets, with the capacity of `crate::capacity` in place of
//! their constant.

#[path = "../../target/zcore/ipc/socket.rs"]
mod socket;
pub use self::socket::*;
