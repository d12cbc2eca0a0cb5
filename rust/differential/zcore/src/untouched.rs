//! The original's sockets byte for byte: their capacity is the constant 262144.

#[path = "../../target/zcore/untouched/socket.rs"]
mod socket;
pub use self::socket::*;
