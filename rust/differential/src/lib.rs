//! Scripts of calls on a socket pair, the original as the oracle of their
//! listings, and what is needed to compare another program with it.

pub mod branches;
pub mod cases;
pub mod command;
pub mod compare;
pub mod draw;
pub mod endings;
pub mod enumerate;
pub mod generate;
pub mod long;
pub mod machine;
pub mod oracle;
pub mod random;
pub mod record;
pub mod sample;
pub mod shrink;
pub mod sockets;
pub mod source;
pub mod stream;
pub mod tables;
pub mod tally;
pub mod values;
pub mod waits;
