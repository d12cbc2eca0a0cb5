//! The original's processes, and stand-ins for the jobs and threads that they
//! name. Of a process only its handle table and its memory are used.

#[path = "../../target/zcore/task/process.rs"]
mod process;
mod stubs;
pub use self::process::*;
pub use self::stubs::*;
