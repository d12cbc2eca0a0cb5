//! Lists of calls, plain ones and those over user memory, made on the exported
//! pair and on the original, and compared after every call.

pub mod call;
pub mod compare;
pub mod exported;
pub mod generate;
pub mod original;
pub mod side;
pub mod tally;
