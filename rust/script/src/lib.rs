//! Scripts of calls on a socket pair: their records, their text form, and their listings explained in words
//! and as a page.

pub mod explain;
mod fold;
pub mod listing;
pub mod mistake;
pub mod names;
pub mod page;

pub mod pair;
pub mod record;
mod refusals;
pub mod table;
pub mod text;
pub mod trace;
mod words;
