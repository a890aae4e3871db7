//! Rows as text: one value of JSON each, in one spelling, and the files that store them.

mod coded;
mod file;
mod json;
mod parse;
mod records;

pub use coded::Coded;
pub use file::*;
pub use json::*;
pub use parse::parse;
