//! The value types: names, keys, arcs, operations, commands and the records of groups.

mod arc;
mod commands;
mod dials;
mod keys;
mod members;
mod names;
mod numbers;
mod ops;
mod orders;
mod records;
mod transactions;

pub use arc::*;
pub use commands::*;
pub use dials::*;
pub use keys::*;
pub use members::*;
pub use names::*;
pub use numbers::*;
pub use ops::*;
pub use orders::*;
pub use records::*;
pub use transactions::*;
