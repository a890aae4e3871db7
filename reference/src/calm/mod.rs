//! Calm runs: plain ones with orders, each given in a quiet journal. What holds in quiet and at each row, and a
//! potential that falls with each delivery.

mod orders;
mod potential;
mod quiet;
mod rows;
mod run;
mod seen;
mod transactions;

pub use orders::{calm_order, some_mood, Mood};
pub use run::calm;
